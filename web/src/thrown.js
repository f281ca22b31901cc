// What was thrown, which may be anything, as an error.

/**
 * @param {unknown} thrown
 * @returns {Error}
 */
export function errorOf(thrown) {
  return thrown instanceof Error ? thrown : new Error(String(thrown));
}
