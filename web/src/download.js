// Has the browser save files.

import {bytesOf} from "./bytes.js";
import {make} from "./dom.js";

const KEPT = 10_000; // milliseconds that the browser may take to begin

/**
 * Saves a text: a byte for each character, or in UTF-8.
 * @param {string} name
 * @param {string} text
 * @param {boolean} isUnicode
 */
export function save(name, text, isUnicode = false) {
  saveBlob(name, new Blob([isUnicode ? text : bytesOf(text)], {type: "text/plain"}));
}

/**
 * @param {string} name
 * @param {Blob} blob
 */
export function saveBlob(name, blob) {
  const address = URL.createObjectURL(blob);
  make("a", {href: address, download: name}).click();
  setTimeout(() => URL.revokeObjectURL(address), KEPT);
}
