// Texts whose characters are bytes, as for the program.

// A character is one byte, as for the program. One that has no byte is none that cards have, either.
/** @param {string} text */
export function bytesOf(text) {
  const bytes = new Uint8Array(text.length);
  for (let place = 0; place < text.length; place++) {
    const code = text.charCodeAt(place);
    bytes[place] = code < 256 ? code : 255;
  }
  return bytes;
}

const MOST_AT_ONCE = 8192; // bytes that are made into characters by one call

const LATIN = new TextDecoder("latin1");

/** @param {Uint8Array} bytes */
export function textOfBytes(bytes) {
  // (the decoder is ten times as fast, but gives other characters to some bytes above 127)
  const plain = LATIN.decode(bytes);
  if (!/[^\0-\x7f]/.test(plain)) return plain;
  let text = "";
  for (let place = 0; place < bytes.length; place += MOST_AT_ONCE)
    text += String.fromCharCode(...bytes.subarray(place, place + MOST_AT_ONCE));
  return text;
}
