// Unpacks bytes that are gzip in base 85, as `bundle` writes them: four bytes are five digits.

const FIRST = 40;     // the digits are the characters from "(" on
const STAND_IN = 125; // but "}" is there for "<", which would begin a tag
const TAG = 60;

/** @param {string | null | undefined} text */
export async function unpacked(text) {
  const stream = new Blob([bytesFrom((text ?? "").trim())]).stream().pipeThrough(new DecompressionStream("gzip"));
  return new Uint8Array(await new Response(stream).arrayBuffer());
}

// The last group may be short: it is read as if it ended in the highest digits, and what they bring is cut
// off.
/** @param {string} digits */
function bytesFrom(digits) {
  const groups = Math.ceil(digits.length / 5);
  const bytes = new DataView(new ArrayBuffer(groups * 4));
  for (let group = 0; group < groups; group++) {
    let number = 0;
    for (let place = group * 5; place < group * 5 + 5; place++)
      number = number * 85 + (place < digits.length ? digitOf(digits.charCodeAt(place)) : 84);
    bytes.setUint32(group * 4, number);
  }
  return new Uint8Array(bytes.buffer, 0, Math.floor((digits.length * 4) / 5));
}

/** @param {number} code */
function digitOf(code) {
  return (code === STAND_IN ? TAG : code) - FIRST;
}
