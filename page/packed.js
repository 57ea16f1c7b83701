// What stands in the page as gzip packs it, in base 85: five letters are four bytes, and not three
// of four as in base 64.

/** The letters of base 85 in their order, as Python has them. */
const LETTERS =
  '0123456789ABCDEFGHIJKLMNOPQRSTUVWXYZabcdefghijklmnopqrstuvwxyz!#$%&()*+-;<=>?@^_`{|}~';

/** The bytes that a text in base 85 stands for: a long one takes some milliseconds. */
export function bytesOfText(/** @type {string} */ text) {
  const groups = Math.ceil(text.length / 5), view = new DataView(new ArrayBuffer(4 * groups));
  const values = new Uint8Array(128), base = LETTERS.length;
  for (let value = 0; value < base; value++) values[LETTERS.charCodeAt(value)] = value;
  // (what is missing at the end is as if it were the last letter)
  const whole = text.padEnd(5 * groups, LETTERS.at(-1));
  for (let group = 0, at = 0; group < groups; group++) {
    let four = 0;
    for (const end = at + 5; at < end; at++) four = base * four + values[whole.charCodeAt(at)];
    view.setUint32(4 * group, four);
  }
  return new Uint8Array(view.buffer, 0, text.length - groups);
}

/** What was packed, in this form. */
export async function unpacked(/** @type {Uint8Array} */ packed, form = 'gzip') {
  // (tsc doesn't know it in each version; WebKit's workers can't read the stream of a blob)
  const { DecompressionStream } = /** @type {any} */ (globalThis);
  const { writable, readable } = new DecompressionStream(form), writer = writable.getWriter();
  writer.write(packed);
  writer.close();
  return new Response(readable).arrayBuffer();
}
