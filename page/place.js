// Where a refusal stands: at a line of the field file, a row of a sheet or a table, or a target or
// an observation of the station. Which of them, and which bytes, a call says; here they are shown.
import { textOf } from './files.js';
import { pairsOf } from './rows.js';
import { text } from './texts.js';

/**
 * @typedef {import('./files.js').Input} Input
 * @typedef {import('./rows.js').Named} Named
 * A place: its name in words, and the lines around it with their numbers. In the line that is meant
 * the part from `first` to `end` is marked, or all of it.
 * @typedef {{ number: string, text: string, isMeant: boolean }} Line
 * @typedef {{ where: string, lines: Line[], first: number, end: number }} Place
 */

/** So many lines are shown before the one that is meant, and after it. */
const AROUND = 2;

/** So many bytes of a line are shown at most: longer ones are refused for that. */
export const MOST_SHOWN = 1024;

const LF = 10, CR = 13, BLANK = 32, BYTE = 255;

/** Whether a byte ends a line. */
const isEnd = (/** @type {number} */ byte) => byte === LF || byte === CR;

const signOf = (/** @type {number} */ byte) =>
  byte < 0x20 ? 0x2400 + byte : byte < 0x7f ? byte : 0xfffd;
/** A line's bytes as letters, those outside 20 to 7E (hex) as signs that are seen. */
export const seen = (/** @type {Uint8Array} */ bytes) =>
  Array.from(bytes.subarray(0, MOST_SHOWN), byte => String.fromCharCode(signOf(byte))).join('');
/** The same of a line of which each byte is a letter. */
export const seenText = (/** @type {string} */ line) =>
  seen(Uint8Array.from(line, sign => Math.min(sign.charCodeAt(0), BYTE)));

/**
 * The lines of a field file as an editor counts them, up to that of a block: that line, or no bytes
 * where there is none.
 */
export function lineOf(/** @type {Uint8Array} */ bytes, /** @type {number} */ block) {
  let blocks = 0, first = 0;
  for (let at = 0; at <= bytes.length; at++) {
    if (at < bytes.length && !isEnd(bytes[at])) continue;
    const line = bytes.subarray(first, at);
    if (line.some(byte => byte !== BLANK) && ++blocks === block) return line;
    first = at + 1;
  }
  return new Uint8Array();
}

/** Where a line ends that goes on at this byte: at the byte that ends it, or with the file. */
function lineEndAt(/** @type {Uint8Array} */ bytes, /** @type {number} */ at) {
  while (at < bytes.length && !isEnd(bytes[at])) at++;
  return at;
}

/** Where the line after one begins that ends there: a carriage return and a line feed end it. */
const nextAfter = (/** @type {Uint8Array} */ bytes, /** @type {number} */ end) =>
  end + (bytes[end] === CR && bytes[end + 1] === LF ? 2 : 1);

/**
 * The lines around a part of a file, with their numbers as an editor counts them; without an end
 * those before it alone.
 * @param {Uint8Array} bytes
 * @param {(line: Uint8Array) => string} shown
 * @param {number} first
 * @param {number} [end]
 */
function around(bytes, shown, first, end) {
  const begins = [];
  let at = 0;
  for (; at < first; at = nextAfter(bytes, lineEndAt(bytes, at))) begins.push(at);
  // (a byte order mark stands in the line of the first row)
  if (end !== undefined && at > first) begins.pop();
  /** @type {Line[]} */
  const lines = [];
  const show = (/** @type {number} */ number, /** @type {Uint8Array} */ line, isMeant = false) =>
    lines.push({ number: String(number), text: shown(line), isMeant });
  for (let nth = Math.max(0, begins.length - AROUND); nth < begins.length; nth++)
    show(nth + 1, bytes.subarray(begins[nth], lineEndAt(bytes, begins[nth])));
  if (end === undefined) return lines;
  show(begins.length + 1, bytes.subarray(first, end), true);
  let last = begins.length;
  // (a row may have line ends in quotes)
  for (at = first; at < end; at = nextAfter(bytes, lineEndAt(bytes, at))) last++;
  for (let more = 1; more <= AROUND && at < bytes.length; more++) {
    show(last + more, bytes.subarray(at, lineEndAt(bytes, at)));
    at = nextAfter(bytes, lineEndAt(bytes, at));
  }
  return lines;
}

/**
 * A block of a field file.
 * @param {Named} named
 * @param {Input} file
 * @returns {Place}
 */
function blockIn({ number, first, end, meantFirst = 0, meantEnd = 0 }, { bytes, shown }) {
  if (first === undefined) {
    const lines = around(bytes, seen, bytes.length);
    return { where: text('endOfFile', { name: shown }), lines, first: 0, end: 0 };
  }
  const lines = around(bytes, seen, first, end);
  const about = { line: lines.find(one => one.isMeant)?.number ?? '', name: shown, block: number };
  const meant = { first: meantFirst - first, end: meantEnd - first };
  return { where: text('lineOfFile', about), lines, ...meant };
}

/** The bytes of a line as their text, which may be cut. */
const shownText = (/** @type {Uint8Array} */ line) => textOf(line.subarray(0, MOST_SHOWN));

/**
 * A row of a sheet or a table: the nth of all, or of those of a kind.
 * @param {Named} named
 * @param {Input | undefined} file
 * @returns {Place | null}
 */
function rowIn({ what, number, row, first, end }, file) {
  if (!file || first === undefined) return null;
  const lines = around(file.bytes, shownText, first, end);
  const kind = KINDS[what] ?? '', name = file.shown;
  const about = { row: row ?? number, name, kind, nth: number };
  const meant = lines.find(one => one.isMeant)?.text ?? '';
  return { where: text(kind ? 'rowOfKind' : 'rowOfFile', about), lines, first: 0, end: meant.length };
}

/**
 * What the rows of a sheet are called that are counted by their kind.
 * @type {Partial<Record<Named['what'], string>>}
 */
const KINDS = { target: 'target', set: 'set', observation: 'obs' };

/**
 * A target or an observation of a station, which stands in no file.
 * @param {Named} named
 * @param {import('./files.js').Station} station
 * @returns {Place}
 */
function inStation({ what, number }, { listed }) {
  const about = { nth: number, station: listed.name };
  if (what === 'station target')
    return alone(text('targetOfStation', about), listed.targetNames[number - 1]);
  const { set, target } = pairsOf(listed)[number - 1];
  return alone(text('observationOfStation', about), text('setAndTarget', { set, target }));
}

/**
 * A line of its own, which stands in no file.
 * @param {string} where
 * @param {string} line
 * @returns {Place}
 */
const alone = (where, line) =>
  ({ where, lines: [{ number: '', text: line, isMeant: true }], first: 0, end: line.length });

/**
 * What a refusal speaks of; none where it names no place, or there is nothing.
 * @param {import('./answers.js').Answer} answer
 * @param {import('./files.js').Station} [station]
 * @returns {Place | null}
 */
export function placeOf({ named, field, other }, station) {
  if (!named) return null;
  if (named.what === 'block') return blockIn(named, field);
  if (!named.what.startsWith('station')) return rowIn(named, other);
  return station ? inStation(named, station) : null;
}
