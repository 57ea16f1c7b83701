// What stands in the texts that calls write: their rows, the records that a call read of a file, the
// parts of what is answered of a station or a table, what is told of a job without codes, the stations
// of a list, the residuals and the readings of a station, the columns and the differences of a table.
// Nothing here decides anything.
import { turned } from './numbers.js';

/** A cell of a row that the core wrote, and the comma after it. */
const CELL = /(?:"(?:[^"]|"")*"|[^,\n]*),/gy;

/** What a cell says, with the comma after it: quotes around it are left out, and are one of two. */
function fieldIn(/** @type {string} */ cell) {
  const said = cell.slice(0, -1);
  return said.startsWith('"') ? said.slice(1, -1).replaceAll('""', '"') : said;
}

/** The fields of a row that the core wrote: it stands on one line. */
const fieldsOf = (/** @type {string} */ line) =>
  line.includes('"') ? Array.from(`${line},`.match(CELL) ?? [], fieldIn) : line.split(',');

/** The lines of a text that the core wrote, each in its fields. */
export const linesIn = (/** @type {string} */ text) =>
  text.split('\n').filter(line => line !== '').map(fieldsOf);

/**
 * The rows below the titles of a text, each with its fields by these.
 * @returns {Record<string, string>[]}
 */
export function rowsIn(/** @type {string} */ text) {
  const [titles, ...rows] = linesIn(text);
  return rows.map(fields =>
    Object.fromEntries(titles.map((title, nth) => [title, fields[nth]])));
}

/** The byte that ends a line. */
const LINE_FEED = 10;

/**
 * The text of some of the bytes of a call.
 * @type {(bytes: Uint8Array, first: number, end: number) => string}
 */
const textAt = (bytes, first, end) => new TextDecoder().decode(bytes.subarray(first, end));

/**
 * The parts of a text, by their titles: before each stands a line of its title and of how many bytes
 * it has.
 */
export function partsIn(/** @type {Uint8Array} */ bytes) {
  /** @type {Record<string, string>} */
  const parts = {};
  for (let at = 0; at < bytes.length;) {
    const first = bytes.indexOf(LINE_FEED, at) + 1;
    const [title, count] = textAt(bytes, at, first).split(' ');
    at = first + Number(count);
    parts[title] = textAt(bytes, first, at);
  }
  return parts;
}

/**
 * The fields of the records that the core read of a file: before those of each record stands a line
 * of how many bytes each of them has.
 */
export function recordsIn(/** @type {Uint8Array} */ bytes) {
  /** @type {string[][]} */
  const records = [];
  for (let at = 0; at < bytes.length;) {
    const first = bytes.indexOf(LINE_FEED, at) + 1;
    const counts = textAt(bytes, at, first).split(',').map(Number);
    at = first;
    records.push(counts.map(count => textAt(bytes, at, at += count)));
  }
  return records;
}

/**
 * The different values, in the order in which they come first.
 * @template T
 * @param {T[]} values
 */
export const each = values => [...new Set(values)];

/**
 * What was told of a station where codes were put in: its sets, the target that opens them and the
 * one at which the first turns, and how many readings stay outside before and after them; how many
 * directions are missing of how many, and how many targets after the sets seem to be of another
 * station; whether the target that opens sets by targets is read again after them; which sets are
 * equal, and the targets whose zenith angles differ. Of one without sets no more than its readings,
 * all before them; and of one that isn't recognized these, its fault, the number of the block, and
 * the explanation of the fault, once that was asked for. Of each whether it is set up again, and how
 * often its set-up line was written again.
 * @typedef {{ station: string, isAgain: boolean, writtenAgain: number, sets: number,
 *   targets: number, opening: string, turning: string, before: number, after: number,
 *   missing: number, full: number, others: number, isOpenedAgain: boolean,
 *   equal: { earlier: number, later: number }[],
 *   zeniths: { target: string, mgon: number }[], fault?: string, block?: number,
 *   explanation?: import('./faults.js').Explanation }} Recognized
 * A row of what is told: of a station two numbers and two names.
 * @typedef {{ first: number, second: number, name: string, other: string }} Told
 */

/**
 * What each row says of its station, by what is told.
 * @type {Record<string, (one: Recognized, told: Told) => void>}
 */
const TOLD = {
  'fault': (one, { first, name }) => Object.assign(one, { block: first, fault: name }),
  'sets': (one, { first, second }) => Object.assign(one, { sets: first, targets: second }),
  'outside': (one, { first, second }) => Object.assign(one, { before: first, after: second }),
  'ends': (one, { name, other }) => Object.assign(one, { opening: name, turning: other }),
  'missing': (one, { first, second }) => Object.assign(one, { missing: first, full: second }),
  'after': (one, { first, second }) =>
    Object.assign(one, { others: first, isOpenedAgain: second === 1 }),
  'equal': (one, { first, second }) => one.equal.push({ earlier: first, later: second }),
  'zeniths': (one, { first, name }) => one.zeniths.push({ target: name, mgon: first }),
};

/**
 * What was told of each station, in the order of the rows: that of its set-up is the first of each.
 * @returns {Recognized[]}
 */
export function recognizedIn(/** @type {string} */ rows) {
  /** @type {Recognized[]} */
  const stations = [];
  for (const { station, told, first, second, name, other } of rows ? rowsIn(rows) : []) {
    const numbers = { first: Number(first), second: Number(second) };
    if (told === 'set-up') stations.push({
      station, writtenAgain: numbers.first, isAgain: numbers.second === 1, sets: 0, targets: 0,
      opening: '', turning: '', before: 0, after: 0, missing: 0, full: 0, others: 0,
      isOpenedAgain: false, equal: [], zeniths: [],
    });
    else TOLD[told](/** @type {Recognized} */ (stations.at(-1)), { ...numbers, name, other });
  }
  return stations;
}

/**
 * What the line of a refusal names by a number, as the call wrote it: a block of the field file, a
 * row of the sheet or the table, a row of the sheet among those of targets, sets or observations, or
 * a target or an observation of the station; its row among all, where it is counted by its kind; and
 * of what stands in a file, and of the part of it that is meant, the place of the first byte, and
 * that after the last.
 * @typedef {{ what: 'block' | 'sheet row' | 'table row' | 'target' | 'set' | 'observation' |
 *   'station target' | 'station observation', number: number, row?: number, first?: number,
 *   end?: number, meantFirst?: number, meantEnd?: number }} Named
 */

/**
 * What a refusal names, if anything.
 * @returns {Named | undefined}
 */
export function namedIn(/** @type {string} */ text) {
  const [named] = rowsIn(text);
  if (!named) return undefined;
  const of = (/** @type {string} */ number) => number === '' ? undefined : Number(number);
  const { number, row, first, end } = named, what = /** @type {Named['what']} */ (named.what);
  const meant = { meantFirst: of(named.meant_first), meantEnd: of(named.meant_end) };
  return { what, number: Number(number), row: of(row), first: of(first), end: of(end), ...meant };
}

// ---------------------------------------------------------------- lists

/**
 * A two-face direction of a list: its face differences in mgon.
 * @typedef {{ set: string, target: string, twoC: string, twoI: string }} Pair
 * A station of a list: how many sets, targets and two-face directions it has, the names of its
 * targets, and its rows, below their titles.
 * @typedef {{ name: string, sets: number, targets: number, directions: number,
 *   targetNames: string[], rows: string }} Listed
 */

/** The cell of a row that stands there in a text. */
function cellAt(/** @type {string} */ text, /** @type {number} */ at) {
  CELL.lastIndex = at;
  return CELL.exec(text)?.[0] ?? '';
}

/**
 * The stations of a list that the core wrote as rows, each with its rows. They may be many, and
 * stand station by station and set by set: so of each row no more is read than its target.
 * @returns {Listed[]}
 */
export function stationsOf(/** @type {string} */ text) {
  const after = (/** @type {number} */ at) => text.indexOf('\n', at) + 1;
  const titles = text.slice(0, after(0));
  /** @type {Listed[]} */
  const stations = [];
  for (let at = titles.length; at < text.length;) {
    const station = cellAt(text, at), first = at, cells = new Set();
    let sets = 0, directions = 0, set = '';
    for (; text.startsWith(station, at); at = after(at)) {
      const next = cellAt(text, at + station.length);
      if (next !== set) sets += 1;
      set = next;
      directions += 1;
      cells.add(cellAt(text, at + station.length + set.length));
    }
    const targetNames = [...cells].map(fieldIn), rows = titles + text.slice(first, at);
    const targets = targetNames.length, name = fieldIn(station);
    stations.push({ name, sets, targets, directions, targetNames, rows });
  }
  return stations;
}

/**
 * The two-face directions of a station, in the order of its list.
 * @returns {Pair[]}
 */
export const pairsOf = (/** @type {Listed} */ { rows }) => rowsIn(rows).map(row =>
  ({ set: row.set, target: row.target, twoC: row['2c'], twoI: row['2i'] }));

/** Whether every target was observed in every set, so that means are least squares. */
export const isComplete = (/** @type {Listed} */ { sets, targets, directions }) =>
  sets * targets === directions;

// ---------------------------------------------------------------- residuals

/**
 * An observation as the call wrote it: its residual in mgon, with three decimals.
 * @typedef {{ set: string, target: string, residual: string }} Residual
 * @typedef {{ rows: Residual[], sets: string[], targets: string[] }} Residuals
 */

/**
 * The residuals of a station, in the order of the rows that the program wrote.
 * @returns {Residuals}
 */
export function residualsIn(/** @type {string} */ text) {
  const rows = rowsIn(text).map(({ set, target, residual }) => ({ set, target, residual }));
  return { rows, sets: each(rows.map(row => row.set)), targets: each(rows.map(row => row.target)) };
}

/** The size of a number that a call wrote, to be compared with that of others. */
export const sizeOf = (/** @type {string} */ number) => Math.abs(Number(number));

/** The first of the residuals of the greatest size. */
export const greatestOf = (/** @type {{ rows: Residual[] }} */ { rows }) =>
  rows.reduce((a, b) => sizeOf(b.residual) > sizeOf(a.residual) ? b : a);

/**
 * How accurate a station is, as the call wrote it: the degrees of freedom, the standard deviations of
 * one two-face direction and of each adjusted direction in mgon, and the sum of the squares of all
 * residuals in mgon². Where there are no degrees the others are empty, and the second is where not
 * every set has every target.
 * @typedef {{ degrees: number, deviation: string, ofAdjusted: string, squares: string }} Accuracy
 */

/**
 * How accurate a station is.
 * @returns {Accuracy}
 */
export function accuracyIn(/** @type {string} */ text) {
  const [{ degrees, deviation, 'of adjusted': ofAdjusted, squares }] = rowsIn(text);
  return { degrees: Number(degrees), deviation, ofAdjusted, squares };
}

/**
 * What all 2c of a station, or all 2i, say together, as the call wrote it, in mgon: their mean, half
 * of it, and the greatest less the least.
 * @typedef {{ mean: string, half: string, spread: string }} FaceMean
 */

/**
 * What the face differences of a station say together.
 * @returns {{ twoC: FaceMean, twoI: FaceMean }}
 */
export function facesIn(/** @type {string} */ text) {
  const [twoC, twoI] = rowsIn(text)
    .map(({ mean, 'half of mean': half, spread }) => ({ mean, half, spread }));
  return { twoC, twoI };
}

/**
 * The verdict on a table, field by field, as the call wrote it: that it agrees, or the name of the
 * fault; of which row, columns, target or observation that speaks; how far the table is apart, and
 * the limit, in units of 0.001 mgon.
 * @typedef {Record<string, string>} Verdict
 */

/**
 * A target that a set reads in both faces, by the row of the report: in gon what was read in face I
 * and in face II, and the mean of both less that of the first row of the set; in mgon 2c and 2i; and
 * the zenith angles of both faces and their mean.
 * @typedef {{ set: string, target: string, one: string, two: string, mean: string, twoC: string,
 *   twoI: string, zenithOne: string, zenithTwo: string, zenith: string }} Reading
 */

/** An angle that was read, without the zero that the row has at its end. */
const asRead = (/** @type {string} */ gon) => gon.slice(0, -1);

/**
 * The readings of a station, in the order of the rows that the program wrote.
 * @returns {Reading[]}
 */
export function readingsIn(/** @type {string} */ text) {
  let first = { set: '', direction: '' };
  return rowsIn(text).map(({ set, target, direction, ...row }) => {
    if (set !== first.set) first = { set, direction };
    return {
      set, target, one: asRead(row['face one']), two: asRead(row['face two']),
      mean: turned(direction, first.direction), twoC: row['2c'], twoI: row['2i'],
      zenithOne: asRead(row['zenith one']), zenithTwo: asRead(row['zenith two']),
      zenith: row['zenith mean'],
    };
  });
}

// ---------------------------------------------------------------- tables

/**
 * By which columns a table was read, counted from 1, and how many rows before, among and after its
 * targets, and units, were passed over.
 * @typedef {{ names: number, directions: number, before: number, among: number, after: number,
 *   units: number }} Columns
 */

/**
 * The columns by which a table was read; none where it has two.
 * @returns {Columns | undefined}
 */
export function columnsIn(/** @type {string} */ text) {
  const [row] = rowsIn(text);
  return row && /** @type {Columns} */ (
    Object.fromEntries(Object.entries(row).map(([title, number]) => [title, Number(number)])));
}

/**
 * By target what a table states and the least-squares direction, in gon, and their difference after
 * the best rotation, in mgon, as the call wrote them.
 * @typedef {{ target: string, stated: string, least: string, difference: string,
 *   fromMedian: string }} Difference
 */

/**
 * The differences of a table, in the order of the text that the call wrote.
 * @returns {Difference[]}
 */
export function differencesIn(/** @type {string} */ text) {
  const [, ...rows] = linesIn(text);
  return rows.map(([target, stated, least, difference, fromMedian]) =>
    ({ target, stated, least, difference, fromMedian }));
}
