// What a file is, by what it holds, and which station a result belongs to, by names and by content.
import { each } from './rows.js';

/**
 * What a file is: a field file, a sheet or a table, or a workbook of which a table is taken; or why
 * it is none of them.
 * @typedef {'field' | 'sheet' | 'table' | 'workbook' | 'spreadsheet' | 'utf16' | 'empty' |
 *   'unread' | 'other'} Kind
 * A file that was handed in: `path` is where it lies in a folder that was, or else its name,
 * `handle` that by which it is read again, where there is one, `shown` its name as the page shows
 * it, `choice` the station that the user chose for it, `unit` that of a table, if it isn't gon,
 * and `columns` those of its names and directions, if they are stated, `station` the name that the
 * user gave to a field file without one, `typed` the name that is being typed, `original` the
 * field file that a marked copy is of, or the workbook of a table, and `taken` the table of a
 * workbook. `numbers` are those of sets and of targets that the user stated of a station by its
 * name, or of a job's only one by no name, and `typing` what is being typed of them. `code` is the
 * one whose blocks begin stations, `again` what a name that comes again is; `others` says whether
 * stations that aren't recognized stay outside.
 * `changes` are those of its lines, where a copy with these stands in its place, and `given` is it
 * then as it was handed in; `changing` has by a line's number what is being typed of its change.
 * `saved` says of the stations of a field file by their names what was saved of them last, and
 * `unfolded` has those whose readings the user unfolded. `recorded` has by the language the lines of
 * what it recorded of instrument and time, and is there with the digest once the file was judged.
 * `rows` has the fields of the first rows of a sheet, and of the rows of a table by each separator
 * that it may have: the core reads them before the file is judged. `titles` may be a table's: of
 * its first row with several fields.
 * @typedef {{ name: string, path: string, handle?: any, shown: string, bytes: Uint8Array,
 *   kind: Kind, digest: string, choice?: { field: Input, name: string }, unit?: Unit,
 *   columns?: number[], station?: string, typed?: string, original?: Input, taken?: Input,
 *   numbers?: Map<string, Numbers>, typing?: Map<string, Record<string, string>>, code?: string,
 *   typedCode?: string, again?: Again, others?: boolean,
 *   saved?: Map<string, () => string>, unfolded?: Set<string>, recorded?: Record<string, string[]>,
 *   rows?: string[][], titles?: string[], changes?: import('./changes.js').Change[],
 *   changing?: Map<number, Changing>, given?: Input }} Input
 * What is being typed of a change of a line: the reason and the new name of its point, and what was
 * said of that last.
 * @typedef {{ reason?: string, newName?: string, said?: () => string }} Changing
 * How many sets were read to the end at a station, and how many targets they have: each 0 where it
 * is not stated.
 * @typedef {{ sets: number, targets: number }} Numbers
 * The unit of a table's directions.
 * @typedef {'gon' | 'degrees' | 'dmmss'} Unit
 * What a station is whose name comes again: the same set-up, whose readings go on, or another one.
 * @typedef {'same' | 'another'} Again
 * A station of a field file, with all that is answered of it once that was asked for.
 * @typedef {{ field: Input, listed: import('./rows.js').Listed,
 *   whole?: import('./answers.js').Results }} Station
 */

/** So many bytes at the beginning of a file tell what it is. */
export const HEAD = 4096;

/** So many bytes of a sheet have the station of its first row; no table of a station has more. */
const FIRST_ROW = 256, MOST_OF_TABLE = 2 ** 20;

/** The first two bytes of a text in UTF-16, in either order. */
const UTF16_MARKS = [0xfffe, 0xfeff];

const EXTENSION = /\.[^.]*$/;
const GSI_WORD = /^\*?\d\d[\d.?]{4}[+-]/;
const DIRECTION = String.raw`"?[+-]?\d[\d.,:'"°′″’”-]*(?:e[+-]?\d+)?(?: ?gon)?"?`;
/** A direction that is no other number: with three decimals at least, or with minutes. */
const LONG_DIRECTION = String.raw`[+-]?\d{1,3}(?:[.,]\d{3,}|[-:°] ?[\d.,:'"°′″’” -]*)(?: ?gon)?`;
/**
 * A row of a table: a number ends it, or where blanks or bars separate, all is numbers but a name,
 * or a direction ends it.
 */
const ROW = new RegExp([
  `[,;\\t]\\s*${DIRECTION}[,;\\s]*$`, `^\\s*\\S+(?:\\s+${DIRECTION})+\\s*$`,
  `\\S[\\s|]+${LONG_DIRECTION}[|\\s]*$`,
].join('|'), 'i');
/** Of how many lines of a table one is a row at least: others may be titles. */
const LINES_PER_ROW = 3;
/** What a sheet begins with, and the separator that a spreadsheet may have put there. */
const SHEET = /^"?sheet"?([,;\t])/;
/** The units of tables: the place of each is the number by which the calls know it. */
export const UNITS = /** @type {Unit[]} */ (['gon', 'degrees', 'dmmss']);
/** By what the fields of a table may be separated. */
const SEPARATORS = [',', ';', '\t', ' '];

/** The text of bytes; what is no text shows as a sign. */
export const textOf = (/** @type {Uint8Array} */ bytes) => new TextDecoder().decode(bytes);

/** Signs of a name that are not seen, or change the order in which others are. */
export const UNSEEN =
  /[\0-\x1f\x7f-\x9f\u00ad\u061c\u200b-\u200f\u2028-\u202e\u2060-\u206f\ufeff]/g;

function escaped(/** @type {string} */ sign) {
  const digits = sign.charCodeAt(0).toString(16);
  return digits.length > 2 ? `\\u{${digits}}` : `\\x${digits.padStart(2, '0')}`;
}

/** How often each name stands among these: of many files each is looked up. */
function countsOfNames(/** @type {string[]} */ names) {
  /** @type {Map<string, number>} */
  const counts = new Map();
  for (const name of names) counts.set(name, (counts.get(name) ?? 0) + 1);
  return counts;
}

/**
 * Says how files are shown, so that they are told apart: by their names, those of one name by their
 * paths, and those of one path each with a number of its own. What is not seen is shown as an
 * escape.
 */
export function tellApart(/** @type {Input[]} */ files) {
  const all = countsOfNames(files.map(file => file.name));
  const names = files.map(({ name, path }) =>
    (all.get(name) === 1 ? name : path).replace(UNSEEN, escaped));
  const counts = countsOfNames(names), taken = new Set(names);
  /** @type {Map<string, number>} */
  const before = new Map();
  files.forEach((file, at) => {
    const name = names[at], own = (before.get(name) ?? 0) + 1;
    file.shown = name;
    if (counts.get(name) === 1) return;
    before.set(name, own);
    for (let nth = own; taken.has(file.shown); nth++) file.shown = `${name} (${nth})`;
    taken.add(file.shown);
  });
}

/** Whether a file plays a part: it is a field file, a sheet or a table, or has one in it. */
export const isUsed = (/** @type {{ kind: Kind }} */ { kind }) =>
  ['field', 'sheet', 'table', 'workbook'].includes(kind);

/** The file that was handed in, of a file that may be a marked copy of it, or its table. */
export const originalOf = (/** @type {Input} */ file) => file.original ?? file;

/** Files with the tables that are taken of them. */
export const withTaken = (/** @type {Input[]} */ files) =>
  files.flatMap(file => [file, ...file.taken ? [file.taken] : []]);

/** The folder of a file, as far as it is known. */
const folderOf = (/** @type {Input} */ { path }) => path.slice(0, path.lastIndexOf('/') + 1);

/** The field files that lie where a file does, or all where none does. */
function besideFile(/** @type {Input} */ file, /** @type {Input[]} */ fields) {
  const near = fields.filter(field => folderOf(field) === folderOf(file));
  return near.length > 0 ? near : fields;
}

/** The name of a file without what stands after its last point. */
export const stemOf = (/** @type {{ name: string }} */ file) => file.name.replace(EXTENSION, '');

/**
 * What a file is. Field files have GSI words in their lines, sheets begin with 'sheet', tables have
 * rows that end with a number. One with its unit makes a table too, which is then refused at that
 * row.
 * @returns {Kind}
 */
export function kindOf(/** @type {string} */ name, /** @type {Uint8Array} */ bytes) {
  if (bytes.length === 0) return 'empty';
  if (UTF16_MARKS.includes(256 * bytes[0] + bytes[1])) return 'utf16';
  const head = textOf(bytes.subarray(0, HEAD));
  const lines = head.split(/[\r\n]+/).filter(line => line.trim() !== '');
  if (/\.gsi$/i.test(name) || lines.some(line => GSI_WORD.test(line))) return 'field';
  if (head.startsWith('PK') || /\.(xlsx?|ods)$/i.test(name)) return 'spreadsheet';
  if (head.startsWith('%PDF') || /[\0-\x08\x0e-\x1f]/.test(head)) return 'other';
  if (SHEET.test(head)) return 'sheet';
  const rows = lines.filter(line => ROW.test(line));
  return rows.length > 0 && rows.length * LINES_PER_ROW >= lines.length ? 'table' : 'other';
}

// ---------------------------------------------------------------- what belongs together

/**
 * Of a sheet or a table that which tells its station, and by what its fields may be separated.
 * @param {Input} file
 */
export function tellingPartOf({ kind, bytes }) {
  const isSheet = kind === 'sheet', most = isSheet ? FIRST_ROW : MOST_OF_TABLE;
  // (a part that isn't copied would be handed over with all of the file)
  const part = bytes.length > most ? bytes.slice(0, most) : bytes;
  const [, ofSheet = ','] = textOf(part.subarray(0, FIRST_ROW)).match(SHEET) ?? [];
  // (by one that it doesn't have each row is a single field)
  const separators = SEPARATORS.filter(one => part.includes(one.charCodeAt(0)));
  return { part, separators: isSheet ? [ofSheet] : separators };
}

/** The station that a sheet is of, by its first row, once that was read. */
export const stationOfSheet = (/** @type {Input} */ { rows = [] }) => rows[0]?.[2] ?? '';

/**
 * The field files with the longest name that begins this one, as in a folder: `NAME.STATION.csv`.
 */
function fieldsByName(/** @type {string} */ name, /** @type {Input[]} */ fields) {
  // (a copy with changed lines has the file's place, and another name)
  const given = (/** @type {Input} */ field) => originalOf(field).given ?? originalOf(field);
  const stem = (/** @type {Input} */ field) => stemOf(given(field));
  const fit = fields.filter(field =>
    [...'._-'].some(end => name.startsWith(`${stem(field)}${end}`)));
  const longest = Math.max(...fit.map(field => stem(field).length));
  return fit.filter(field => stem(field).length === longest);
}

/** The place of a station, as the list of files names it. */
export const placeName = (/** @type {Station} */ { field, listed }) =>
  `${field.shown}: ${listed.name}`;

/**
 * Whether a station is the one that the user chose for a file: that of this very field file, or of
 * a copy of it, and not one of the same name.
 * @param {Input} file
 */
export function isChosen(file, /** @type {Station} */ { field, listed }) {
  const { choice } = originalOf(file);
  return choice?.field === originalOf(field) && choice.name === listed.name;
}

/**
 * Those that pass, or all where none does: a hint narrows the choice, and never empties it.
 * @param {Station[]} all
 * @param {(station: Station) => boolean} passes
 */
function narrowed(all, passes) {
  const some = all.filter(passes);
  return some.length > 0 ? some : all;
}

/**
 * The field file that a sheet is checked against: of those in its folder by its name, else by its
 * station, else the only one.
 * @param {Input} sheet
 * @param {Input[]} all
 * @param {Station[]} stations
 * @returns {Input | undefined}
 */
export function fieldOfSheet(sheet, all, stations) {
  const chosen = stations.find(station => isChosen(sheet, station));
  if (chosen) return chosen.field;
  const fields = besideFile(sheet, all);
  const byName = fieldsByName(sheet.name, fields);
  if (byName.length === 1) return byName[0];
  const name = stationOfSheet(sheet);
  const named = stations.filter(one => one.listed.name === name && fields.includes(one.field));
  const byStation = each(named.map(one => one.field));
  const left = byStation.filter(field => byName.length === 0 || byName.includes(field));
  if (left.length === 1) return left[0];
  return fields.length === 1 ? fields[0] : undefined;
}

/** Whether a name is a part of that of a file: `job_P7.directions.csv` has the part `P7`. */
const hasPart = (/** @type {string} */ stem, /** @type {string} */ name) =>
  ` ${stem.replace(/[._-]/g, ' ')} `.includes(` ${name.replace(/[._-]/g, ' ')} `);

/**
 * What may be the names of a table: the first fields of its rows, so many or all, however they are
 * separated.
 * @param {Input} table
 * @param {number} [most]
 */
const namesIn = ({ rows = [] }, most) =>
  new Set(rows.flatMap(fields => fields.slice(0, most).map(field => field.trim())));

/**
 * How many decimals of a gon a table states of each name: by the columns of names and of
 * directions, counted from 1, or by two columns.
 * @param {Input} table
 * @param {import('./rows.js').Columns} [columns]
 */
export function decimalsIn(table, columns) {
  /** @type {Map<string, number>} */
  const decimals = new Map();
  if ((originalOf(table).unit ?? 'gon') !== 'gon') return decimals;
  for (const fields of table.rows ?? []) {
    const [first = '', ...rest] = fields;
    const [name = '', direction = ''] = columns
      ? [fields[columns.names - 1], fields[columns.directions - 1]]
      : [first, rest.find(one => one.trim() !== '')];
    const found = direction.match(/\d(?:[.,](\d*))?\D*$/);
    if (found && !decimals.has(name.trim())) decimals.set(name.trim(), found[1]?.length ?? 0);
  }
  return decimals;
}

/** How many of these names a station has as targets. */
const shared = (/** @type {Station} */ { listed }, /** @type {Set<string>} */ names) =>
  listed.targetNames.filter(target => names.has(target)).length;

/**
 * The station that a table is compared with: that which was chosen; else of the field files in its
 * folder by the names of the files, then by the station's name in that of the table, then by the
 * targets; none where more are left.
 * @param {Input} table
 * @param {Input[]} all
 * @param {Station[]} stations
 * @returns {Station | undefined}
 */
export function stationOfTable(table, all, stations) {
  const chosen = stations.find(station => isChosen(table, station));
  if (chosen) return chosen;
  const fields = besideFile(table, all), byName = fieldsByName(table.name, fields);
  let left = narrowed(stations, station => fields.includes(station.field));
  left = narrowed(left, station => byName.includes(station.field));
  left = narrowed(left, station => hasPart(stemOf(table), station.listed.name));
  for (const most of [1, undefined]) {
    if (left.length < 2) break;
    const names = namesIn(table, most), counts = left.map(station => shared(station, names));
    const greatest = Math.max(0, ...counts);
    if (greatest > 0) left = left.filter((_, nth) => counts[nth] === greatest);
  }
  return left.length === 1 ? left[0] : undefined;
}
