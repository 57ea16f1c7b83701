// A workbook of a spreadsheet, of whose first sheet two columns are taken as a table of directions:
// it is a zip of XML. Nothing of this is proved, so what was taken is shown.
import { kindOf, stemOf } from './files.js';
import { unpacked } from './packed.js';
import { csv } from './tables.js';

/**
 * @typedef {import('./files.js').Input} Input
 * A part of a zip: its bytes, and whether they are packed.
 * @typedef {{ bytes: Uint8Array, isPacked: boolean }} Part
 */

/** What begins the end of a zip, and how many bytes that has at least. */
const END = 0x06054b50, END_BYTES = 22;
/** How many bytes stand before the names of the list of parts, and before those of a part. */
const LISTED_BYTES = 46, PART_BYTES = 30;
/** How many decimals of a direction in gon are taken: spreadsheets keep 15 digits of a number. */
const DECIMALS = 10;

/** The parts of a zip, by their names. */
function partsInZip(/** @type {Uint8Array} */ { buffer, byteOffset, length }) {
  const view = new DataView(buffer, byteOffset, length);
  const two = (/** @type {number} */ at) => view.getUint16(at, true);
  const four = (/** @type {number} */ at) => view.getUint32(at, true);
  let end = length - END_BYTES;
  while (four(end) !== END) end--;
  /** @type {Map<string, Part>} */
  const parts = new Map();
  for (let left = two(end + 10), at = four(end + 16); left > 0; left--) {
    const size = four(at + 20), first = four(at + 42), named = at + LISTED_BYTES + two(at + 28);
    const letters = new Uint8Array(buffer, byteOffset + at + LISTED_BYTES, two(at + 28));
    const begin = first + PART_BYTES + two(first + 26) + two(first + 28);
    const bytes = new Uint8Array(buffer, byteOffset + begin, size);
    parts.set(new TextDecoder().decode(letters), { bytes, isPacked: two(at + 10) !== 0 });
    at = named + two(at + 30) + two(at + 32);
  }
  return parts;
}

/** All elements of a name, whatever stands before it. */
const elementsIn = (/** @type {Document | Element} */ of, /** @type {string} */ name) =>
  [...of.getElementsByTagNameNS('*', name)];

/** The text of a cell or of a shared text, without what is said of how it is read. */
const textIn = (/** @type {Element} */ of) => elementsIn(of, 't')
  .filter(one => /** @type {Element} */ (one.parentNode).localName !== 'rPh')
  .map(one => one.textContent).join('');

/** A number as a table has it: not as the computer keeps it, which may be 64.52 as 64.519999. */
function numberIn(/** @type {string} */ text) {
  const fixed = Number(text).toFixed(DECIMALS);
  return Number.isFinite(Number(text)) ? fixed.replace(/\.?0+$/, '') : text;
}

/** The text of a cell. */
function cellText(/** @type {Element} */ cell, /** @type {string[]} */ shared) {
  const kind = cell.getAttribute('t') ?? 'n', value = elementsIn(cell, 'v')[0]?.textContent ?? '';
  if (kind === 'inlineStr') return textIn(cell);
  if (kind === 's') return shared[Number(value)] ?? '';
  return kind === 'n' && value !== '' ? numberIn(value) : value;
}

/**
 * The rows of the first sheet: the texts of its cells by the letters of their columns.
 * @param {Uint8Array} book
 */
async function rowsOf(book) {
  const parts = partsInZip(book);
  const xml = async (/** @type {string} */ name) => {
    const { bytes, isPacked } = /** @type {Part} */ (parts.get(name));
    const text = new TextDecoder().decode(isPacked ? await unpacked(bytes, 'deflate-raw') : bytes);
    return new DOMParser().parseFromString(text, 'application/xml');
  };
  const isShared = parts.has('xl/sharedStrings.xml');
  const shared = isShared ? elementsIn(await xml('xl/sharedStrings.xml'), 'si').map(textIn) : [];
  const [first] = elementsIn(await xml('xl/workbook.xml'), 'sheet');
  const id = [...first.attributes].find(({ localName, prefix }) => prefix && localName === 'id');
  const links = elementsIn(await xml('xl/_rels/workbook.xml.rels'), 'Relationship');
  const link = links.find(one => one.getAttribute('Id') === id?.value);
  const target = link?.getAttribute('Target') ?? '';
  const sheet = await xml(target.startsWith('/') ? target.slice(1) : `xl/${target}`);
  return elementsIn(sheet, 'row').map(row => {
    /** @type {Record<string, string>} */
    const texts = {};
    elementsIn(row, 'c').forEach((cell, nth) => {
      const column = cell.getAttribute('r')?.replace(/\d+$/, '') ?? String(nth);
      const text = cellText(cell, shared).trim();
      if (text !== '') texts[column] = text;
    });
    return texts;
  });
}

/** The two columns of a sheet in which anything stands; none where there are more, or one. */
function twoColumns(/** @type {Record<string, string>[]} */ rows) {
  const columns = [...new Set(rows.flatMap(Object.keys))];
  const wide = (/** @type {string} */ one) => one.padStart(3);
  columns.sort((one, other) => wide(one) < wide(other) ? -1 : 1);
  const filled = rows.filter(row => Object.keys(row).length > 0);
  return columns.length === 2 ? filled.map(row => columns.map(column => row[column] ?? '')) : [];
}

/**
 * A workbook with the table that is taken of it; as it was where there is none.
 * @param {Input} book
 * @returns {Promise<Input>}
 */
export async function withTable(book) {
  const rows = await rowsOf(book.bytes).then(twoColumns, () => []);
  const name = `${stemOf(book)}.csv`, bytes = new TextEncoder().encode(csv(rows));
  const kind = kindOf(name, bytes);
  if (kind !== 'table') return book;
  const path = `${stemOf({ name: book.path })}.csv`;
  book.kind = 'workbook';
  book.taken = { name, path, shown: name, bytes, kind, digest: '', original: book };
  return book;
}
