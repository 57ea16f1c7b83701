// The proved calls of the module: files in, a status and texts out.
//
// Each call copies its inputs into memory, calls, and copies the texts out. Nothing proves this
// part.

/**
 * The module, compiled, and what a call answers: its status, and the bytes of each text.
 * @typedef {WebAssembly.Module} Core
 * @typedef {{ status: number, shown: Uint8Array[] }} Answered
 */

/** The status of a call whose text has no room. */
const NO_ROOM = 3;
const MEMORY_PAGE = 65536, LENGTH = 8, LEAST_ROOM = 65536;
/** So much room have all texts of a call together at most: half of what 32 bits address. */
const MOST_ROOM = 2 ** 31;

/** Adds pages to a memory, and answers where they begin. Node before 24 counts them in numbers. */
function grow(/** @type {WebAssembly.Memory} */ memory, /** @type {number} */ pages) {
  try {
    return Number(memory.grow(/** @type {any} */ (BigInt(pages)))) * MEMORY_PAGE;
  } catch (error) {
    if (!(error instanceof TypeError)) throw error;
    return memory.grow(pages) * MEMORY_PAGE;
  }
}

const bytesOfAll = (/** @type {Uint8Array[]} */ inputs) =>
  inputs.reduce((sum, input) => sum + input.length, 0);

/**
 * One call of the core, in a new instance: its inputs, and then room for each text and its length,
 * lie in pages of their own, which nothing of the module uses.
 * @param {number} room
 * @param {Core} core
 * @param {string} name
 * @param {Uint8Array[]} inputs
 * @param {number[]} numbers
 * @param {number} texts
 * @returns {Promise<Answered>}
 */
async function callWithin(room, core, name, inputs, numbers, texts) {
  const { exports } = /** @type {any} */ (await WebAssembly.instantiate(core, {}));
  const { memory, [name]: call } = exports;
  const bytes = bytesOfAll(inputs) + texts * (LENGTH + room);
  let at = grow(memory, Math.ceil(bytes / MEMORY_PAGE));
  const lengths = Array.from({ length: texts }, (_, nth) => at + nth * LENGTH);
  at += texts * LENGTH;
  const slices = [];
  for (const input of inputs) {
    new Uint8Array(memory.buffer, at, input.length).set(input);
    slices.push(BigInt(at), BigInt(input.length));
    at += input.length;
  }
  const outs = lengths.flatMap((length, nth) => [at + nth * room, room, length].map(BigInt));
  const status = call(...slices, ...numbers, ...outs);
  const view = new DataView(memory.buffer);
  const shown = lengths.map((length, nth) => {
    const bytes = Number(view.getBigUint64(length, true));
    return new Uint8Array(memory.buffer, at + nth * room, bytes).slice();
  });
  return { status, shown };
}

/**
 * The status of a call and the bytes of each text that it handed out; asked for again with more
 * room where that was too little. Few texts have more than twice the bytes of the files.
 * @param {Core} core
 * @param {string} name
 * @param {Uint8Array[]} inputs
 * @param {number[]} numbers
 */
async function callOf(core, name, inputs, numbers, texts = 1) {
  const most = MOST_ROOM / texts;
  for (let room = Math.max(LEAST_ROOM, 2 * bytesOfAll(inputs)); ; room *= 8) {
    const within = Math.min(room, most);
    const answer = await callWithin(within, core, name, inputs, numbers, texts);
    if (answer.status !== NO_ROOM || within === most) return answer;
  }
}

/** A limit that need not be stated: whether one is, and which. */
const stated = (/** @type {number | null} */ limit) => [Number(limit !== null), limit ?? 0];

/**
 * Each call by its name: it is given the module, files and names as bytes, and numbers in their
 * units.
 * @type {Record<string, (core: Core, ...inputs: any[]) => Promise<Answered>>}
 */
export const calls = {
  check: (core, gsi, sheet, twoC, twoI, residual) =>
    callOf(core, 'station_page_check', [gsi, sheet], [twoC, twoI, ...stated(residual)]),
  list: (core, gsi, twoC, twoI) => callOf(core, 'station_page_list', [gsi], [twoC, twoI]),
  listRows: (core, gsi, twoC, twoI) =>
    callOf(core, 'station_page_list_rows', [gsi], [twoC, twoI]),
  means: (core, gsi, name, twoC, twoI) =>
    callOf(core, 'station_page_means', [gsi, name], [twoC, twoI]),
  words: (core, gsi) => callOf(core, 'station_page_words', [gsi], [], 2),
  directions: (core, gsi, name, twoC, twoI, decimals) =>
    callOf(core, 'station_page_directions', [gsi, name], [twoC, twoI, decimals]),
  residuals: (core, gsi, name, twoC, twoI) =>
    callOf(core, 'station_page_residuals', [gsi, name], [twoC, twoI]),
  commaDirections: (core, gsi, name, twoC, twoI, decimals) =>
    callOf(core, 'station_page_comma_directions', [gsi, name], [twoC, twoI, decimals]),
  commaRows: (core, gsi, name, twoC, twoI) =>
    callOf(core, 'station_page_comma_rows', [gsi, name], [twoC, twoI]),
  report: (core, gsi, path, name, twoC, twoI, language) =>
    callOf(core, 'station_page_report', [gsi, path, name], [twoC, twoI, language]),
  station: (core, gsi, path, name, twoC, twoI, decimals) =>
    callOf(core, 'station_page_station', [gsi, path, name], [twoC, twoI, decimals]),
  compare: (core, gsi, table, name, twoC, twoI, unit, names, directions, within) =>
    callOf(core, 'station_page_compare', [gsi, table, name],
      [twoC, twoI, unit, names, directions, ...stated(within)], 2),
  differences: (core, gsi, table, name, twoC, twoI, unit, names, directions) =>
    callOf(core, 'station_page_differences', [gsi, table, name],
      [twoC, twoI, unit, names, directions], 2),
  commaDifferences: (core, gsi, table, name, twoC, twoI, unit, names, directions) =>
    callOf(core, 'station_page_comma_differences', [gsi, table, name],
      [twoC, twoI, unit, names, directions], 2),
  table: (core, gsi, path, table, tablePath, name, twoC, twoI, unit, names, directions, within) =>
    callOf(core, 'station_page_table', [gsi, path, table, tablePath, name],
      [twoC, twoI, unit, names, directions, ...stated(within)], 2),
  mark: (core, gsi, name, code, sets, targets, ...flags) =>
    callOf(core, 'station_page_mark', [gsi, name, code, sets, targets], flags.map(Number), 2),
  markRows: (core, gsi, name, code, sets, targets, ...flags) =>
    callOf(core, 'station_page_mark_rows', [gsi, name, code, sets, targets], flags.map(Number), 2),
  change: (core, gsi, changes) => callOf(core, 'station_page_change', [gsi, changes], []),
  digest: (core, file, name) => callOf(core, 'station_page_digest', [file, name], []),
  explanation: (core, line) => callOf(core, 'station_page_explanation', [line], []),
  instrument: (core, gsi, language) =>
    callOf(core, 'station_page_instrument', [gsi], [language]),
  records: (core, text, separator) => callOf(core, 'station_page_records', [text], [separator]),
  columns: (core, table, targets, directions) =>
    callOf(core, 'station_page_columns', [table, targets, directions], []),
  place: (core, line, gsi, other) => callOf(core, 'station_page_place', [line, gsi, other], []),
};
