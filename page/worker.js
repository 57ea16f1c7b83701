// Answers one call after the other beside the page, so that no file holds the window.
import { calls } from './calls.js';
import { unpacked } from './packed.js';
import { partsIn, recordsIn, stationsOf } from './rows.js';

/** @type {Promise<WebAssembly.Module>} */
let core;
/**
 * The files that were handed in, by their numbers.
 * @type {Map<number, Uint8Array>}
 */
const files = new Map();

/** What is passed to a call: a file is handed in once, and then it is told by its number. */
function passed(/** @type {any} */ input) {
  const { file, bytes } = input ?? {};
  if (bytes instanceof Uint8Array && file) files.set(file, bytes);
  return file ? files.get(file) : input;
}

/**
 * The stations of a field file, and how many readings it has where it has none: its rows may be
 * many, and are parted here.
 * @type {(module: WebAssembly.Module, ...inputs: any[]) =>
 *   Promise<import('./calls.js').Answered & { told?: object }>}
 */
async function stations(module, ...inputs) {
  const { status, shown } = await calls.listRows(module, ...inputs);
  if (status !== 0) return { status, shown };
  const { rows, unchecked } = partsIn(shown[0]);
  return { status, shown: [], told: { stations: stationsOf(rows), readings: Number(unchecked) } };
}

/**
 * The records of a text, which may be many too.
 * @type {typeof stations}
 */
async function records(module, ...inputs) {
  const { status, shown } = await calls.records(module, ...inputs);
  return { status, shown: [], told: status === 0 ? recordsIn(shown[0]) : [] };
}

/** @type {typeof calls} */
const asked = { ...calls, stations, records };

onmessage = async ({ data: { module, id, name, inputs, forget } }) => {
  if (forget) return files.delete(forget);
  try {
    if (module) core = unpacked(module).then(WebAssembly.compile);
    const given = inputs?.map(passed), ready = await core;
    postMessage({ id, answer: name && await asked[name](ready, ...given) });
  } catch (error) {
    postMessage({ id, error: String(error) });
  }
};
