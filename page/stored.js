// What stands in the page beside the module, packed too: what is read only after the page is there.
import { bytesOfText, unpacked } from './packed.js';
import { TEXTS } from './texts.js';

/**
 * The texts of the page and those of faults, by their languages and names, the files of the example by
 * theirs, the script that is run later, and that of the worker.
 * @typedef {{ texts: Record<string, Record<string, string>>,
 *   refusals: Record<string, Record<string, import('./faults.js').Texts>>,
 *   example: Record<string, string>, later: string, calls: string }} Stored
 */

/** What stands in a part of the page. */
export const part = (/** @type {string} */ id) => document.getElementById(id)?.textContent ?? '';

/** @type {Promise<Stored> | undefined} */
let whole;

async function read() {
  const bytes = await unpacked(bytesOfText(part('stored')));
  return JSON.parse(new TextDecoder().decode(bytes));
}

/** All that is stored: unpacked once. */
export const stored = () => whole ??= read();

/** Has the texts of the page at hand, and the rest of its script, which nothing needs before. */
export async function readRest() {
  const { texts, later } = await stored();
  Object.assign(TEXTS, texts);
  const script = Object.assign(document.createElement('script'), { textContent: later });
  document.body.append(script);
}

/** The files of the example, as if they were dropped. */
export async function exampleFiles() {
  const { example } = await stored();
  return Object.entries(example).map(([name, text]) => new File([text], name));
}
