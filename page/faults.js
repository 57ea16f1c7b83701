// What each fault is, and what is to be done about it on the page, in the language that is spoken.
//
// The texts stand in a file for each language, in refusals/. In English they don't say what a fault
// is: the program does, in its explanation.
import { partsIn } from './rows.js';
import { stored } from './stored.js';
import { spoken, typeset } from './texts.js';

/**
 * What the program says of a fault: its names, what it is in a few words, when it comes, a line of a
 * refusal that names it, and what to do.
 * @typedef {{ names: string[], meaning: string, when: string, example: string, remedy: string
 *   }} Explanation
 * The texts of a fault in a language, and whether what is to be done changes a copy of the file.
 * @typedef {{ what?: string, todo: string, isByCopy?: boolean }} Texts
 * What is told of a fault: what it is, and whether that is in the words of the program; what is to
 * be done, which is nothing where no text is there, and whether that changes a copy of the file.
 * @typedef {{ what: string, isOfProgram: boolean, todo: string, isByCopy: boolean }} Told
 */

/** @type {Record<string, Record<string, Texts>>} */
let texts = {};

/** Has the texts of all faults at hand. */
export async function readFaults() {
  texts = (await stored()).refusals;
}

/**
 * An explanation, of the parts that a call handed out.
 * @returns {Explanation}
 */
export function explanationIn(/** @type {Uint8Array} */ bytes) {
  const { names, meaning, when, example, remedy } = partsIn(bytes);
  return { names: names.split('\n'), meaning, when, example, remedy };
}

/** The fault that an explanation is of, by the first of its names; no name where there is none. */
export const nameIn = (/** @type {Explanation | undefined} */ explanation) =>
  explanation?.names[0] ?? '';

/** What a fault is in the words of the program, as a sentence. */
const sentenceIn = (/** @type {Explanation} */ { meaning }) =>
  `${meaning.charAt(0).toUpperCase()}${meaning.slice(1)}.`;

/**
 * What is told of the fault that an explanation of the program is of: nothing without one.
 * @returns {Told}
 */
export function toldOf(/** @type {Explanation | undefined} */ explanation) {
  const { what, todo = '', isByCopy = false } = texts[spoken()]?.[nameIn(explanation)] ?? {};
  const sentence = explanation ? sentenceIn(explanation) : '';
  return {
    what: what ? typeset(what) : sentence, isOfProgram: !what, todo: typeset(todo), isByCopy,
  };
}
