// Lines of a field file that the user changes in a copy: the proved call makes it. What is changed,
// and why, stands on the cards, in the protocol and in a log.
import { ACCEPTED, OUT_OF_RANGE, explanationOf } from './answers.js';
import { nameIn } from './faults.js';
import { originalOf, stemOf } from './files.js';
import { MOST_SHOWN, lineOf, seen } from './place.js';
import { text } from './texts.js';
import { ask, digestOf } from './work.js';

/**
 * @typedef {import('./files.js').Input} Input
 * What becomes of a line, by its number in the file as it was handed in: it is left out, or its
 * point gets this name; why, and as a part of which proposal of the page, if it is one.
 * @typedef {{ block: number, name?: string, why: string,
 *   proposed?: import('./repairs.js').Proposal['what'] }} Change
 */

/** The changes of a field file, in the order of its lines. */
export const changesOf = (/** @type {Input} */ file) => originalOf(file).changes ?? [];

/** The file as it was handed in, of one that may be a copy with changed lines. */
export const asHandedIn = (/** @type {Input} */ file) => originalOf(file).given ?? originalOf(file);

/**
 * The number that a line of a changed copy has in the file as it was handed in: each line that is
 * left out before it counts there.
 */
export function givenBlock(/** @type {Input} */ file, /** @type {number} */ block) {
  const out = changesOf(file).filter(({ name }) => name === undefined);
  return out.reduce((nth, gone) => gone.block <= nth ? nth + 1 : nth, block);
}

/** A change as the call takes it. */
const saying = (/** @type {Change} */ { block, name }) =>
  name === undefined ? `${block}` : `${block}=${name}`;

/**
 * Why the copy can't be made, by the fault of the refusal.
 * @type {Record<string, string>}
 */
const WHY_UNCHANGED = {
  NameTooLong: 'nameTooLong', ZeroBefore: 'zeroBefore', NoPoint: 'noPoint',
};

/** Why the copy can't be made, in words, by what the call replied. */
async function whyUnchanged(/** @type {import('./work.js').Reply} */ reply) {
  if (reply.status === OUT_OF_RANGE) return text('noName');
  const line = reply.text.trimEnd(), why = WHY_UNCHANGED[nameIn(await explanationOf(line))];
  return why ? text(why) : text('cannotFinish', { why: line });
}

/**
 * Has a field file changed so: its copy stands in its place, and what was handed in stays at hand.
 * Answers why it can't be, and then all is as it was.
 * @param {Input} field
 * @param {Change[]} changes
 */
export async function changeLines(field, changes) {
  const inOrder = [...changes].sort((one, other) => one.block - other.block);
  const { name, path, shown, bytes, digest } = asHandedIn(field);
  const reply = await ask('change', bytes, inOrder.map(saying).join('\n'));
  if (reply.status !== ACCEPTED) return whyUnchanged(reply);
  const given = {
    name, path, shown, bytes, kind: field.kind, digest: digest || await digestOf({ name, bytes }),
  };
  const copyOf = (/** @type {string} */ old) => `${stemOf({ name: old })}_changed.gsi`;
  const copy = { name: copyOf(name), path: copyOf(path), bytes: reply.bytes, digest: '', given };
  const isChanged = inOrder.length > 0;
  // (of other bytes it is asked again what they recorded)
  const now = isChanged ? copy : { ...given, given: undefined };
  Object.assign(field, { changes: inOrder, recorded: undefined }, now);
  return '';
}

/**
 * Those changes of a file that was read again whose lines are the same at the same numbers: another
 * line of that number was never meant.
 * @param {Change[]} changes
 * @param {Uint8Array} before
 * @param {Uint8Array} now
 */
export const stillOf = (changes, before, now) => changes.filter(({ block }) =>
  lineOf(before, block).join() === lineOf(now, block).join());

/** What is said of a line that is left out as the page proposed it. */
const OUT = { lastSet: 'lineOutOfSet', closing: 'lineOutClosing', before: 'lineOutBefore' };

/** Numbers in their order, those that follow each other as a range: `5, 9-11`. */
function rangesOf(/** @type {number[]} */ numbers) {
  /** @type {number[][]} */
  const ranges = [];
  for (const one of numbers) {
    const range = ranges[ranges.length - 1];
    if (range?.[range.length - 1] === one - 1) range.push(one);
    else ranges.push([one]);
  }
  const ends = ranges.map(range => new Set([range[0], range[range.length - 1]]));
  return ends.map(some => [...some].join('–')).join(', ');
}

/** What is said of a change, or of several that were made together: which lines, and why. */
export function changeText(/** @type {Change[]} */ ...changes) {
  const [{ name, why, proposed }] = changes, blocks = changes.map(({ block }) => block);
  const said = name !== undefined ? 'lineNamed' : proposed ? OUT[proposed] : 'lineOut';
  return text(said, { n: blocks.length, block: rangesOf(blocks), name: name ?? '', why });
}

/** Changes by what was asked for: lines that were proposed together stand together. */
export function changesTogether(/** @type {Change[]} */ changes) {
  /** @type {Change[][]} */
  const groups = [];
  for (const one of changes) {
    const same = groups.find(([other]) =>
      one.proposed && other.proposed === one.proposed && other.why === one.why);
    if (same) same.push(one);
    else groups.push([one]);
  }
  return groups;
}

/** A line of the log: of one that is too long as much as a line may have, and that it is cut. */
function logged(/** @type {string} */ sign, /** @type {Uint8Array} */ line) {
  const cut = line.length > MOST_SHOWN ? ` ${text('lineCut', { bytes: line.length })}` : '';
  return `${sign} ${seen(line)}${cut}\n`;
}

/** The log of what is changed: both files with their digests, and each line as it was and is. */
export function logOf(/** @type {Input} */ field) {
  const given = asHandedIn(field), { bytes } = given;
  const files = [given, field].map(({ name, digest }) => `${digest}  ${name}\n`);
  const lines = changesOf(field).map(one => {
    const was = lineOf(bytes, one.block);
    const out = changesOf(field)
      .filter(({ block, name }) => name === undefined && block < one.block);
    const is = lineOf(field.bytes, one.block - out.length);
    const named = one.name === undefined ? '' : logged('>', is);
    return `\n${changeText(one)}\n${logged('<', was)}${named}`;
  });
  return [...files, ...lines].join('');
}

/** So many names are proposed at most, of so many bytes before a place and after it. */
const MOST_NAMES = 200, MOST_BESIDE = 500_000;

/** A line that begins with a point, in GSI-8 or GSI-16. */
const POINT = /^(?:11....[+-](.{8})|\*11....[+-](.{16}))/gm;

/**
 * The names of points in a field file, to be chosen from, those first that stand nearest to the line
 * at a place, but for its own: nothing else is taken from them.
 */
export function pointNamesIn(/** @type {Uint8Array} */ bytes, /** @type {number} */ place) {
  const from = Math.max(0, place - MOST_BESIDE);
  const all = new TextDecoder('latin1').decode(bytes.subarray(from, place + MOST_BESIDE));
  /** @type {Map<string, number>} */
  const far = new Map();
  for (const { 1: narrow, 2: wide, index = 0 } of all.matchAll(POINT)) {
    const name = (narrow ?? wide).replace(/^0+(?=.)/, ''), apart = Math.abs(from + index - place);
    far.set(name, Math.min(apart, far.get(name) ?? apart));
  }
  const others = [...far].filter(([, apart]) => apart > 0);
  const nearest = others.sort(([, one], [, other]) => one - other);
  return nearest.slice(0, MOST_NAMES).map(([name]) => name);
}
