// The page's side of the workers: each call is a promise of its answer, and all can be stopped.
import { bytesOfText } from './packed.js';
import { part, stored } from './stored.js';

/**
 * What a call answered: its status, its text, what it said beside it, where it has two texts, and
 * what the worker read of it.
 * @typedef {{ status: number, bytes: Uint8Array, text: string, beside: string, told?: any }} Reply
 */

/** What a call ends with that was stopped. */
export class Stopped extends Error {}

const bytesOf = (/** @type {string} */ text) => new TextEncoder().encode(text);

/**
 * A worker, the numbers of the files that it has, and what comes once the module is in it.
 * @typedef {{ worker: Worker, handed: WeakMap<Uint8Array, number>, ready: Promise<unknown> }} Hand
 */

/**
 * The worker that answers.
 * @type {Hand | undefined}
 */
let first;
/**
 * Another beside it, for what is asked of a large file and no other call waits for.
 * @type {Hand | undefined}
 */
let second;
/** The calls that go to the second one, of a file with so many bytes. */
const BESIDE = ['digest', 'instrument'], LARGE = 1_000_000;
/** Has a worker forget a file that is no longer here. */
const gone = new FinalizationRegistry(({ worker, file }) => worker.postMessage({ forget: file }));
/** The script of the workers, once it is unpacked. */
let script = '';
/** @type {Map<number, { worker: Worker, resolve: Function, reject: Function }>} */
const waiting = new Map();
let count = 0;

/** Hands a message to a worker; answers what comes back. */
function sent(/** @type {Worker} */ worker, /** @type {object} */ message) {
  return new Promise((resolve, reject) => {
    waiting.set(++count, { worker, resolve, reject });
    worker.postMessage({ id: count, ...message });
  });
}

/**
 * A new worker, into which the module goes.
 * @returns {Hand}
 */
function hired() {
  const address = URL.createObjectURL(new Blob([script], { type: 'text/javascript' }));
  const worker = new Worker(address);
  worker.onmessage = ({ data: { id, answer, error } }) => {
    const { resolve, reject } = waiting.get(id) ?? {};
    waiting.delete(id);
    if (error !== undefined) reject?.(new Error(error));
    else resolve?.(answer);
  };
  worker.onerror = ({ message }) => {
    for (const [id, asked] of waiting) {
      if (asked.worker !== worker) continue;
      waiting.delete(id);
      asked.reject(new Error(message));
    }
    if (second?.worker === worker) second = undefined;
  };
  const ready = sent(worker, { module: bytesOfText(part('module')) });
  return { worker, handed: new WeakMap(), ready };
}

/**
 * Starts a worker with the module in it, at once where its script is unpacked; fails where the
 * browser can't run the module.
 */
export async function start() {
  script ||= (await stored()).calls;
  first = hired();
  await first.ready;
}

/** Whether a call is under way. */
export const isAsked = () => waiting.size > 0;

/** Ends what is under way; the next calls go to a new worker. */
export function stop() {
  for (const hand of [first, second]) hand?.worker.terminate();
  for (const { reject } of waiting.values()) reject(new Stopped());
  waiting.clear();
  second = undefined;
  start().catch(() => {});
}

/** The worker to which a call goes. */
function handFor(/** @type {string} */ name, /** @type {unknown[]} */ inputs) {
  const isLarge = inputs.some(input => input instanceof Uint8Array && input.length >= LARGE);
  if (!BESIDE.includes(name) || !isLarge) return /** @type {Hand} */ (first);
  second ??= hired();
  second.ready.catch(() => {});
  return second;
}

/**
 * A file as a worker takes it: with its bytes the first time, and then by its number alone.
 * @param {Uint8Array} bytes
 * @param {Hand} hand
 */
function asHanded(bytes, { worker, handed }) {
  const file = handed.get(bytes);
  if (file) return { file };
  handed.set(bytes, ++count);
  gone.register(bytes, { worker, file: count });
  return { file: count, bytes };
}

/**
 * What a worker answers to a call.
 * @param {Hand} hand
 * @param {string} name
 * @param {(Uint8Array | string | number | boolean | null)[]} inputs
 * @returns {Promise<Reply>}
 */
async function replyOf(hand, name, inputs) {
  const given = inputs.map(input => {
    if (typeof input === 'string') return bytesOf(input);
    return input instanceof Uint8Array ? asHanded(input, hand) : input;
  });
  const { status, shown, told } = await sent(hand.worker, { name, inputs: given });
  const [bytes = new Uint8Array(), more = new Uint8Array()] = shown;
  const [text, beside] = [bytes, more].map(one => new TextDecoder().decode(one));
  return { status, bytes, text, beside: beside.trimEnd(), told };
}

/**
 * Asks a proved call, with files as bytes, names as texts, numbers in their units, and flags. What the
 * second worker has no room for the first is asked.
 * @param {string} name
 * @param {(Uint8Array | string | number | boolean | null)[]} inputs
 * @returns {Promise<Reply>}
 */
export function ask(name, ...inputs) {
  const hand = handFor(name, inputs), reply = replyOf(hand, name, inputs);
  return hand === first ? reply : reply.catch(error => {
    if (error instanceof Stopped) throw error;
    return replyOf(/** @type {Hand} */ (first), name, inputs);
  });
}

/**
 * The SHA-256 of a file: the digits of its line.
 * @param {{ name: string, bytes: Uint8Array }} file
 */
export async function digestOf({ name, bytes }) {
  const { text } = await ask('digest', bytes, name);
  return text.match(/[0-9a-f]{64}/)?.[0] ?? '';
}
