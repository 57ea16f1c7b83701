// The limits that the calls are given, as fields in mgon.
import { UNSEEN } from './files.js';
import { APART, FACE, HALF, mgonOf, unitsIn } from './numbers.js';
import { text } from './texts.js';

/**
 * A limit: the option of the program, its name in the texts, how many units make one of what the
 * field shows, the usual number and the ends of its range, all in units. Where no number is usual,
 * none is stated.
 * @typedef {{ id: string, label: string, per: number, usual: number | null, least: number,
 *   most: number }} Limit
 * The limits in force, in units: that of tables is null where none is stated.
 * @typedef {Record<string, number | null> & { twoC: number, twoI: number, residual: number,
 *   within: number | null, decimals: number }} Limits
 */

/** @type {Record<string, Limit>} */
export const LIMITS = {
  twoC: { id: 'two-c', label: 'limitTwoC', per: FACE, usual: 2000, least: 0, most: 1_000_000 },
  twoI: { id: 'two-i', label: 'limitTwoI', per: FACE, usual: 2000, least: 0, most: 1_000_000 },
  residual: {
    id: 'residual', label: 'limitResidual', per: HALF, usual: 2000, least: 0, most: 2000,
  },
  within: {
    id: 'within', label: 'limitWithin', per: APART, usual: null, least: 0, most: 1_000_000,
  },
  decimals: { id: 'decimals', label: 'limitDecimals', per: 1, usual: 6, least: 1, most: 8 },
};

/** So far apart a table may be where no limit is stated, in units, however finely it is rounded. */
const LEAST_APART = 10;

/** A number of mgon with three decimals is so many of its last one. */
const THOUSAND = 1000;

const NAMES = Object.keys(LIMITS);
const field = (/** @type {string} */ name) =>
  /** @type {HTMLInputElement} */ (document.getElementById(LIMITS[name].id));

/**
 * The number of a field in units: the usual one, or null for none, where it is empty; undefined
 * where it is wrong.
 */
function numberOf(/** @type {string} */ name) {
  const { per, usual, least, most } = LIMITS[name], value = field(name).value;
  if (value.trim() === '') return usual;
  const units = unitsIn(value, per);
  return units !== null && units >= least && units <= most ? units : undefined;
}

/** The limits in force; undefined where a field is wrong. */
export const limitsNow = () => /** @type {Limits} */ (
  Object.fromEntries(NAMES.map(name => [name, numberOf(name)])));

/** What is wrong of the limits, in words; nothing where all are right. Each field says so too. */
export function wrongLimit() {
  let said = '';
  for (const name of NAMES) {
    const isWrong = numberOf(name) === undefined, { label, least, most, per } = LIMITS[name];
    field(name).setAttribute('aria-invalid', String(isWrong));
    const ends = { least: mgonOf(least, per), most: mgonOf(most, per), step: mgonOf(1, per) };
    if (isWrong) said ||= text('limitWrong', { label: text(label), ...ends });
  }
  return said;
}

/** Puts the usual number into a field, or nothing where none is usual. */
export function showLimit(/** @type {string} */ name) {
  const { usual, per } = LIMITS[name];
  field(name).value = usual === null ? '' : mgonOf(usual, per);
}

/** Whether a residual that a call wrote, in mgon with three decimals, is within the limit. */
export const isWithin = (/** @type {string} */ residual, /** @type {Limits} */ limits) =>
  Number(residual.replace(/[-.]/g, '')) * LIMITS.residual.per <= limits.residual * THOUSAND;

/**
 * Limits in one line: those of 2c and 2i, and as it is said that of residuals and that of tables,
 * so that no limit is told to which nothing was held.
 * @param {Limits} limits
 * @param {{ residual: boolean, within: boolean }} held
 */
export function limitsLine(limits, { residual, within }) {
  const mgon = (/** @type {string} */ name) => mgonOf(limits[name] ?? 0, LIMITS[name].per);
  const numbers = Object.fromEntries(NAMES.map(name => [name, mgon(name)]));
  const least = mgonOf(LEAST_APART, APART);
  const ofTables = limits.within === null ? 'inForceByDecimals' : 'inForceWithin';
  const names = [residual ? 'inForce' : 'inForceFaces', ...within ? [ofTables] : []];
  return names.map(name => text(name, { ...numbers, least })).join(', ');
}

/** A limit as the program takes it: in mgon, where it is one. */
function statedOf(/** @type {string} */ name, /** @type {number | null} */ units) {
  const { per } = LIMITS[name];
  return per === 1 || units === null ? String(units) : `${mgonOf(units, per)}mgon`;
}

/**
 * The command that answers the same. The residual limit is always stated, the others where they are
 * not the usual ones.
 * @param {string} command
 * @param {string[]} names
 * @param {Partial<Limits>} limits
 * @param {string[]} operands
 * @param {string[]} [more] further options
 */
export function commandOf(command, names, limits, operands, more = []) {
  const isStated = (/** @type {string} */ name) =>
    name === 'residual' || limits[name] !== LIMITS[name].usual;
  const options = names.filter(isStated)
    .flatMap(name => [`--${LIMITS[name].id}`, statedOf(name, limits[name] ?? null)]);
  const rest = operands.some(word => word.startsWith('-')) ? ['--'] : [];
  const words = [...options, ...more.map(quoted), ...rest, ...operands.map(quoted)];
  return ['station_check', command, ...words].join(' ');
}

/** A word for a shell: one with signs that are not seen has escapes in their place. */
function quoted(/** @type {string} */ word) {
  if (/^[\w.,\/+-]+$/.test(word)) return word;
  if (word.replace(UNSEEN, '') === word) return `'${word.replaceAll("'", "'\\''")}'`;
  const letters = Array.from(new TextEncoder().encode(word), byte => String.fromCharCode(byte));
  const hex = (/** @type {string} */ letter) => letter.charCodeAt(0).toString(16).padStart(2, '0');
  return `$'${letters.join('').replace(/[^ -~]|['\\]/g, letter => `\\x${hex(letter)}`)}'`;
}
