// Numbers of the program as people read them: mgon in place of units, with a fixed number of
// decimals.

const MINUS = '\u2212';

/**
 * A fraction with so many decimals, rounded half away from 0.
 * @param {bigint} numerator
 * @param {bigint} denominator above 0
 * @param {number} decimals
 */
export function decimal(numerator, denominator, decimals) {
  const size = numerator < 0n ? -numerator : numerator;
  const shift = 10n ** BigInt(decimals);
  const units = (2n * size * shift + denominator) / (2n * denominator);
  const digits = String(units).padStart(decimals + 1, '0'), point = digits.length - decimals;
  const whole = digits.slice(0, point), rest = digits.slice(point);
  const isZero = units === 0n;
  return `${numerator < 0n && !isZero ? '-' : ''}${whole}${decimals > 0 ? '.' : ''}${rest}`;
}

/** A number's text with a sign that is seen; 0 has none. */
export function signed(/** @type {string} */ number) {
  if (number.startsWith('-')) return number.replace('-', MINUS);
  return /[1-9]/.test(number) ? `+${number}` : number;
}

/** A text without zeros at its end: '0.300' is '0.3'. */
const plain = (/** @type {string} */ number) => number.replace(/\.?0+$/, '') || '0';

/**
 * How many of a quantity's units make one mgon: face differences, half units, distances of tables.
 */
export const FACE = 100, HALF = 200, APART = 1000;

/** So many units in mgon, without zeros at the end. */
export const mgonOf = (/** @type {number} */ units, /** @type {number} */ perMgon) =>
  units === 0 ? '0' : plain(decimal(BigInt(units), BigInt(perMgon), 3));

/**
 * The whole number of units that a text in mgon states, with a point or a comma; none where there
 * is none.
 * @param {string} mgon
 * @param {number} perMgon
 * @returns {number | null}
 */
export function unitsIn(mgon, perMgon) {
  const found = mgon.trim().match(/^(\d{1,9})(?:[.,](\d{0,6}))?$/);
  if (!found) return null;
  const rest = found[2] ?? '';
  const units = BigInt(found[1] + rest) * BigInt(perMgon), scale = 10n ** BigInt(rest.length);
  return units % scale === 0n ? Number(units / scale) : null;
}

/** An angle in gon with six decimals is so many of its last one, and a full circle. */
const GON = 1_000_000n, CIRCLE = 400n * GON;

const microgonOf = (/** @type {string} */ gon) => BigInt(gon.replace('.', ''));

/** A direction in gon with six decimals, turned so that another one is 0. */
export const turned = (/** @type {string} */ direction, /** @type {string} */ first) =>
  decimal((microgonOf(direction) - microgonOf(first) + CIRCLE) % CIRCLE, GON, 6);

/** The mean of angles in gon with six decimals. */
export const averaged = (/** @type {string[]} */ angles) =>
  decimal(angles.map(microgonOf).reduce((a, b) => a + b), GON * BigInt(angles.length), 6);
