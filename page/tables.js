// The results of a station as tables: targets as rows, and sets as columns, in groups that fit on a
// page.
import { element, tableOf } from './elements.js';
import { each, greatestOf, linesIn, pairsOf, sizeOf } from './rows.js';
import { hasComma, numeral, signedNumeral, text } from './texts.js';

/** So many sets stand side by side. */
const ABREAST = 8;

/**
 * @typedef {import('./elements.js').Cell} Cell
 * @typedef {import('./files.js').Station} Station
 */

const NOT_OBSERVED = { text: '\u00d7', mark: 'missing' };

/**
 * Tables of values by target and set.
 * @param {string} caption
 * @param {string[]} targets
 * @param {string[]} sets
 * @param {(set: string, target: string) => Cell | undefined} cell
 * @param {Element} parent
 * @param {string} className
 */
function bySets(caption, targets, sets, cell, parent, className) {
  for (let first = 0; first < sets.length; first += ABREAST) {
    const group = sets.slice(first, first + ABREAST), isAll = group.length === sets.length;
    const part = isAll ? '' : `, ${text('setsOf', { first: group[0], last: String(group.at(-1)) })}`;
    const headings = [text('target'), ...group.map(set => text('setNumber', { set }))];
    const rows = targets.map(target =>
      [target, ...group.map(set => cell(set, target) ?? NOT_OBSERVED)]);
    const kind = isAll ? className : `${className} grouped`;
    tableOf(caption + part, headings, /** @type {any} */ (rows), parent, kind);
  }
}

/**
 * The adjusted directions, from what `directions` wrote, and in how many sets each target was
 * observed.
 * @param {string} table
 * @param {Station} station
 * @param {Element} parent
 */
export function directionsTable(table, station, parent) {
  const pairs = pairsOf(station.listed);
  const rows = linesIn(table).map(([target, direction]) => {
    const n = pairs.filter(pair => pair.target === target).length;
    const seen = text('ofSets', { n, all: station.listed.sets });
    return [target, { text: numeral(direction) }, { text: seen, mark: 'quiet' }];
  });
  const headings = [text('target'), text('direction'), text('seenIn')];
  tableOf(text('directionsCaption'), headings, /** @type {any} */ (rows), parent, 'numbers');
}

/**
 * A number that a call wrote as a cell: with its sign, the greatest in size marked, and a bar that
 * is as long as its part of that.
 */
function cellWithBar(/** @type {string} */ number, /** @type {number} */ greatest) {
  const isGreatest = greatest > 0 && sizeOf(number) === greatest;
  return {
    text: signedNumeral(number),
    mark: isGreatest ? 'greatest' : '', bar: greatest > 0 ? Number(number) / greatest : 0,
  };
}

/**
 * A number without the zeros at its end that are more than so many decimals.
 * @param {string} number
 * @param {number | undefined} decimals none where it isn't known
 */
function asStated(number, decimals = number.length) {
  const [whole, all = ''] = number.split('.');
  if (!/^0*$/.test(all.slice(decimals))) return number;
  return decimals > 0 && all ? `${whole}.${all.slice(0, decimals)}` : whole;
}

/**
 * The differences of a table by target, each as a number and as a bar, the greatest marked: beside
 * the target, so that a phone shows them. What is stated has the decimals that the table has.
 * @param {import('./rows.js').Difference[]} differences
 * @param {Map<string, number>} decimals
 * @param {Element} parent
 */
export function differencesTable(differences, decimals, parent) {
  const greatest = Math.max(...differences.map(one => sizeOf(one.fromMedian)));
  const rows = differences.map(({ target, stated, least, difference, fromMedian }) => [
    target, cellWithBar(fromMedian, greatest),
    { text: numeral(asStated(stated, decimals.get(target))) }, { text: numeral(least) },
    { text: signedNumeral(difference) },
  ]);
  const headings = ['target', 'fromMedian', 'stated', 'leastSquares', 'difference']
    .map(name => text(name));
  tableOf(text('differencesCaption'), headings, /** @type {any} */ (rows), parent, 'numbers bars');
}

/**
 * The residuals, each as a number and as a bar: the longest bar is the greatest residual.
 * @param {import('./rows.js').Residuals} residuals
 * @param {Element} parent
 */
export function residualsTable(residuals, parent) {
  const { rows, sets, targets } = residuals, greatest = sizeOf(greatestOf(residuals).residual);
  const byPlace = new Map(rows.map(row => [`${row.set} ${row.target}`, row.residual]));
  /** @type {(set: string, target: string) => Cell | undefined} */
  const cell = (set, target) => {
    const residual = byPlace.get(`${set} ${target}`);
    return residual === undefined ? undefined : cellWithBar(residual, greatest);
  };
  bySets(text('residualsCaption'), targets, sets, cell, parent, 'numbers bars pictured');
}

/**
 * How accurate a station is, as the call wrote it.
 * @param {import('./rows.js').Accuracy} accuracy
 * @param {Element} parent
 */
export function accuracyNote({ degrees: n, deviation, ofAdjusted, squares }, parent) {
  const said = [text(n > 0 ? 'deviation' : 'noFreedom', { n, size: deviation })];
  if (ofAdjusted) said.push(text('deviationOfAdjusted', { size: ofAdjusted }));
  if (n > 0) said.push(text('squares', { size: squares }));
  element('p', said.join(' '), parent, { className: 'quiet' });
}

/** @typedef {ReturnType<typeof import('./rows.js').facesIn>} FaceMeans */

/**
 * The kinds of face differences, and what is said of each, and of what they say together.
 * @type {['twoC' | 'twoI', string, string][]}
 */
const FACES = [['twoC', 'twoCCaption', 'twoCMean'], ['twoI', 'twoICaption', 'twoIMean']];

/**
 * What the face differences of some kinds say together, as the call wrote it.
 * @param {FaceMeans} means
 * @param {Element} parent
 */
export function faceMeansNote(means, parent, kinds = FACES) {
  const said = kinds.map(([kind, , name]) => {
    const { mean, half, spread } = means[kind];
    const numbers = { mean: signedNumeral(mean), half: signedNumeral(half), spread: numeral(spread) };
    return text(name, numbers);
  });
  element('p', said.join(' '), parent, { className: 'quiet' });
}

/**
 * The face differences of a station, the greatest of each kind marked, and where it was adjusted what
 * they say together.
 * @param {Station} station
 * @param {FaceMeans | undefined} means
 * @param {Element} parent
 */
export function facesTables(station, means, parent) {
  const around = element('div', '', parent, { className: 'beside' });
  const pairs = pairsOf(station.listed);
  const sets = each(pairs.map(pair => pair.set)), targets = each(pairs.map(pair => pair.target));
  for (const kind of FACES) {
    const [name, caption] = kind;
    const greatest = pairs.map(pair => pair[name]).reduce((a, b) => sizeOf(b) > sizeOf(a) ? b : a);
    const byPlace = new Map(pairs.map(pair => [`${pair.set} ${pair.target}`, pair[name]]));
    /** @type {(set: string, target: string) => Cell | undefined} */
    const cell = (set, target) => {
      const mgon = byPlace.get(`${set} ${target}`);
      if (mgon === undefined) return undefined;
      const mark = sizeOf(mgon) === sizeOf(greatest) ? 'greatest' : '';
      return { text: signedNumeral(mgon), mark };
    };
    const part = element('div', '', around);
    bySets(text(caption, { size: greatest.replace('-', '') }), targets, sets, cell, part, 'numbers');
    if (means) faceMeansNote(means, part, [kind]);
  }
}

// ---------------------------------------------------------------- as files

const fieldText = (/** @type {string} */ field, /** @type {string} */ separator) =>
  /["\r\n]/.test(field) || field.includes(separator) ? `"${field.replaceAll('"', '""')}"` : field;
/** Records as text, between their fields this separator. */
export const csv = (/** @type {string[][]} */ rows, separator = ',') => rows
  .map(row => `${row.map(field => fieldText(field, separator)).join(separator)}\n`).join('');

/**
 * The face differences as a file, in mgon: the numbers of the list, with semicolons between them
 * where they have commas.
 */
export const facesFile = (/** @type {Station} */ station) => csv([
  ['set', 'target', '2c mgon', '2i mgon'],
  ...pairsOf(station.listed).map(({ set, target, twoC, twoI }) =>
    [set, target, numeral(twoC), numeral(twoI)]),
], hasComma() ? ';' : ',');
