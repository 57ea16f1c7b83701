// The table above several cards, and on the page before their protocols: each with what came of it.
import { ACCEPTED, isWithoutFreedom } from './answers.js';
import { rowOf, tableOf } from './elements.js';
import { originalOf } from './files.js';
import { greatestOf, residualsIn } from './rows.js';
import { numeral, text } from './texts.js';

/** @typedef {import('./answers.js').Card} Card */

/** What is said of a card of each mood in a word. */
export const MOODS = { good: 'moodGood', bad: 'moodBad', read: 'moodRead', open: 'moodOpen' };

/** What stands where a number isn't known, or there is none. */
const NONE = '\u2013';

/**
 * The greatest residual of a station and its standard deviation, as far as they are at hand: where
 * no reading is redundant neither says anything.
 */
function accuracyOf(/** @type {Card} */ { station }) {
  const { residuals, accuracy } = station?.whole ?? {};
  const greatest = residuals?.status === ACCEPTED && !isWithoutFreedom(station)
    ? numeral(greatestOf(residualsIn(residuals.line)).residual.replace('-', '')) : NONE;
  return [greatest, numeral(accuracy?.deviation ?? '') || NONE];
}

/**
 * The row of a card; what heads it is filled.
 * @param {Card} card
 * @param {(card: Card, head: Element) => void} fill
 * @param {Element} parent
 */
export function overviewRow(card, fill, parent) {
  const { station, mood } = card, said = { text: text(MOODS[mood]), mark: `said ${mood}` };
  const counts = [station?.listed.sets ?? NONE, station?.listed.targets ?? NONE].map(String);
  const numbers = [...accuracyOf(card), ...counts].map(one => ({ text: one }));
  const file = { text: station ? originalOf(station.field).shown : NONE };
  const row = rowOf(['', said, ...numbers, file], parent);
  fill(card, row.children[0]);
  return row;
}

/**
 * The table of these cards; what heads each row is filled.
 * @param {Card[]} cards
 * @param {(card: Card, head: Element) => void} fill
 * @param {Element} parent
 */
export function overviewTable(cards, fill, parent) {
  const names = ['stationOrFile', 'answer', 'greatestResidual', 's', 'sets', 'targetsRead'];
  const heads = [...names, 'fieldFile'].map(name => text(name));
  const table = tableOf(text('overview'), heads, [], parent, 'overview');
  for (const card of cards) overviewRow(card, fill, table.tBodies[0]);
  return table;
}
