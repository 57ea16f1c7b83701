// The answer in words and mgon, of each kind.
import {
  ACCEPTED, OUT_OF_RANGE, TOO_LITTLE_ROOM, isCountedOtherwise, isTwice, isUncounted,
  isWithoutFreedom, isWithoutName,
} from './answers.js';
import { toldOf } from './faults.js';
import { isUsed, originalOf, stationOfSheet } from './files.js';
import { APART, HALF, mgonOf } from './numbers.js';
import { differencesIn, sizeOf } from './rows.js';
import { signedNumeral, text } from './texts.js';

/**
 * @typedef {import('./answers.js').Answer} Answer
 * @typedef {import('./answers.js').Card} Card
 * @typedef {import('./files.js').Input} Input
 * @typedef {import('./limits.js').Limits} Limits
 */

/** What the fault of a refusal is, as a sentence. */
const meaningOf = (/** @type {Answer} */ { explanation }) => toldOf(explanation).what;

/** Whether a table is refused for being apart. */
export const isApart = (/** @type {Answer} */ { verdict }) => verdict?.verdict === 'Apart';

/** The targets of a table, how far it is apart and the limit that it was held to, in mgon. */
const howFarIn = (/** @type {import('./rows.js').Verdict} */ { targets, apart, limit }) =>
  ({ n: targets, apart: mgonOf(Number(apart), APART), limit: mgonOf(Number(limit), APART) });

/** An accepted sheet: residuals that are written as 0 may be less than a tenth of a half unit. */
function acceptedHeadline(/** @type {Answer} */ { greatest }) {
  if (!greatest) return text('acceptedBare');
  const { set, target, residual } = greatest;
  if (sizeOf(residual) === 0) return text('acceptedZero', { size: residual.replace('-', '') });
  return text('accepted', { size: residual.replace('-', ''), set, target });
}

/**
 * That residuals show nothing, where a station has one set, or no reading is redundant: of one that
 * is held together.
 */
function ofNoFreedom(/** @type {import('./files.js').Station | undefined} */ station) {
  if (!station) return [];
  const { sets, targets, directions } = station.listed;
  if (sets === 1) return [text('oneSet')];
  return directions + 1 === sets + targets ? [text('noFreedom')] : [];
}

/** The answer in words and mgon. */
export function headlineOf(/** @type {Answer} */ answer) {
  const { status, verdict } = answer;
  if (status === OUT_OF_RANGE) return text('outOfRange');
  if (status === TOO_LITTLE_ROOM) return text('noRoom');
  if (status === ACCEPTED) {
    const accepted = verdict ? text('agrees', howFarIn(verdict)) : acceptedHeadline(answer);
    return [accepted, ...ofNoFreedom(answer.station)].join(' ');
  }
  return verdict && isApart(answer) ? text('refusedApart', howFarIn(verdict)) : text('refused');
}

/** So many targets of a table that is apart are named. */
const MOST_NAMED = 4;

/** The targets that are furthest from the median of all, each with its difference from it. */
export function furthestOf(/** @type {string} */ differences) {
  const all = differencesIn(differences);
  const greatest = Math.max(...all.map(one => sizeOf(one.fromMedian)));
  const furthest = all.filter(one => sizeOf(one.fromMedian) === greatest)
    .map(({ target, fromMedian }) => `${target} ${signedNumeral(fromMedian)}\u00a0mgon`);
  const more = furthest.length > MOST_NAMED ? ['…'] : [];
  return text('furthest', { targets: [...furthest.slice(0, MOST_NAMED), ...more].join(', ') });
}

/** By which columns a table was read, in words; nothing where it has two. */
export const columnsText = (/** @type {Answer} */ { columns }) =>
  columns ? text('columnsRead', columns) : '';

/** The answer in words, and what the fault of a refusal is. */
export const saidOf = (/** @type {Answer} */ answer) =>
  answer.explanation && !isApart(answer)
    ? `${headlineOf(answer)} ${meaningOf(answer)}` : headlineOf(answer);

/**
 * How many sets, targets and directions a station has, in words.
 * @param {{ sets: number, targets: number, directions: number }} counted
 */
export const countsOf = ({ sets, targets, directions }) => ({
  sets: text('setsCounted', { n: sets }),
  targets: text('targetsCounted', { n: targets }),
  directions: text('directionsCounted', { n: directions }),
});

/** What was recognized of the sets of a station, in words. */
function setsText(/** @type {import('./rows.js').Recognized} */ one) {
  const { station, sets, targets, opening, turning, before, after, fault, block } = one;
  const { explanation } = one;
  if (fault)
    return text('recognizedNot', {
      station, block: String(block), fault: toldOf(explanation).what, n: before,
    });
  if (sets + before === 0) return text('recognizedUnread', { station });
  if (sets === 0) return text('recognizedNone', { station, n: before });
  const about = { station, opening, turning, ...countsOf({ sets, targets, directions: 0 }) };
  if (before + after === 0) return text('recognizedAll', about);
  return text('recognized', { ...about, before: text('readingsCounted', { n: before }), after });
}

/** What was recognized of a station, in sentences that stand one below the other. */
export function recognizedTexts(/** @type {import('./rows.js').Recognized} */ one) {
  const { isAgain, missing, full, others, isOpenedAgain, equal, zeniths, opening } = one;
  const { writtenAgain } = one;
  return [
    setsText(one),
    ...isAgain ? [text('recognizedAgain', { station: one.station })] : [],
    ...missing > 0 ? [text('recognizedMissing', { n: missing, full: full ?? 0 })] : [],
    ...others > 0 ? [text('recognizedOthers', { n: others })] : [],
    ...isOpenedAgain ? [text('recognizedOpenedAgain', { opening })] : [],
    ...equal.map(pair => text('recognizedEqual', pair)),
    ...zeniths.map(range => text('recognizedZeniths', range)),
    ...writtenAgain > 0 ? [text('recognizedWrittenAgain', { n: writtenAgain })] : [],
  ];
}

/** The headline of a card without answers. */
export function headlineOfCard(/** @type {Card} */ card) {
  if (card.unplaced) return text(card.unplaced);
  if (card.station) return text('readWell', countsOf(card.station.listed));
  if (card.marked) return text(headlineOfMark(card.marked));
  return text('nothingChecked');
}

/** Why a job without codes was not checked. */
function headlineOfMark(/** @type {Answer} */ marked) {
  // (a name that can't be one is stated where one is missing)
  if (isWithoutName(marked) || marked.status === OUT_OF_RANGE) return 'nothingNamed';
  if (isUncounted(marked)) return 'nothingCounted';
  if (isTwice(marked)) return 'nothingSetUp';
  return isCountedOtherwise(marked) ? 'countedOtherwise' : 'nothingRecognized';
}

/**
 * What came of the limit of residuals, in words: nothing where an answer of the card says it, or
 * nothing was held to it yet.
 */
export function judgedText(/** @type {Card} */ { judged, station }, /** @type {Limits} */ limits) {
  const { isKept, residuals, greatest } = judged ?? {};
  if (!residuals) return '';
  if (!greatest) return text('notAdjusted', { why: meaningOf(residuals) });
  const { set, target, residual } = greatest, limit = mgonOf(limits.residual, HALF);
  const about = { size: residual.replace('-', ''), set, target, limit };
  // (where no reading is redundant all residuals are 0, and no limit says anything)
  if (isKept && isWithoutFreedom(station)) return ofNoFreedom(station).join(' ');
  return text(isKept ? 'residualKept' : 'residualAbove', about);
}

/** Why files of a card are not checked yet. */
export function waitingText(/** @type {Card} */ { mood, marked, isStopped, waiting }) {
  const names = waiting.map(file => file.shown).join(', ');
  if (isStopped) return text('waitingStopped', { names });
  if (mood === 'bad') return text('waiting', { names });
  if (marked && isWithoutName(marked)) return text('waitingForName', { names });
  return text(marked && isUncounted(marked) ? 'waitingForCount' : 'waitingForSets', { names });
}

/** What a file is, in words. */
export function kindText(/** @type {Input} */ file) {
  const names = {
    field: 'kindField', sheet: file.rows ? 'kindSheet' : 'kindSheetUnread', table: 'kindTable',
    workbook: 'kindWorkbook', spreadsheet: 'kindSpreadsheet', utf16: 'kindUtf16',
    empty: 'kindEmpty', unread: 'kindUnread', other: 'kindOther',
  };
  return text(names[file.kind], { station: file.kind === 'sheet' ? stationOfSheet(file) : '' });
}

/** The name of a card: its station, or its file. */
export const titleOf = (/** @type {Card} */ { station, title }) =>
  station ? text('station', { name: title }) : title;

/**
 * All that is said of a card in words: its refusals, or else its answers, and what came of the
 * limit of residuals where it is not kept.
 * @param {Card} card
 * @param {Limits} limits
 */
export function saidOfCard(card, limits) {
  const refused = card.answers.filter(one => one.status !== ACCEPTED);
  const answers = (refused.length > 0 ? refused : card.answers).map(one => saidOf(one));
  const said = answers.length > 0 ? answers : [headlineOfCard(card)];
  if (card.judged?.isKept === false) said.push(judgedText(card, limits));
  return said.filter(one => one !== '').join(' ');
}

/**
 * What came of a file, in words, on each card that speaks of it; what it is where none does.
 * @param {Input} file
 * @param {Card[]} cards
 * @param {Limits} limits
 * @returns {[string, string][]} each with the mood in which it is said
 */
export function saidOfFile(file, cards, limits) {
  /** @type {[string, string][]} */
  const said = [];
  const of = (/** @type {Card} */ card, /** @type {string} */ words) =>
    text('labelled', { label: titleOf(card), said: words });
  for (const card of cards) {
    const { field, answers, mood, waiting } = card;
    if (originalOf(card.file) === file && !field) said.push([mood, headlineOfCard(card)]);
    else if (field && originalOf(field) === file && (card.station || !answers[0]?.other))
      said.push([mood, of(card, saidOfCard(card, limits))]);
    for (const one of answers.filter(({ other }) => other && originalOf(other) === file))
      said.push([one.status === ACCEPTED ? mood : 'bad', of(card, saidOf(one))]);
    if (waiting.some(one => originalOf(one) === file))
      said.push(['open', of(card, waitingText(card))]);
  }
  return said.length > 0 ? said : [['open', isUsed(file) ? text('notReached') : kindText(file)]];
}
