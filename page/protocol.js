// The protocol of a station, as an office prints and files it, and the page before several.
import { REFUSED, filesOf, isHeld, moodOfAnswer } from './answers.js';
import { changeText, changesOf, changesTogether } from './changes.js';
import { element, ofProgram } from './elements.js';
import { isUsed, originalOf, stemOf } from './files.js';
import {
  columnsText, countsOf, headlineOfCard, judgedText, kindText, recognizedTexts, saidOf, saidOfCard,
  saidOfFile, titleOf, waitingText,
} from './headlines.js';
import { limitsLine } from './limits.js';
import { notes } from './notes.js';
import { overviewTable } from './overview.js';
import { showFault, showMeaning } from './refusals.js';
import { showResults } from './results.js';
import { DATES, spoken, text } from './texts.js';

/**
 * @typedef {import('./answers.js').Card} Card
 * @typedef {import('./answers.js').Answer} Answer
 * @typedef {import('./files.js').Input} Input
 */

/** What the page is made of, as its foot says it. */
const made = () =>
  /** @type {Record<string, string>} */ ({ ...document.getElementById('made')?.dataset });

/** A row of the facts: the text of this name, and room for what it says. */
function row(/** @type {string} */ label, /** @type {Element} */ parent) {
  element('dt', text(label), parent);
  return element('dd', '', parent);
}

/** The files of a card: those that were judged, and those that wait. */
const allFilesOf = (/** @type {Card} */ card) => {
  const files = filesOf(card);
  return [...files.length > 0 ? files : [card.file], ...card.waiting];
};

/** A file with its digest, where it was judged. */
function showFile(/** @type {Input} */ { shown, digest }, /** @type {Element} */ parent) {
  const line = element('div', `${shown} `, parent);
  if (digest) ofProgram('code', text('digest', { digest }), line);
}

/** What a field file recorded of instrument and time, in the lines of a report. */
function showRecorded(/** @type {Input} */ file, /** @type {Element} */ parent) {
  const lines = originalOf(file).recorded?.[spoken()] ?? [];
  if (lines.length === 0) return;
  const said = row('recorded', parent);
  for (const line of lines)
    element('samp', line.trim(), element('div', '', said), { translate: false });
}

/** What the user said of the job: the observer and the instrument in one row. */
function showNotes(/** @type {Element} */ parent) {
  const { project, instrument, observer } = notes();
  if (project) row('project', parent).textContent = project;
  const label = instrument && observer ? 'byHand' : observer ? 'observer' : 'instrument';
  const said = [observer, instrument].filter(one => one).join(', ');
  if (said) row(label, parent).textContent = said;
}

/** The lines to sign: the first is left out where the user said what stands there. */
function showSigns(/** @type {Element} */ parent) {
  const { instrument, observer } = notes();
  const part = element('div', '', parent, { className: 'signs' });
  for (const label of [...instrument && observer ? [] : ['byHand'], 'sign'])
    element('p', text(label), part);
}

/** The row that says when the files were checked. */
function showDate(/** @type {Card | undefined} */ card, /** @type {Element} */ parent) {
  /** @type {Intl.DateTimeFormatOptions} */
  const how = { dateStyle: 'long', timeStyle: 'short' };
  row('date', parent).textContent = (card?.at ?? new Date()).toLocaleString(DATES[spoken()], how);
}

/**
 * What was answered of a card, each with the program's line and the command; and what came of the
 * limit of residuals, and of the files that wait.
 * @param {Card} card
 * @param {import('./limits.js').Limits} limits
 * @param {Element} parent
 */
function showAnswers(card, limits, parent) {
  const say = (/** @type {string} */ said, /** @type {string} */ mood) =>
    element('h2', said, parent, { className: `said ${mood}` });
  if (card.answers.length === 0) {
    const more = card.station ? ` ${text('notCompared')}` : '';
    say(`${headlineOfCard(card)}${more}`, card.station ? 'read' : card.mood);
  }
  for (const answer of card.answers) {
    const said = saidOf(answer), label = answer.other?.shown;
    const workbook = answer.other?.original;
    if (workbook) element('div', text('takenFrom', { name: workbook.shown }), parent);
    say(label ? text('labelled', { label, said }) : said, moodOfAnswer(answer, card));
    const columns = columnsText(answer), { status, line, note = '' } = answer;
    if (columns) element('div', columns, parent);
    for (const one of status <= REFUSED ? [line, ...note ? [note] : []] : [])
      ofProgram('samp', one, element('div', '', parent));
    ofProgram('code', answer.command, element('div', '', parent));
  }
  const said = judgedText(card, limits), { isKept, command } = card.judged ?? {};
  if (said) say(said, isKept ? 'read' : 'bad');
  if (command && !isKept) ofProgram('code', command, element('div', '', parent));
  if (card.waiting.length > 0) say(waitingText(card), 'open');
}

/** What a refusal speaks of and what it means, below the facts. */
function showFaults(/** @type {Card} */ card, /** @type {Element} */ parent) {
  const { answers, marked, station, judged } = card;
  const residuals = judged?.isKept === false ? judged.residuals : undefined;
  const refused = [...answers, ...marked ? [marked] : [], ...residuals ? [residuals] : []]
    .filter(one => one.status === REFUSED);
  for (const answer of refused) {
    // (of a job whose sets aren't recognized the headline doesn't say why)
    if (answer === marked) showMeaning('p', answer, parent, 'reason');
    showFault({ ...answer, station }, parent, true);
  }
}

/**
 * What was recognized where codes were put into a copy, and the command that makes it.
 * @param {Answer} marked
 * @param {Card} card
 * @param {Element} parent
 */
function showMarks(marked, { recognized = [], title }, parent) {
  const told = recognized.filter(({ station }) => station === title);
  for (const said of told.flatMap(recognizedTexts)) element('div', said, parent);
  ofProgram('code', marked.command, element('div', '', parent));
}

/** Which lines are changed in the copy that was checked, and why. */
function showChanged(/** @type {Input} */ field, /** @type {Element} */ parent) {
  const changes = changesOf(field);
  if (changes.length === 0) return;
  const said = row('changes', parent);
  for (const some of changesTogether(changes)) element('div', changeText(...some), said);
}

/**
 * A text of the style that says this: each of its signs is an escape of six digits, so that a name
 * is never a part of the style.
 */
function inStyle(/** @type {string} */ said) {
  const signs = Array.from(said, sign => (sign.codePointAt(0) ?? 0).toString(16).padStart(6, '0'));
  return `"${signs.map(digits => `\\${digits}`).join('')}"`;
}

/** Whether the browser writes nothing at the foot of a page by a style: then a line stands there. */
const HAS_NO_FEET = !('CSSMarginRule' in window);

/**
 * Has each page of a protocol say what it is of, at its foot. Browsers that write nothing there
 * have a line that stands on all pages that are printed: so it is that of what comes first. Of others
 * it is the foot of a table, which Firefox repeats on each page, and WebKit has once, at the end.
 * @param {HTMLElement} part
 * @param {string} said
 * @param {string} page its name, where others are printed too
 */
function nameItsPages(part, said, page) {
  if (HAS_NO_FEET) {
    part.classList.add(page ? 'apart' : 'footed');
    if (page) {
      element('span', said, element('p', '', part, { className: 'own' }));
      return;
    }
    element('style', '@page { margin-bottom: 6mm }', part);
    element('p', said, part, { className: 'each' });
    return;
  }
  element('style', `@page ${page} { @bottom-left { content: ${inStyle(said)} } }`, part);
  if (page) part.style.setProperty('page', page);
}

/**
 * What a protocol that stands alone says of what else was handed in: each other card that is
 * refused or open, and each file that is not used, so that none misses on paper.
 * @param {Card} card
 * @param {Input[]} inputs
 * @param {Card[]} cards
 * @param {import('./limits.js').Limits} limits
 */
export function besideOf(card, inputs, cards, limits) {
  const others = cards.filter(one => one !== card && ['bad', 'open'].includes(one.mood));
  const unused = inputs.filter(file => !isUsed(file));
  return [
    ...others.map(one => ({ label: titleOf(one), said: saidOfCard(one, limits) })),
    ...unused.map(file => ({ label: file.shown, said: kindText(file) })),
  ].map(about => text('labelled', about));
}

/**
 * The protocol of a card: of a station with its results, where they are loaded. Those without are
 * brief where others are printed too, and stand below each other.
 * @param {Card} card
 * @param {import('./limits.js').Limits} limits
 * @param {Element} parent
 * @param {string} [page] its name, where others are printed too
 * @param {string[]} [beside] what is said of what else was handed in
 */
export function showProtocol(card, limits, parent, page = '', beside = []) {
  const { station } = card, isBrief = page !== '' && !card.results;
  const className = isBrief ? 'protocol brief' : 'protocol';
  const part = element('article', '', parent, { className });
  const title = station ? text('protocol', { name: station.listed.name })
    : text('checkOf', { name: card.title });
  if (!isBrief) nameItsPages(part, card.station ? `${title}, ${card.field.shown}` : title, page);
  if (page) part.id = page;
  element('h1', title, part);
  const facts = element('dl', '', part, { className: 'facts' });
  showNotes(facts);
  const files = row('files', facts);
  for (const file of allFilesOf(card)) showFile(file, files);
  if (card.field) showRecorded(card.field, facts);
  showDate(card, facts);
  if (station) row('observed', facts).textContent = text('counts', countsOf(station.listed));
  if (card.field) showChanged(card.field, facts);
  if (station && card.marked) showMarks(card.marked, card, row('marks', facts));
  const isCompared = card.answers.some(({ differences }) => differences);
  const held = { residual: isHeld(card), within: isCompared };
  if (card.field) row('limits', facts).textContent = limitsLine(limits, held);
  showAnswers(card, limits, row('answer', facts));
  const others = beside.length > 0 ? row('handedIn', facts) : facts;
  for (const said of beside) element('div', said, others);
  showFaults(card, part);
  if (card.station && card.results) showResults({ ...card, results: card.results }, part);
  else if (station) element('p', text('notOpened'), part);
  if (isBrief) return;
  showSigns(part);
  element('p', text('madeBy', made()), part, { className: 'quiet foot' });
}

/** Whether a card speaks of a file. */
const speaksOf = (/** @type {Card} */ card, /** @type {Input} */ file) =>
  allFilesOf(card).some(one => originalOf(one) === file);

/**
 * The protocols of all cards; before them, where there is more than one card, or a file that is on
 * none, a page that has each file and what came of it.
 * @param {Input[]} inputs
 * @param {Card[]} cards
 * @param {import('./limits.js').Limits} limits
 * @param {string} verdict what is said of all
 * @param {Element} parent
 */
export function showProtocols(inputs, cards, limits, verdict, parent) {
  if (cards.length === 1 && inputs.every(file => speaksOf(cards[0], file)))
    return showProtocol(cards[0], limits, parent);
  const part = element('article', '', parent, { className: 'protocol' });
  const title = text('contents', { n: inputs.length });
  nameItsPages(part, title, '');
  element('h1', title, part);
  const facts = element('dl', '', part, { className: 'facts' });
  showNotes(facts);
  showDate(cards[0], facts);
  row('answer', facts).textContent = verdict;
  const link = (/** @type {Card} */ card, /** @type {Element} */ head) =>
    element('a', card.title, head, { href: `#${pageOf(cards.indexOf(card))}` });
  if (cards.length > 1) overviewTable(cards, link, part);
  const list = element('ul', '', part, { className: 'contents' });
  for (const file of inputs) {
    const item = element('li', '', list);
    showFile(file, item);
    for (const [mood, said] of saidOfFile(file, cards, limits))
      element('div', said, item, { className: `said ${mood}` });
  }
  element('p', text('madeBy', made()), part, { className: 'quiet foot' });
  cards.forEach((card, nth) => showProtocol(card, limits, parent, pageOf(nth)));
}

/** By what the protocol of the nth card is called, where several stand below each other. */
const pageOf = (/** @type {number} */ nth) => `protocol${nth}`;

/** What a protocol is called as a file: by its field file and its station. */
export const nameOfProtocol = (/** @type {Card} */ card) =>
  card.station ? `${stemOf(originalOf(card.field))}_${card.title}` : card.title;

/**
 * A file of its own of this title, with the style of the page.
 * @param {string} title
 * @param {(body: Element) => void} fill
 */
function fileOf(title, fill) {
  const whole = document.implementation.createHTMLDocument(title);
  whole.documentElement.lang = spoken();
  element('meta', '', whole.head).setAttribute('charset', 'utf-8');
  element('style', document.querySelector('style')?.textContent ?? '', whole.head);
  whole.documentElement.className = 'printed';
  whole.body.className = 'saved';
  fill(whole.body);
  return `<!doctype html>\n${whole.documentElement.outerHTML}\n`;
}

/**
 * The protocol of a card as a file of its own.
 * @param {Card} card
 * @param {import('./limits.js').Limits} limits
 * @param {string[]} [beside]
 */
export const protocolFile = (card, limits, beside) => fileOf(nameOfProtocol(card), body =>
  showProtocol(card, limits, body, '', beside));

/**
 * The protocols of all cards in one file, after the page that has each file and what came of it.
 * @param {Input[]} inputs
 * @param {Card[]} cards
 * @param {import('./limits.js').Limits} limits
 * @param {string} verdict
 */
export const protocolsFile = (inputs, cards, limits, verdict) =>
  fileOf(text('contents', { n: inputs.length }), body =>
    showProtocols(inputs, cards, limits, verdict, body));
