// A card of a station: the answer first, then the fault or the results.
import {
  ACCEPTED, OUT_OF_RANGE, REFUSED, WITH_COMMAS, filesOf, isCountedOtherwise, isUncounted,
  isWithoutFreedom, isWithoutName, mayLeaveOut, meansOf, moodOfAnswer, reportOf,
} from './answers.js';
import {
  asHandedIn, changeText, changesOf, changesTogether, givenBlock, logOf, pointNamesIn,
} from './changes.js';
import { handOnTo } from './drawing.js';
import { button, element, menuOf, ofProgram, save } from './elements.js';
import { nameIn } from './faults.js';
import { originalOf, stemOf, textOf } from './files.js';
import {
  columnsText, furthestOf, headlineOf, headlineOfCard, isApart, judgedText, recognizedTexts,
  titleOf, waitingText,
} from './headlines.js';
import { LIMITS, commandOf } from './limits.js';
import { mgonOf } from './numbers.js';
import { MOODS } from './overview.js';
import { pictureFile } from './picture.js';
import { placeOf, seenText } from './place.js';
import { nameOfProtocol, protocolFile } from './protocol.js';
import { showExplanation, showFault, showMeaning, showPlace } from './refusals.js';
import { blockLinesOf, proposalFor } from './repairs.js';
import { showResultsInTurn } from './results.js';
import { isComplete, residualsIn } from './rows.js';
import { facesFile } from './tables.js';
import { hasComma, text } from './texts.js';

/**
 * @typedef {import('./answers.js').Card} Card
 * @typedef {import('./answers.js').StationCard} StationCard
 * @typedef {import('./answers.js').ReadyCard} ReadyCard
 * @typedef {import('./answers.js').UnmarkedCard} UnmarkedCard
 * @typedef {import('./answers.js').Answer} Answer
 * What a card asks of the page: the limits, what is saved of it is called, to load its results, what
 * its protocol says of what else was handed in, to print it, to name the station of a field file, or
 * the code whose blocks begin its stations, to state the numbers of sets and targets of stations,
 * what one is whose name comes again, that stations that aren't recognized stay outside, by which
 * columns a table is to be read, or to have lines changed in a copy: both answer why that can't be.
 * @typedef {{ limits: import('./limits.js').Limits, called: (card: StationCard) => string,
 *   load: (card: StationCard) => Promise<void>,
 *   beside: (card: Card) => string[], print: (card: Card) => void,
 *   name: (field: Input, station: string) => void,
 *   begin: (field: Input, code: string) => void,
 *   count: (field: Input, stations: string[], numbers: import('./files.js').Numbers) => void,
 *   setUp: (field: Input, again?: import('./files.js').Again) => void,
 *   leaveOut: (field: Input, others: boolean) => void,
 *   readBy: (table: Input, columns?: string[]) => Promise<string>,
 *   change: (field: Input, changes: Change[]) => Promise<string> }} Desk
 * @typedef {import('./changes.js').Change} Change
 * @typedef {import('./repairs.js').Proposal} Proposal
 * @typedef {import('./files.js').Input} Input
 * Gives what is in a file that can be saved; nothing where there is none, and it is said why.
 * @typedef {() => string | null | Promise<string | null>} Content
 */

// ---------------------------------------------------------------- an answer

/**
 * The program's line, where it has one, with the note of a table, and the command that answers the
 * same.
 * @param {{ command: string, line?: string, note?: string, status?: number }} answer
 * @param {Element} parent
 */
function showCommand({ line = '', note = '', command, status = OUT_OF_RANGE }, parent) {
  const part = element('dl', '', parent, { className: 'exact' });
  if (status <= REFUSED) {
    element('dt', text('program'), part);
    for (const said of [line, ...note ? [note] : []])
      ofProgram('samp', said, element('dd', '', part));
  }
  element('dt', text('sameCommand'), part);
  ofProgram('code', command, element('dd', '', part));
}

/**
 * An answer: in words, where the fault stands and what it means, and the line.
 * @param {Answer} answer
 * @param {Card} card
 * @param {Desk} desk
 * @param {Element} parent
 */
function showAnswer(answer, card, desk, parent) {
  const { status, line, other, explanation } = answer;
  const part = element('div', '', parent, { className: `answer ${moodOfAnswer(answer, card)}` });
  if (other) element('p', other.shown, part, { className: 'label name' });
  if (other?.original) showTaken(other, other.original, part);
  const headline = element('h3', headlineOf(answer), part, { className: 'headline' });
  if (status === REFUSED && !isApart(answer) && explanation) {
    headline.append(' ');
    showMeaning('span', answer, headline);
  }
  if (isApart(answer) && answer.differences)
    element('p', furthestOf(answer.differences), part, { className: 'reason' });
  const columns = columnsText(answer);
  if (columns) element('p', columns, part, { className: 'columns' });
  showFault(answer, part);
  if (other?.kind === 'table') askColumns(other, answer, desk, part);
  offerChange(answer, desk, part);
  showCommand(answer, part);
}

/** So many columns have the tables of which none are asked for, where these need not be. */
const USUAL_COLUMNS = 2;
/**
 * The fields of columns: what each is called.
 * @type {[string, string][]}
 */
const ASKED_COLUMNS = [['names', 'nameColumn'], ['directions', 'directionColumn']];

/**
 * Asks by which columns a refused table is to be read, by numbers or titles, where it has more than
 * two; and where some are stated, which may be forgotten again.
 * @param {Input} table
 * @param {Answer} answer
 * @param {Desk} desk
 * @param {Element} parent
 */
function askColumns(table, { status, verdict }, desk, parent) {
  const given = originalOf(table), { columns = [] } = given, { first, second } = verdict ?? {};
  const { titles = [] } = table, isRefused = status === REFUSED && titles.length > USUAL_COLUMNS;
  if (columns.length === 0 && verdict?.verdict !== 'Columns' && !isRefused) return;
  const form = element('form', '', parent, { className: 'buttons' });
  form.setAttribute('aria-label', text('columnsOf', { name: given.shown }));
  if (verdict?.verdict === 'Columns') element('span', text('columnsFit', { first, second }), form);
  const typed = given.typing ??= new Map(), typing = typed.get('columns') ?? {};
  typed.set('columns', typing);
  const inputs = ASKED_COLUMNS.map(([name, called], nth) => {
    const label = element('label', `${text(called)} `, form);
    const value = typing[name] ?? String(columns[nth] ?? '');
    const about = { type: 'text', required: true, pattern: '.*\\S.*', value };
    const input = /** @type {HTMLInputElement} */ (element('input', '', label, about));
    input.oninput = () => { typing[name] = input.value; };
    propose(input, `${given.shown} ${name}`, () => titles.map(one => one.trim()).filter(Boolean));
    return input;
  });
  element('button', text('readColumns'), form, { type: 'submit', className: 'button' });
  if (columns.length > 0) button(text('findColumns'), form, () => readBy());
  const said = element('p', '', form, { className: 'bad' });
  said.setAttribute('role', 'status');
  const readBy = async (/** @type {string[] | undefined} */ stated) => {
    typed.delete('columns');
    const refused = await desk.readBy(table, stated);
    if (!refused) return;
    typed.set('columns', typing);
    said.textContent = refused;
  };
  form.onsubmit = event => {
    event.preventDefault();
    readBy(inputs.map(input => input.value.trim()));
  };
}

// ---------------------------------------------------------------- changed lines

/**
 * What is said of a proposal, and on its button.
 * @type {Record<Proposal['what'], [string, string]>}
 */
const PROPOSED = {
  lastSet: ['proposedLastSet', 'leaveLastSetOut'], closing: ['proposedClosing', 'leaveClosingOut'],
  before: ['proposedBefore', 'leaveBeforeOut'],
};

/**
 * What the page proposes to leave out, where a refusal stands at a block. (Where an office's code
 * begins stations it isn't known which lines are of one.)
 * @param {Answer} answer
 * @param {number} block
 */
function proposalAt({ explanation, field }, block) {
  return field.code ? undefined
    : proposalFor(field.bytes, block, nameIn(explanation), field.again === 'another');
}

/**
 * Offers to change the line at which a refusal stands, in a copy, and those that the page proposes
 * to leave out: where they are of the file that was handed in, and not of a copy with codes. At its
 * end there may be a proposal alone.
 * @param {Answer} answer
 * @param {Desk} desk
 * @param {Element} parent
 */
function offerChange(answer, desk, parent) {
  const { field, status, named } = answer;
  if (status !== REFUSED || named?.what !== 'block' || field.original) return;
  const isThere = named.first !== undefined, proposal = proposalAt(answer, named.number);
  if (!isThere && !proposal) return;
  const block = givenBlock(field, named.number), given = asHandedIn(field);
  const form = element('form', '', parent, { className: 'buttons change' });
  const called = text(isThere ? 'changeLine' : 'changeLines', { block, name: given.shown });
  form.setAttribute('aria-label', called);
  const changing = field.changing ??= new Map(), typing = changing.get(block) ?? {};
  changing.set(block, typing);
  /** @type {(label: 'reason' | 'newName', maxLength: number) => HTMLInputElement} */
  const input = (label, maxLength) => {
    const part = element('label', `${text(label)} `, form);
    const about = { type: 'text', maxLength, value: typing[label] ?? '' };
    const made = /** @type {HTMLInputElement} */ (element('input', '', part, about));
    made.oninput = () => {
      typing[label] = made.value;
      say(() => '');
    };
    return made;
  };
  const why = input('reason', MOST_OF_REASON);
  /** @type {HTMLInputElement | undefined} */
  let name;
  if (isThere) {
    button(text('leaveLineOut'), form, () => hand([block]));
    const typed = name = input('newName', MOST_OF_NAME), { first = 0 } = named;
    propose(typed, `${given.shown} ${block}`, () => pointNamesIn(field.bytes, first));
    button(text('renamePoint'), form, () => hand([block], { name: typed.value.trim() }));
  }
  if (proposal)
    showProposal(proposal, field, (blocks, proposed) => hand(blocks, { proposed }), form);
  const said = element('p', '', form, { className: 'bad' });
  said.setAttribute('role', 'status');
  const say = (/** @type {() => string} */ words) => {
    typing.said = words;
    said.textContent = words();
  };
  said.textContent = typing.said?.() ?? '';
  form.onsubmit = event => event.preventDefault();
  /** @type {(blocks: number[], more?: Pick<Change, 'name' | 'proposed'>) => Promise<void>} */
  async function hand(blocks, more = {}) {
    const reason = why.value.trim();
    const missing = reason === '' ? why : more.name === '' ? name : undefined;
    say(() => missing ? text(missing === why ? 'needReason' : 'needNewName') : '');
    if (missing) return missing.focus();
    const others = changesOf(field).filter(one => !blocks.includes(one.block));
    const changed = blocks.map(one => ({ block: one, ...more, why: reason }));
    // (once it is made nothing more is typed of it)
    changing.delete(block);
    const refused = await desk.change(field, [...others, ...changed]);
    if (!refused) return;
    changing.set(block, typing);
    // (it is in the language of now)
    said.textContent = refused;
  }
}

/**
 * Shows which lines are proposed to be left out, and a button that does it.
 * @param {Proposal} proposal
 * @param {Input} field
 * @param {(blocks: number[], what: Proposal['what']) => void} leaveOut
 * @param {Element} parent
 */
function showProposal({ what, lines }, field, leaveOut, parent) {
  const part = element('div', '', parent, { className: 'proposal' });
  const [said, label] = PROPOSED[what], blocks = lines.map(({ block }) => givenBlock(field, block));
  const shown = lines.map(({ line }, nth) =>
    ({ number: String(blocks[nth]), text: seenText(line), isMeant: false }));
  showPlace({ where: text(said, { n: lines.length }), lines: shown, first: 0, end: 0 }, part);
  button(text(label), part, () => leaveOut(blocks, what));
}

/** So many letters has a name at most, and what is said of a change. */
const MOST_OF_NAME = 16, MOST_OF_REASON = 200;

/**
 * Proposes names for a field, which are looked for when it is turned to; `of` tells it from others.
 * @param {HTMLInputElement} input
 * @param {string} of
 * @param {() => string[]} names
 */
function propose(input, of, names) {
  const id = `names-${Array.from(of, sign => sign.charCodeAt(0).toString(36)).join('-')}`;
  const list = element('datalist', '', input.parentElement ?? input, { id });
  input.setAttribute('list', id);
  input.onfocus = () => {
    if (list.childElementCount > 0) return;
    for (const one of names()) element('option', '', list, { value: one });
  };
}

/**
 * Shows which lines are changed in the copy that is checked, and why; each can be taken back, and
 * the copy and a log of it be saved.
 * @param {Input} field
 * @param {Desk} desk
 * @param {Element} parent
 */
function showChanges(field, desk, parent) {
  const changes = changesOf(field);
  if (changes.length === 0) return;
  const copy = originalOf(field), part = element('div', '', parent, { className: 'marked' });
  const { shown } = asHandedIn(field);
  element('p', text('changedCopy', { name: shown }), part, { className: 'label' });
  const list = element('ul', '', part, { className: 'changes' });
  /** @type {(some: Change[], room: Element) => Element} */
  const show = (some, room) => {
    const said = changeText(...some), item = element('li', `${said} `, room);
    const back = button(text('takeBack'), item, () =>
      desk.change(copy, changes.filter(one => !some.includes(one))), 'button small');
    back.setAttribute('aria-label', `${text('takeBack')}: ${said}`);
    return item;
  };
  for (const some of changesTogether(changes)) {
    const item = show(some, list);
    if (some.length > 1) showEach(some, asHandedIn(field), show, item);
  }
  element('p', text('keepBoth'), part, { className: 'quiet' });
  const buttons = element('div', '', part, { className: 'buttons' });
  button(text('saveChanged'), buttons, () => save(copy.name, copy.bytes, 'text/plain'));
  button(text('saveLog'), buttons, () => save(`${copy.name}.log`, logOf(copy), 'text/plain'));
}

/**
 * Shows changes that were made together one by one, each with its line, when that is unfolded: a
 * file may have many cards.
 * @param {Change[]} changes
 * @param {Input} given
 * @param {(some: Change[], room: Element) => Element} show
 * @param {Element} parent
 */
function showEach(changes, given, show, parent) {
  const fold = /** @type {HTMLDetailsElement} */ (element('details', '', parent));
  element('summary', text('lineByLine'), fold);
  fold.ontoggle = () => {
    if (!fold.open || fold.children.length > 1) return;
    const list = element('ul', '', fold), lines = blockLinesOf(given.bytes);
    for (const one of changes) element('code', seenText(lines[one.block - 1]), show([one], list));
    handOnTo(fold);
  };
}

/** So many rows that were taken of a workbook are shown at once. */
const FEW_ROWS = 12;

/**
 * What was taken of a workbook, before anything is said of it: nothing of that is proved.
 * @param {Input} table
 * @param {Input} workbook
 * @param {Element} parent
 */
function showTaken({ name, bytes }, workbook, parent) {
  const rows = textOf(bytes), part = element('div', '', parent, { className: 'marked' });
  element('p', text('takenFrom', { name: workbook.shown }), part);
  const open = rows.split('\n').length <= FEW_ROWS, fold = element('details', '', part, { open });
  element('summary', text('taken'), fold);
  element('pre', rows, fold);
  const buttons = element('div', '', part, { className: 'buttons' });
  button(text('saveTaken'), buttons, () => save(name, bytes, 'text/csv'));
}

/**
 * What came of the limit of residuals, where no answer of the card says it.
 * @param {Card} card
 * @param {Desk} desk
 * @param {Element} parent
 */
function showJudged(card, desk, parent) {
  const said = judgedText(card, desk.limits), { judged, station } = card;
  if (!judged?.residuals) return;
  if (judged.isKept) {
    element('p', said, parent);
    return;
  }
  const part = element('div', '', parent, { className: 'answer bad' });
  element('h3', said, part, { className: 'headline' });
  showFault({ ...judged.residuals, station }, part);
  showCommand(judged.command ? { command: judged.command } : judged.residuals, part);
}

// ---------------------------------------------------------------- results

/**
 * What is said of a saved report, which has the largest limit of residuals, where another is in
 * force.
 * @param {StationCard} card
 * @param {import('./limits.js').Limits} limits
 */
function ofReport({ station, field }, limits) {
  const { most, per } = LIMITS.residual, operands = [field.name, station.listed.name];
  if (limits.residual === most) return '';
  const command = commandOf('report', ['twoC', 'twoI', 'residual'], limits, operands);
  return text('reportLimit', { most: mgonOf(most, per), command });
}

/**
 * What can be saved of a station, and printed.
 * @param {ReadyCard} card
 * @param {Desk} desk
 * @param {Element} parent
 */
function showButtons(card, desk, parent) {
  const { station, results, field } = card, { listed } = station, { name } = listed;
  const called = desk.called(card);
  const part = element('div', '', parent, { className: 'buttons' });
  button(text('printProtocol'), part, () => desk.print(card), 'button primary');
  const menu = menuOf(text('save'), part);
  const said = element('p', '', parent, { className: 'quiet' });
  said.setAttribute('role', 'status');
  const saved = originalOf(field).saved ??= new Map();
  const say = () => { said.textContent = saved.get(name)?.() ?? ''; };
  say();
  /**
   * @type {(label: string, file: string, content: Content, type?: string, more?: () => string)
   *   => Element}
   */
  const offer = (label, file, content, type = 'text/csv', more = () => '') =>
    button(text(label), menu, async () => {
      const whole = await content();
      if (whole === null) return;
      save(file, whole, type);
      saved.set(name, () => `${text('saved', { name: file })} ${more()}`.trimEnd());
      say();
    });
  const protocol = `${nameOfProtocol(card)}.html`;
  offer('saveProtocol', protocol, () => protocolFile(card, desk.limits, desk.beside(card)),
    'text/html');
  // (the rows of a file have numbers as the text of the page has them)
  /** @type {(what: keyof typeof WITH_COMMAS, whole: string, table?: Input) => Content} */
  const rows = (what, whole, table = field) => async () =>
    hasComma() ? (await WITH_COMMAS[what](station, desk.limits, table)).text : whole;
  if (results.directions.status === ACCEPTED) {
    const content = rows('directions', `${results.directions.line}\n`);
    offer('saveDirections', `${called}_directions.csv`, content);
  }
  if (results.residuals.status === ACCEPTED && !isWithoutFreedom(station)) {
    const { line } = results.residuals, title = text('residualsOf', { name });
    const origin = [field.name, text('digest', { digest: field.digest })];
    offer('saveResiduals', `${called}_residuals.csv`, rows('rows', `${line}\n`));
    const deviation = results.accuracy?.deviation ?? '';
    const picture = () => pictureFile(title, origin, residualsIn(line), deviation);
    offer('savePicture', `${called}_residuals.svg`, picture, 'image/svg+xml');
  }
  if (results.report.status === ACCEPTED) {
    const content = async () => (await reportOf(station, desk.limits)).text;
    const more = () => ofReport(card, desk.limits);
    offer('saveReport', `${called}_report.txt`, content, 'text/plain', more);
  }
  for (const { differences, other } of card.answers) {
    const file = `${stemOf(other ?? field)}_differences.csv`;
    if (differences) offer('saveDifferences', file, rows('differences', differences, other));
  }
  offer('saveFaces', `${called}_faces.csv`, () => facesFile(station));
  if (isComplete(listed)) offer('saveMeans', `${called}.csv`, async () => {
    const { status, text: sheet } = await meansOf(station, desk.limits);
    said.textContent = '';
    if (status !== ACCEPTED) ofProgram('samp', sheet.trimEnd(), said);
    return status === ACCEPTED ? sheet : null;
  });
}

/**
 * The results, which are asked for when they are first opened.
 * @param {StationCard} card
 * @param {Desk} desk
 * @param {boolean} isOpen
 * @param {Element} parent
 */
function showOpening(card, desk, isOpen, parent) {
  const part = /** @type {HTMLDetailsElement} */ (element('details', '', parent));
  part.className = 'results';
  const names = ['directions', 'residuals', 'faces'].map(name => text(name));
  element('summary', names.join(' · '), part);
  let isFilled = false;
  part.open = isOpen;
  // (the browser tells of the first state too)
  part.ontoggle = async () => {
    if (!part.open || isFilled) return;
    const { results } = card;
    isFilled = results !== undefined;
    // (the card is drawn anew when they are there)
    if (!results) await desk.load(card);
    else {
      showButtons({ ...card, results }, desk, part);
      await showResultsInTurn({ ...card, results }, part);
    }
    part.classList.add('filled');
    handOnTo(part);
  };
}

// ---------------------------------------------------------------- jobs without codes

/**
 * What was recognized in a job without codes, to be compared with the field book, and the copy to
 * be saved.
 * @param {Answer} marked
 * @param {Input} copy
 * @param {import('./rows.js').Recognized[]} recognized
 * @param {Desk} desk
 * @param {Element} parent
 */
function showMarked({ line, field, command }, copy, recognized, desk, parent) {
  const part = element('div', '', parent, { className: 'marked' });
  element('p', text('markedCopy', { name: field.shown }), part, { className: 'label' });
  for (const said of recognized.flatMap(recognizedTexts)) element('p', said, part);
  element('p', text('compareBook'), part);
  const buttons = element('div', '', part, { className: 'buttons' });
  button(text('saveMarked'), buttons, () => save(copy.name, copy.bytes, 'text/plain'));
  if (field.station) askName(field, desk, 'changeName', buttons);
  if (field.code) askCode(field, desk, 'changeCode', buttons);
  const counted = ['', ...recognized.map(({ station }) => station)];
  for (const station of counted.filter(name => field.numbers?.has(name)))
    askNumbers(field, station, desk, 'changeNumbers', buttons);
  if (field.again) button(text('askAgain'), buttons, () => desk.setUp(field));
  if (field.others) button(text('leaveNone'), buttons, () => desk.leaveOut(field, false));
  const exact = element('details', '', part);
  element('summary', text('program'), exact);
  ofProgram('pre', `${command}\n${line}`, exact);
}

/**
 * Asks for the name of the station, which no line of the job has, or for another one.
 * @param {Input} field
 * @param {Desk} desk
 * @param {string} action what the button says
 * @param {Element} parent
 */
function askName(field, desk, action, parent, className = 'button') {
  const form = element('form', '', parent, { className: 'buttons' });
  const label = element('label', `${text('stationName')} `, form);
  const value = field.typed ?? field.station ?? '';
  const about = { type: 'text', maxLength: MOST_OF_NAME, value };
  const name = /** @type {HTMLInputElement} */ (element('input', '', label, about));
  // (an office often names a file after its station)
  propose(name, field.shown, () => [stemOf(asHandedIn(field)).slice(0, MOST_OF_NAME)]);
  name.oninput = () => { field.typed = name.value; };
  element('button', text(action), form, { type: 'submit', className });
  form.onsubmit = event => {
    event.preventDefault();
    desk.name(field, name.value.trim());
  };
}

/**
 * Asks for the code whose blocks begin stations, where no line of the job sets one up.
 * @param {Input} field
 * @param {Desk} desk
 * @param {string} action what the button says
 * @param {Element} parent
 */
function askCode(field, desk, action, parent) {
  const form = element('form', '', parent, { className: 'buttons' });
  const label = element('label', `${text('stationCode')} `, form);
  const about = { type: 'text', maxLength: 16, value: field.typedCode ?? field.code ?? '' };
  const code = /** @type {HTMLInputElement} */ (element('input', '', label, about));
  code.oninput = () => { field.typedCode = code.value; };
  element('button', text(action), form, { type: 'submit', className: 'button' });
  form.onsubmit = event => {
    event.preventDefault();
    desk.begin(field, code.value.trim());
  };
}

/**
 * The numbers that are asked for, with what they are called and the most that each may be.
 * @type {['sets' | 'targets', string, number][]}
 */
const ASKED = [['sets', 'setsRead', 40], ['targets', 'targetsRead', 100]];

/**
 * Asks how many sets were read to the end at a station, and how many targets they have, or for
 * other numbers. The only station of a job has no name here; where others are asked about too, the
 * same numbers may be stated of all of these.
 * @param {Input} field
 * @param {string} station
 * @param {Desk} desk
 * @param {string} action what the button says
 * @param {Element} parent
 * @param {string} className
 * @param {string[]} asked the stations that are asked about
 */
function askNumbers(field, station, desk, action, parent, className = 'button', asked = [station]) {
  const form = element('form', '', parent, { className: 'buttons' });
  if (station) form.setAttribute('aria-label', text('numbersOf', { station }));
  const typed = field.typing ??= new Map(), stated = field.numbers?.get(station);
  const typing = typed.get(station) ?? {};
  typed.set(station, typing);
  const [sets, targets] = ASKED.map(([name, called, most]) => {
    const label = element('label', `${text(called)} `, form);
    const value = typing[name] ?? (stated?.[name] || '');
    const about = { type: 'number', min: '1', max: String(most), value };
    const input = /** @type {HTMLInputElement} */ (element('input', '', label, about));
    input.oninput = () => { typing[name] = input.value; };
    return input;
  });
  const each = element('label', '', form, { hidden: asked.length === 1 });
  const box = element('input', '', each, { type: 'checkbox', checked: typing.ofEach === 'on' });
  const ofEach = /** @type {HTMLInputElement} */ (box);
  ofEach.onchange = () => { typing.ofEach = ofEach.checked ? 'on' : ''; };
  each.append(` ${text('ofEach')}`);
  element('button', text(action), form, { type: 'submit', className });
  form.onsubmit = event => {
    event.preventDefault();
    const numbers = { sets: Number(sets.value), targets: Number(targets.value) };
    desk.count(field, ofEach.checked ? asked : [station], numbers);
  };
}

/**
 * Asks what a station is whose name comes again, which would have another one as a set-up of its
 * own: two buttons, of which the one that was chosen before is pressed.
 * @param {Input} field
 * @param {string} station
 * @param {string} name
 * @param {Desk} desk
 * @param {Element} parent
 */
function askSetUp(field, station, name, desk, parent) {
  const part = element('div', '', parent, { className: 'buttons' });
  part.setAttribute('role', 'group');
  part.setAttribute('aria-label', text('twice', { station }));
  /** @type {['same' | 'another', string][]} */
  const ways = [['same', 'sameSetUp'], ['another', 'anotherSetUp']];
  for (const [again, said] of ways) {
    const one = button(text(said, { name }), part, () => desk.setUp(field, again));
    one.setAttribute('aria-pressed', String(field.again === again));
  }
}

/**
 * Asks for what the fault of a station needs to be stated, if it needs anything: just below what is
 * told of it.
 * @param {import('./rows.js').Recognized} told
 * @param {UnmarkedCard} card
 * @param {Desk} desk
 * @param {Element} parent
 */
function askOf(told, { field, recognized = [] }, desk, parent) {
  const { station, fault } = told, before = recognized.slice(0, recognized.indexOf(told));
  const isCounted = (/** @type {typeof told} */ one) => one.station === station
    && (one.sets > 0 || one.fault);
  const nth = before.filter(isCounted).length + 1;
  const asked = recognized.filter(one => one.fault === 'ByTargets').map(one => one.station);
  if (fault === 'ByTargets')
    askNumbers(field, station, desk, 'markSets', parent, 'button primary', asked);
  else if (fault === 'SetCount' || fault === 'TargetCount')
    askNumbers(field, station, desk, 'changeNumbers', parent);
  else if (fault === 'StationTwice')
    askSetUp(field, station, `${station}-${nth}`, desk, parent);
}

/**
 * Why the sets of a job without codes are not recognized, and what to do.
 * @param {UnmarkedCard} card
 * @param {Desk} desk
 * @param {Element} parent
 */
function showUnmarked(card, desk, parent) {
  const { marked, field, recognized } = card, isWrong = marked.status === OUT_OF_RANGE;
  const isAsked = isWrong || isWithoutName(marked);
  if (isAsked) element('p', text(isWrong ? 'wrongName' : 'needName'), parent);
  else {
    if (marked.explanation) showMeaning('p', marked, parent, 'reason');
    const place = placeOf(marked);
    if (place) showPlace(place, parent);
    if (marked.explanation) showExplanation(marked.explanation, parent);
    // (what is to be stated is in no line)
    if (!isUncounted(marked) && !isCountedOtherwise(marked)) offerChange(marked, desk, parent);
  }
  for (const told of recognized ?? []) {
    for (const said of recognizedTexts(told)) element('p', said, parent);
    if (!isAsked) askOf(told, card, desk, parent);
  }
  if (isAsked) {
    askName(field, desk, 'markSets', parent, 'button primary');
    askCode(field, desk, 'markSets', parent);
  } else if (!recognized) askAlone(marked, desk, parent);
  if (mayLeaveOut(marked)) button(text('leaveOut'), parent, () => desk.leaveOut(field, true));
  if (!isAsked && field.station) askName(field, desk, 'changeName', parent);
  if (!isAsked && field.code) askCode(field, desk, 'changeCode', parent);
  const outside = text('outside', { n: card.readings ?? 0 });
  if (!recognized && !isWrong) element('p', outside, parent, { className: 'quiet' });
  showCommand(marked, parent);
}

/**
 * Asks for the numbers of a job's only station, where these are missing or others.
 * @param {Answer} marked
 * @param {Desk} desk
 * @param {Element} parent
 */
function askAlone(marked, desk, parent) {
  const { field } = marked;
  if (isUncounted(marked)) askNumbers(field, '', desk, 'markSets', parent, 'button primary');
  else if (isCountedOtherwise(marked)) askNumbers(field, '', desk, 'changeNumbers', parent);
}

// ---------------------------------------------------------------- a card

/**
 * What is to be done of a field file without sets.
 * @param {import('./answers.js').FieldCard} card
 * @param {Desk} desk
 * @param {Element} parent
 */
function showTodo(card, desk, parent) {
  if (card.readings === 0) element('p', text('noReadings'), parent);
  else if (card.marked) showUnmarked({ ...card, marked: card.marked }, desk, parent);
}

function showDigests(/** @type {Card} */ card, /** @type {Element} */ parent) {
  const files = filesOf(card).filter(file => file.digest);
  if (files.length === 0) return;
  const list = element('ul', '', parent, { className: 'digests quiet' });
  for (const { shown, digest } of files) {
    const item = element('li', '', list);
    element('span', shown, item, { className: 'name' });
    item.append(' ');
    ofProgram('code', text('digest', { digest }), item);
  }
}

/**
 * Shows a card.
 * @param {Card} card
 * @param {Desk} desk
 * @param {boolean} isFew whether its results are open at first
 * @param {Element} parent
 */
export function showCard(card, desk, isFew, parent) {
  const part = element('article', '', parent, { className: `card ${card.mood}` });
  const head = element('header', '', part);
  element('span', text(MOODS[card.mood]), head, { className: 'mood' });
  part.setAttribute('aria-label', titleOf(card));
  element('h2', titleOf(card), head, { className: card.station ? '' : 'name' });
  if (card.station) element('span', card.field.shown, head, { className: 'quiet name' });
  const { marked, recognized = [] } = card;
  if (card.field) showChanges(card.field, desk, part);
  if (marked?.other) showMarked(marked, marked.other, recognized, desk, part);
  for (const answer of card.answers) showAnswer(answer, card, desk, part);
  if (card.answers.length === 0)
    element('h3', headlineOfCard(card), part, { className: 'headline' });
  showJudged(card, desk, part);
  if (card.station && card.answers.length === 0) element('p', text('nothingCompared'), part);
  if (card.field && !card.station && card.readings !== undefined) showTodo(card, desk, part);
  if (card.waiting.length > 0) element('p', waitingText(card), part);
  else if (card.isStopped) element('p', text('notJudged'), part);
  if (card.station) showOpening(card, desk, isFew, part);
  showDigests(card, part);
  return part;
}
