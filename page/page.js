// What the user does: files come in, limits are stated. All that is shown is drawn of one state.
import { isOfStation, judge, makeCards, record, resultsOf, stateColumns } from './answers.js';
import { showCard } from './cards.js';
import { asHandedIn, changeLines, changesOf, stillOf } from './changes.js';
import { drawInTurn, drawNow, isOther, partsInSight, redraw, redrawEach } from './drawing.js';
import { button, element, save } from './elements.js';
import {
  HEAD, UNITS, isChosen, isUsed, kindOf, originalOf, placeName, tellApart,
} from './files.js';
import { dropped, givenBy, givenOf } from './gather.js';
import { kindText, saidOfCard, titleOf } from './headlines.js';
import { limitsLine, limitsNow, LIMITS, showLimit, wrongLimit } from './limits.js';
import { recallNotes } from './notes.js';
import { MOODS, overviewRow, overviewTable } from './overview.js';
import {
  besideOf, nameOfProtocol, protocolsFile, showProtocol, showProtocols,
} from './protocol.js';
import { exampleFiles, readRest } from './stored.js';
import { DATES, LANGUAGES, languageOf, speak, spoken, text } from './texts.js';
import { Stopped, isAsked, start, stop } from './work.js';
import { withTable } from './workbook.js';

/**
 * @typedef {import('./files.js').Input} Input
 * @typedef {import('./answers.js').Card} Card
 * @typedef {import('./answers.js').StationCard} StationCard
 */

const $ = (/** @type {string} */ id) =>
  /** @type {HTMLElement} */ (document.getElementById(id));

/** Writes a text into the part of this name, where another one stands. */
function write(/** @type {string} */ id, /** @type {string} */ said) {
  if ($(id).textContent !== said) $(id).textContent = said;
}

/** So many cards have their results open at once. */
const FEW = 3;

/**
 * How it stands: the module is made ready, files are read, or checked; a limit is wrong; all is
 * done, or it did not come to its end.
 * @typedef {{ is: 'starting' | 'reading' | 'checking' | 'wrong' | 'done' }
 *   | { is: 'failed', error: unknown }} Phase
 * How far the work is: the file or the station that is at hand, the nth of so many.
 * @typedef {{ done: number, all: number, name: string }} Far
 * All that is shown is drawn of this. `turn` counts the changes of what is to be answered: an
 * answer to an earlier one is dropped. `cards` have what was answered last, with the `limits` that
 * it was held to, and `loading` those whose results are asked for. `replaced` has how the files
 * were shown whose place others of the same paths took, `skipped` the paths of what lay in folders
 * and holds nothing for the page, `readAt` is when the files were read last, and `only` the one
 * card that is printed: else all are, and all files.
 * @typedef {{ turn: number, phase: Phase, inputs: Input[], cards: Card[],
 *   limits: import('./limits.js').Limits, loading: StationCard[], far?: Far, replaced: string[],
 *   skipped: string[], readAt: Date, only?: Card }} State
 */

/** @type {State} */
let now = {
  turn: 0, phase: { is: 'starting' }, inputs: [], cards: [], limits: limitsNow(), loading: [],
  replaced: [], skipped: [], readAt: new Date(),
};

/** Goes on to another state, and draws it. */
function go(/** @type {Partial<State>} */ more) {
  now = { ...now, ...more };
  draw();
}

/** Whether something is under way. */
const isBusy = () =>
  ['starting', 'reading', 'checking'].includes(now.phase.is) || now.loading.length > 0;

/** Whether the cards are those of an earlier state: they stay in sight, and can't be used. */
const isStale = () => ['reading', 'checking', 'wrong'].includes(now.phase.is);

// ---------------------------------------------------------------- what is said

/**
 * What is said of how it stands, in one line: in which mood, and of several cards a part for each
 * kind, which leads to the first of it.
 * @returns {{ mood: string, said: string, isLeading?: boolean }[]}
 */
function verdicts() {
  const { phase, cards, inputs, limits } = now;
  if (phase.is === 'starting') return [{ mood: 'quiet', said: text('gettingReady') }];
  if (phase.is === 'wrong') return [{ mood: 'bad', said: wrongLimit() }];
  if (phase.is === 'failed') return [{ mood: 'bad', said: whyIn(phase.error) }];
  if (phase.is !== 'done') return [{ mood: 'quiet', said: text('checking') }];
  if (inputs.length === 0) return [{ mood: 'quiet', said: text('ready') }];
  if (cards.length === 0) return [{ mood: 'open', said: text('needField') }];
  // (what the one card says is read out, and not shown twice)
  if (cards.length === 1) {
    const [card] = cards, said = saidOfCard(card, limits), label = titleOf(card);
    const whole = card.station ? text('labelled', { label, said }) : said;
    return [{ mood: `${card.mood} unseen`, said: whole }];
  }
  const count = (/** @type {string} */ mood) => cards.filter(card => card.mood === mood).length;
  return Object.keys(SUMMARIES).filter(mood => count(mood) > 0)
    .map(mood => ({ mood, said: text(SUMMARIES[mood], { n: count(mood) }), isLeading: true }));
}

const isUnable = (/** @type {unknown} */ error) =>
  /CompileError|DecompressionStream/.test(String(error));

/** Why the work did not come to its end. */
function whyIn(/** @type {unknown} */ error) {
  if (error instanceof Stopped) return text('stopped');
  return isUnable(error) ? text('cannotRun') : text('cannotFinish', { why: String(error) });
}

/** Says how it stands: it is read out when it changes. */
function drawVerdict() {
  const said = verdicts(), part = $('verdict');
  redraw(part, said.flatMap(one => [one.mood, one.said]), room => {
    said.forEach(({ mood, said: words, isLeading }, nth) => {
      if (nth > 0) room.append(text('between'));
      const lead = () => leadTo(now.cards.find(card => card.mood === mood));
      if (isLeading) button(words, room, lead, `to ${mood}`);
      else room.append(words);
    });
  });
  part.className = said[0].mood;
  nameTab(said);
}

/** What the page is called where nothing is answered, and not printed. */
const NAME = document.title;

/** What the tab of the browser says of the answers, before the name of the page. */
function answerInShort(/** @type {{ said: string, isLeading?: boolean }[]} */ said) {
  const { phase, cards } = now, [card] = cards;
  if (phase.is !== 'done' || !card) return [];
  return cards.length > 1 ? [said.map(one => one.said).join(text('between'))]
    : [text('labelled', { label: text(MOODS[card.mood]), said: titleOf(card) })];
}

/** Names the tab by what it says of the answers, and the page. */
function nameTab(said = verdicts()) {
  document.title = [...answerInShort(said), NAME].join(' \u2013 ');
}

/** Leads to a card, or to what it asks for. */
function leadTo(/** @type {Card | undefined} */ card) {
  if (!card) return;
  const part = drawNow($('answers').children[now.cards.indexOf(card)]);
  // (there is none of an earlier state)
  if (!(part instanceof HTMLElement)) return;
  const asked = card.mood === 'open' && part.querySelector('input');
  part.tabIndex = -1;
  (asked || part).focus({ preventScroll: true });
  const { top } = part.getBoundingClientRect();
  if (top < 0 || top > innerHeight / 2) part.scrollIntoView();
}

/**
 * What is said of so many cards that look alike: that which asks most of the user comes first.
 * @type {Record<string, string>}
 */
const SUMMARIES = {
  bad: 'summaryBad', open: 'summaryOpen', read: 'summaryRead', good: 'summaryGood',
};

/**
 * In which order the cards stand: first those that are refused, then those that ask for something.
 * @type {Record<string, number>}
 */
const ORDER = { bad: 0, open: 1, read: 2, good: 2 };

/** Of more stations a choice is filled when it is turned to: all of each would hold the window. */
const FEW_STATIONS = 20;

/** Of so many files those out of sight are not laid out, and so many rows have fixed columns. */
const MANY = 100;

/** Whether a file is of a station, which may be chosen. */
const isOfOne = (/** @type {Input} */ { kind }) => ['sheet', 'table', 'workbook'].includes(kind);

/** Where a sheet or a table belongs, to be chosen where there are several stations. */
function showChoice(/** @type {Input} */ input, /** @type {Element} */ parent) {
  const stations = now.cards.flatMap(card => card.station ?? []);
  if (stations.length < 2 || !isOfOne(input)) return;
  const about = { className: 'station' };
  const choice = /** @type {HTMLSelectElement} */ (element('select', '', parent, about));
  choice.setAttribute('aria-label', text('belongsTo', { name: input.shown }));
  element('option', text('byName'), choice, { value: '' });
  const offer = (/** @type {import('./files.js').Station[]} */ some) => {
    choice.length = 1;
    for (const station of some) element('option', placeName(station), choice,
      { value: String(stations.indexOf(station)), selected: isChosen(input, station) });
  };
  offer(stations.filter(one => stations.length <= FEW_STATIONS || isChosen(input, one)));
  choice.onfocus = choice.onpointerdown = () => {
    if (choice.length <= stations.length) offer(stations);
  };
  choice.onchange = () => {
    const station = choice.value ? stations[Number(choice.value)] : undefined;
    input.choice = station && { field: originalOf(station.field), name: station.listed.name };
    checkAll();
  };
}

/** What each unit of a table is called in the texts. */
const UNIT_TEXTS = { gon: 'unitGon', degrees: 'unitDegrees', dmmss: 'unitDmmss' };

/** The unit of the directions of a table, to be chosen. */
function showUnit(/** @type {Input} */ input, /** @type {Element} */ parent) {
  if (!['table', 'workbook'].includes(input.kind)) return;
  const about = { className: 'unit' };
  const choice = /** @type {HTMLSelectElement} */ (element('select', '', parent, about));
  choice.setAttribute('aria-label', text('unitOf', { name: input.shown }));
  for (const unit of UNITS) {
    const selected = unit === (input.unit ?? 'gon');
    element('option', text(UNIT_TEXTS[unit]), choice, { value: unit, selected });
  }
  choice.onchange = () => {
    input.unit = UNITS[choice.selectedIndex];
    checkAll();
  };
}

/** Shows a file that was handed in. */
function showInput(/** @type {Input} */ input, /** @type {Element} */ list) {
  const item = element('li', '', list, { className: isUsed(input) ? '' : 'unused' });
  element('span', input.shown, item, { className: 'name' });
  element('span', kindText(input), item, { className: 'kind' });
  showChoice(input, item);
  showUnit(input, item);
  const gone = button('×', item, () => {
    go({ replaced: [], skipped: [], inputs: now.inputs.filter(one => one !== input) });
    checkAll();
    if (now.inputs.length === 0) choose.focus();
  }, 'button small');
  gone.setAttribute('aria-label', text('remove', { name: input.shown }));
  return item;
}

function drawInputs() {
  const { inputs, cards, replaced, skipped, readAt } = now;
  // (what is not used comes first, so that it is seen)
  const shown = [...inputs.filter(input => !isUsed(input)), ...inputs.filter(isUsed)];
  document.body.classList.toggle('has-files', inputs.length > 0);
  $('inputs').className = inputs.length < MANY ? '' : 'many';
  write('choose-text', text(inputs.length > 0 ? 'addMore' : 'choose'));
  const of = (/** @type {Input} */ input) =>
    [input, isOfOne(input) && cards, input.choice, input.unit, kindText(input)];
  redrawEach($('inputs'), shown, input => input.shown, of, showInput);
  const names = replaced.join(', ');
  write('replaced', names && text('replaced', { names }));
  const few = skipped.slice(0, MOST_SKIPPED).join(', ');
  const all = few + (skipped.length > MOST_SKIPPED ? ', …' : '');
  write('skipped', few && text('skipped', { names: all }));
  $('remove-all').hidden = inputs.length === 0;
  $('read-again').hidden = !inputs.some(input => input.handle);
  const time = readAt.toLocaleTimeString(DATES[spoken()]);
  write('read-again', text('readAgain', { time }));
}

// ---------------------------------------------------------------- what is drawn

/** The words that stand in the page, in the language that is spoken. */
function drawWords() {
  // (the texts come after the page)
  if (!isOther(document.body, [spoken(), text('ready')])) return;
  /** @type {(selector: string) => NodeListOf<HTMLElement>} */
  const all = selector => document.querySelectorAll(selector);
  const about = /** @type {Record<string, string>} */ ({ ...$('made').dataset });
  for (const part of all('[data-text]'))
    part.textContent = text(part.dataset.text ?? '', about) || part.textContent;
  for (const part of all('[data-label]'))
    part.setAttribute('aria-label', text(part.dataset.label ?? ''));
  for (const part of all('[data-placeholder]'))
    part.setAttribute('placeholder', text(part.dataset.placeholder ?? ''));
}

/** That something is under way, how far it is, and whether it can be begun again. */
function drawProgress() {
  const { phase, far } = now, bar = /** @type {HTMLProgressElement} */ ($('progress-bar'));
  $('progress').hidden = !isBusy();
  write('progress-text', far ? text('working', far) : '');
  $('again').hidden = phase.is !== 'failed' || !(phase.error instanceof Stopped);
  document.body.classList.toggle('unable', phase.is === 'failed' && isUnable(phase.error));
  if (far) [bar.max, bar.value] = [far.all, far.done - 1];
  // (of a single file it is not known how far it is)
  if (!far || far.all === 1) bar.removeAttribute('value');
}

/** By what a card is known, whatever else is answered. */
const keyOfCard = (/** @type {Card} */ { file, title }) => `${originalOf(file).shown} ${title}`;

/** The table above several cards. */
function drawOverview() {
  const { cards } = now, words = text('ready'), part = $('overview');
  const lead = (/** @type {Card} */ card, /** @type {Element} */ head) =>
    button(card.title, head, () => leadTo(card), 'to name');
  $('several').hidden = cards.length < 2;
  part.className = cards.length < MANY ? '' : 'many';
  if (cards.length < 2) return part.replaceChildren();
  const before = part.querySelector('table'), room = document.createElement('div');
  const table = before ?? overviewTable([], lead, part);
  if (isOther(table, [words]) && before)
    ({ caption: table.caption, tHead: table.tHead } = overviewTable([], lead, room));
  redrawEach(table.tBodies[0], cards, keyOfCard,
    card => [card, words, card.mood, card.station?.whole],
    (card, body) => overviewRow(card, lead, body));
}

/** The cards, and of several the table above them. */
function drawCards() {
  const { cards, limits } = now, words = text('ready'), isFew = cards.length <= FEW;
  drawOverview();
  $('answers').className = isFew ? '' : 'many';
  redrawEach($('answers'), cards, keyOfCard,
    card => [card, words, limits, card.mood, card.judged, card.results],
    (card, room) => showCard(card, desk, isFew, room));
}

/**
 * The cards that were drawn last, to the last of them.
 * @type {Card[]}
 */
let shown = [];

/** Draws the state: of long lists slice by slice. */
function draw() {
  const seen = partsInSight();
  drawWords();
  drawVerdict();
  drawProgress();
  write('in-force', limitsLine(now.limits, { residual: true, within: true }));
  drawInputs();
  drawCards();
  drawInTurn(seen, isLeft => {
    const page = document.documentElement;
    if (!isLeft) shown = now.cards;
    // (that styles all of the page anew)
    if (!isLeft && page.lang !== spoken()) page.lang = spoken();
    // (until all are drawn, some may still be those of an earlier state)
    const isMixed = shown !== now.cards && shown.length > 0;
    $('answered').classList.toggle('stale', isMixed || isStale());
    $('main').setAttribute('aria-busy', String(isLeft || isBusy()));
  });
}

// ---------------------------------------------------------------- work

/**
 * Says how far it is.
 * @type {(done: number, all: number, name: string) => void}
 */
function told(done, all, name) {
  now = { ...now, far: { done, all, name } };
  drawProgress();
}

/**
 * Works for the state as it is. Answers whether that came to its end, and is still asked for; what
 * went wrong is the next state.
 * @param {() => Promise<void>} work
 * @param {() => Partial<State>} then what is known then, also where it did not come to its end
 */
async function worked(work, then = () => ({})) {
  const { turn } = now;
  /** @type {Phase | undefined} */
  let phase;
  try {
    await work();
  } catch (error) {
    phase = { is: 'failed', error };
  }
  if (turn !== now.turn) return false;
  go({ ...then(), far: undefined, ...phase && { phase } });
  return !phase;
}

/** Checks all files that are there, with the limits that are stated. */
async function checkAll() {
  const isWrong = wrongLimit() !== '', limits = limitsNow(), { inputs } = now;
  /** @type {Card[]} */
  const cards = [];
  tellApart(inputs);
  if (isAsked()) stop();
  const turn = now.turn + 1;
  const phase = /** @type {Phase} */ ({ is: isWrong ? 'wrong' : 'checking' });
  go({ turn, phase, loading: [], far: undefined, only: undefined });
  if (isWrong) return;
  await worked(async () => {
    await worded;
    await makeCards(inputs, limits, cards, told);
  }, () => {
    cards.sort((one, other) => ORDER[one.mood] - ORDER[other.mood]);
    return { cards, limits, phase: { is: 'done' } };
  });
}

/** Checks all, and leads to the first card of a file of which something was stated. */
async function checkAgain(/** @type {Input} */ stated) {
  await checkAll();
  // (all cards are new, and the one that was worked at may have been far below)
  const isOf = (/** @type {Input | undefined} */ file) => file && originalOf(file) === stated;
  const first = now.cards.find(({ field, answers }) =>
    isOf(field) || answers.some(({ other }) => isOf(other)));
  if (first) leadTo(first);
}

/** Has the results of these cards at hand; answers whether it came to its end. */
function loaded(/** @type {Card[]} */ cards) {
  const left = cards.filter(isOfStation).filter(card => !card.results);
  if (left.length === 0) return Promise.resolve(true);
  go({ loading: [...now.loading, ...left] });
  return worked(async () => {
    for (const [nth, card] of left.entries()) {
      told(nth + 1, left.length, card.title);
      card.results ??= await resultsOf(card, now.limits);
      await judge(card, now.limits);
    }
  }, () => ({ loading: now.loading.filter(card => !left.includes(card)) }));
}

/** Prints the protocol of a card, or those of all: a browser may begin after this was called. */
function printOnly(/** @type {Card | undefined} */ only) {
  now = { ...now, only };
  window.print();
}

/** What the cards ask of the page. */
const desk = {
  get limits() { return now.limits; },
  /** @type {import('./cards.js').Desk['called']} */
  called(card) {
    const isAlone = now.cards.filter(({ title }) => title === card.title).length === 1;
    return isAlone ? card.title : nameOfProtocol(card);
  },
  async load(/** @type {StationCard} */ card) {
    if (now.cards.includes(card) && !now.loading.includes(card)) await loaded([card]);
  },
  beside(/** @type {Card} */ card) { return besideOf(card, now.inputs, now.cards, now.limits); },
  print(/** @type {Card} */ card) {
    printOnly(card);
  },
  async name(/** @type {Input} */ field, /** @type {string} */ station) {
    field.station = station;
    await checkAgain(field);
  },
  /** @type {import('./cards.js').Desk['change']} */
  async change(field, changes) {
    const { turn } = now;
    const refused = await changeLines(originalOf(field), changes).catch(whyIn);
    if (!refused && turn === now.turn) await checkAgain(field);
    return refused;
  },
  async leaveOut(/** @type {Input} */ field, /** @type {boolean} */ others) {
    field.others = others;
    await checkAgain(field);
  },
  /** @type {import('./cards.js').Desk['count']} */
  async count(field, stations, numbers) {
    const stated = field.numbers ??= new Map();
    for (const station of stations) stated.set(station, numbers);
    await checkAgain(field);
  },
  async begin(/** @type {Input} */ field, /** @type {string} */ code) {
    field.code = code;
    await checkAgain(field);
  },
  /** @type {import('./cards.js').Desk['readBy']} */
  async readBy(table, columns) {
    const { turn } = now, given = originalOf(table);
    const refused = columns ? await stateColumns(table, columns).catch(whyIn) : '';
    if (!columns) given.columns = undefined;
    if (!refused && turn === now.turn) await checkAgain(given);
    return refused;
  },
  /** @type {import('./cards.js').Desk['setUp']} */
  async setUp(field, again) {
    field.again = again;
    await checkAgain(field);
  },
};

onbeforeprint = () => {
  const { inputs, limits, only } = now, cards = isStale() ? [] : now.cards;
  const [alone] = only ? [only] : cards.length === 1 ? cards : [];
  // (by its title the file is called that a browser prints to)
  if (inputs.length > 0)
    document.title = alone ? nameOfProtocol(alone) : text('contents', { n: inputs.length });
  document.documentElement.classList.toggle('printed', inputs.length > 0);
  $('protocol').textContent = '';
  if (only) showProtocol(only, limits, $('protocol'), '', desk.beside(only));
  else if (inputs.length > 0)
    showProtocols(inputs, cards, limits, $('verdict').textContent ?? '', $('protocol'));
};
onafterprint = () => {
  nameTab();
  now = { ...now, only: undefined };
};

// ---------------------------------------------------------------- files

/** So many bytes has a workbook at most of which a table is taken: other archives are large. */
const MOST_OF_BOOK = 20_000_000;

/**
 * Reads a file and says what it is: of one that holds nothing for the page no more than its head.
 * @param {import('./gather.js').Given} given
 * @returns {Promise<Input>}
 */
async function inputOf({ file, path, handle }) {
  const name = path.slice(path.lastIndexOf('/') + 1);
  const about = { name, path, handle, shown: name, digest: '' };
  /** @type {Input} */
  const unread = { ...about, bytes: new Uint8Array(), kind: 'unread' };
  if (!file) return unread;
  try {
    const head = new Uint8Array(await file.slice(0, HEAD).arrayBuffer()), kind = kindOf(name, head);
    const isBook = kind === 'spreadsheet' && file.size <= MOST_OF_BOOK;
    if (!isUsed({ kind }) && !isBook) return { ...about, bytes: head, kind };
    const input = { ...about, bytes: new Uint8Array(await file.arrayBuffer()), kind };
    return isBook ? await withTable(input) : input;
  } catch {
    return unread;
  }
}

/** So many files are read at a time: that the browser turns to a file holds the window. */
const AT_A_TIME = 10;

/** What many files are. */
async function inputsOf(/** @type {import('./gather.js').Given[]} */ given) {
  /** @type {Input[]} */
  const inputs = [];
  for (let first = 0; first < given.length; first += AT_A_TIME)
    inputs.push(...await Promise.all(given.slice(first, first + AT_A_TIME).map(inputOf)));
  return inputs;
}

/** So many paths of what holds nothing for the page are named at most. */
const MOST_SKIPPED = 8;

/** Whether a file is told of in a line alone: it came in a folder, and is none of the page's. */
const isSkipped = (/** @type {Input} */ { path, kind }) => path.includes('/') && kind === 'other';

/**
 * Adds files to those that are there; one of the same path takes the place of the older, and it is
 * said. Those that come together all stay.
 */
async function add(/** @type {import('./gather.js').Given[]} */ given) {
  if (given.length === 0) return;
  go({ phase: { is: 'reading' } });
  await worded;
  const folders = given.filter(({ path }) => path.endsWith('/'));
  const all = await inputsOf(given.filter(one => !folders.includes(one)));
  const read = all.filter(one => !isSkipped(one));
  const skipped = [...all.filter(isSkipped), ...folders].map(({ path }) => path);
  const paths = new Set(read.map(one => one.path));
  const isGone = (/** @type {Input} */ one) => paths.has(asHandedIn(one).path);
  const replaced = now.inputs.filter(isGone).map(one => one.shown);
  const inputs = [...now.inputs.filter(one => !isGone(one)), ...read];
  // (what comes next draws it)
  now = { ...now, skipped, replaced, inputs, readAt: new Date() };
  await checkAll();
}

/**
 * Reads all files again of which the browser has a handle; what was stated of them stays, but for
 * changes of lines that are no longer the same.
 */
async function readAgain() {
  go({ turn: now.turn + 1, phase: { is: 'reading' } });
  for (const input of now.inputs.filter(one => one.handle)) {
    const { path, handle } = input, { bytes } = asHandedIn(input), changes = changesOf(input);
    const again = await inputOf(await givenOf(handle, input.given?.path ?? path));
    const gone = { taken: undefined, given: undefined, changes: undefined, changing: undefined };
    Object.assign(input, gone, { recorded: undefined, rows: undefined }, again);
    const still = stillOf(changes, bytes, again.bytes);
    // (where that is stopped the file is checked as it is)
    if (still.length > 0) await changeLines(input, still).catch(() => '');
  }
  tellApart(now.inputs);
  go({ readAt: new Date() });
  await checkAll();
}

/** How many elements of the page a file is dragged over: entered and not yet left. */
let over = 0;
const showOver = () => document.body.classList.toggle('over', over > 0);

/** Whether files are dragged: a text may be dropped into a field. */
const hasFiles = (/** @type {DragEvent} */ { dataTransfer }) => dataTransfer?.types.includes('Files');

document.ondragenter = event => {
  if (!hasFiles(event)) return;
  event.preventDefault();
  over++;
  showOver();
};
document.ondragleave = () => {
  over = Math.max(0, over - 1);
  showOver();
};
/** Keeps what is dropped from being opened, but for a text that goes into a field. */
function keepHere(/** @type {DragEvent} */ event) {
  if (hasFiles(event) || !(event.target instanceof HTMLInputElement)) event.preventDefault();
}
document.ondragover = keepHere;
document.ondrop = async event => {
  keepHere(event);
  if (!hasFiles(event)) return;
  over = 0;
  showOver();
  if (event.dataTransfer) add(await dropped(event.dataTransfer));
};

const choose = /** @type {HTMLInputElement} */ ($('choose'));
for (const id of ['choose', 'choose-folder']) {
  const button = /** @type {HTMLInputElement} */ ($(id));
  // A file that has changed meanwhile may be chosen again. Where none is chosen, nothing is changed.
  button.onclick = () => { button.value = ''; };
  button.onchange = () => add(givenBy(button.files ?? []));
}
$('try').onclick = async () => add(givenBy(await exampleFiles()));
$('read-again').onclick = () => readAgain();
$('remove-all').onclick = () => {
  go({ inputs: [], replaced: [], skipped: [] });
  checkAll();
};
$('stop').onclick = () => stop();
$('again').onclick = () => checkAll();
$('print-all').onclick = async () => { if (await loaded(now.cards)) printOnly(undefined); };
$('save-all').onclick = async () => {
  if (!await loaded(now.cards)) return;
  const { inputs, cards, limits } = now;
  const whole = protocolsFile(inputs, cards, limits, $('verdict').textContent ?? '');
  save('station_check_protocols.html', whole, 'text/html');
};
for (const name of Object.keys(LIMITS)) {
  showLimit(name);
  $(LIMITS[name].id).onchange = () => checkAll();
}

const languages = /** @type {HTMLSelectElement} */ ($('language'));
for (const [code, name] of Object.entries(LANGUAGES))
  element('option', name, languages, { value: code, lang: code });
languages.onchange = () => {
  speak(languages.value);
  draw();
  worked(async () => {
    for (const field of now.inputs.filter(({ recorded }) => recorded)) await record(field);
  });
};
// What is stale can't be pressed: it would act on an earlier state.
for (const done of ['click', 'submit', 'change']) {
  $('answered').addEventListener(done, event => {
    const { target } = event, isPressed = target instanceof Element && target.closest('button');
    if (!$('answered').matches('.stale') || done === 'click' && !isPressed) return;
    event.preventDefault();
    event.stopPropagation();
  }, true);
}

speak(languageOf(navigator.languages));
languages.value = spoken();
recallNotes();
go({ limits: limitsNow() });
/** Comes when texts and script are at hand; where they can't be unpacked the worker can't either. */
const worded = readRest().then(draw, () => {});
worked(async () => { await Promise.all([start(), worded]); })
  .then(isReady => { if (isReady) checkAll(); });
