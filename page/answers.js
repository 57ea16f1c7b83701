// Which call is asked for which files, and what it answered: a card for each station, and for each
// file that belongs to none. Nothing here decides a verdict.
import { ask, digestOf } from './work.js';
import { explanationIn, nameIn, readFaults, toldOf } from './faults.js';
import {
  UNITS, fieldOfSheet, originalOf, stationOfSheet, stationOfTable, stemOf, tellApart, tellingPartOf,
  withTaken,
} from './files.js';
import { commandOf, isWithin } from './limits.js';
import {
  accuracyIn, columnsIn, each, facesIn, greatestOf, namedIn, partsIn, recognizedIn, residualsIn,
  rowsIn,
} from './rows.js';
import { LANGUAGES, spoken } from './texts.js';

/**
 * @typedef {import('./files.js').Input} Input
 * @typedef {import('./files.js').Station} Station
 * @typedef {import('./limits.js').Limits} Limits
 * How a card looks: all is in order, something was refused, a station was read and has nothing to
 * be compared, or something is to be done first.
 * @typedef {'good' | 'bad' | 'read' | 'open'} Mood
 * The answer of a command: its line or text, where it is a refusal the fault in the words of the
 * program and what it names, the greatest residual where it accepts a sheet, the verdict on a table
 * in fields, with the text of the differences where it was compared, its note, and the columns where
 * it was read by a pair of them, what it told of each station where it puts codes in, and whether
 * there a line further on sets up a station.
 * @typedef {{ command: string, asked: string, status: number, line: string,
 *   explanation?: import('./faults.js').Explanation, named?: import('./rows.js').Named,
 *   field: Input, other?: Input, station?: Station,
 *   greatest?: import('./rows.js').Residual, verdict?: import('./rows.js').Verdict,
 *   differences?: string, note?: string, columns?: import('./rows.js').Columns,
 *   told?: import('./rows.js').Recognized[], isSetUpLater?: boolean }} Answer
 * What came of the limit of residuals, to which each station is held: whether it is kept, the
 * residuals of which that was seen, with the greatest, and the command by which the program itself
 * holds the station to it. An accepted sheet was held to it by its own call, and so was one that
 * was refused for it: then no residuals are told.
 * @typedef {{ isKept: boolean, residuals?: Answer, command?: string,
 *   greatest?: import('./rows.js').Residual }} Judged
 * What every card has: the file that it is of, when that was checked, the answers to results that
 * were handed in, and `waiting`, those that are not checked yet; `isStopped` says that the work was
 * stopped before they were. `readings` counts those of a file without sets, `unplaced` is the text
 * that says why a file has no place, `marked` the answer when codes were put into a copy, and
 * `recognized` what it told of the card's station, and at the first card of a copy of the stations
 * without sets too; of a job that needs a name what would be recognized by any; of a refused job with
 * several stations what is told of each.
 * @typedef {{ title: string, mood: Mood, file: Input, at: Date, answers: Answer[],
 *   waiting: Input[], isStopped?: boolean, readings?: number, unplaced?: string, marked?: Answer,
 *   recognized?: import('./rows.js').Recognized[], judged?: Judged, results?: Results }} AnyCard
 * A card of a station; one whose results are at hand.
 * @typedef {AnyCard & { field: Input, station: Station }} StationCard
 * @typedef {StationCard & { results: Results }} ReadyCard
 * A card of a field file, which is refused, or has no sets; one of a job into which no codes could
 * be put.
 * @typedef {AnyCard & { field: Input, station?: undefined }} FieldCard
 * @typedef {FieldCard & { marked: Answer }} UnmarkedCard
 * A card of a file that has no place.
 * @typedef {AnyCard & { field?: undefined, station?: undefined }} FileCard
 * @typedef {StationCard | FieldCard | FileCard} Card
 * All that is answered of a station: the table of its directions, its residuals among the rows of
 * its report, that report, and where it is adjusted how accurate it is, and what its face
 * differences say together.
 * @typedef {{ directions: Answer, residuals: Answer, report: Answer,
 *   accuracy?: import('./rows.js').Accuracy, faces?: ReturnType<typeof facesIn> }} Results
 */

/**
 * Whether a card is that of a station.
 * @returns {card is StationCard}
 */
export const isOfStation = (/** @type {Card} */ card) => card.station !== undefined;

/** Statuses of a call: those of the program's command, and the call's own. */
export const ACCEPTED = 0, REFUSED = 1, OUT_OF_RANGE = 2, TOO_LITTLE_ROOM = 3;

/**
 * So many bytes are read at most, again and again, to judge the residuals of all stations of a
 * field file that have no results to be checked: of more they are judged when they are opened.
 */
const MOST_READ = 200_000_000;

/** The name by which it is tried whether a job lacks nothing else: no station has it. */
const NAME_TO_TRY = '?';

/** That no columns of a table are stated: those of names and of directions. */
const NO_COLUMNS = [0, 0];

/** What the program says of the fault in a line; then what the page says is at hand too. */
export async function explanationOf(/** @type {string} */ line) {
  const [{ status, bytes }] = await Promise.all([ask('explanation', line), readFaults()]);
  return status === ACCEPTED && bytes.length > 0 ? explanationIn(bytes) : undefined;
}

/** A file that isn't there. */
const NO_BYTES = new Uint8Array();

/** What the line of a refusal names, and where that stands in the files. */
async function namedBy(/** @type {string} */ line, /** @type {Uint8Array[]} */ ...files) {
  const { status, text } = await ask('place', line, ...files);
  return status === ACCEPTED ? namedIn(text) : undefined;
}

/**
 * An answer, with what its line speaks of.
 * @param {{ status: number, text: string }} reply
 * @param {Omit<Answer, 'status' | 'line' | 'explanation' | 'greatest' | 'named'>} about
 * @returns {Promise<Answer>}
 */
async function answered({ status, text }, about) {
  const line = text.trimEnd(), { field, other } = about;
  if (status !== REFUSED) return { ...about, status, line };
  const files = [field.bytes, other?.bytes ?? NO_BYTES];
  const [explanation, named] = await Promise.all([explanationOf(line), namedBy(line, ...files)]);
  return { ...about, status, line, explanation, named };
}

/**
 * The files that a card speaks of: a marked copy stands after the field file that it is of, and a
 * table after its workbook.
 */
export const filesOf = (/** @type {Card} */ { field, answers }) =>
  [field, ...answers.map(answer => answer.other)]
    .flatMap(file => file ? file.original ? [file.original, file] : [file] : [])
    .flatMap(file => file.given ? [file.given, file] : [file]);

// ---------------------------------------------------------------- field files

/** The number by which the calls know a language. */
const languageNumber = (/** @type {string} */ code) => Object.keys(LANGUAGES).indexOf(code);

/** Has the digest of a file at hand. */
async function withDigest(/** @type {Input} */ file) {
  file.digest ||= await digestOf(file);
}

/** Has at hand what a field file recorded of instrument and time, in the language of the page. */
export async function record(/** @type {Input} */ field) {
  const lines = field.recorded ??= {}, language = spoken();
  if (lines[language]) return;
  const { status, text } = await ask('instrument', field.bytes, languageNumber(language));
  lines[language] = status === ACCEPTED ? text.split('\n').filter(line => line !== '') : [];
}

/**
 * A card of a file of which nothing is known yet.
 * @param {Input} file
 * @returns {FileCard}
 */
const cardOfFile = file =>
  ({ title: file.shown, mood: 'open', file, at: new Date(), answers: [], waiting: [] });

/**
 * The cards of a field file: of its fault, of each of its stations, or that it has none.
 * @param {Input} field
 * @param {Limits} limits
 * @returns {Promise<Card[]>}
 */
async function cardsOfField(field, limits) {
  const { twoC, twoI } = limits, about = { ...cardOfFile(field), field };
  const reply = await ask('stations', field.bytes, twoC, twoI);
  const command = commandOf('list', ['twoC', 'twoI'], limits, [field.name]);
  if (reply.status !== ACCEPTED) {
    const answer = await answered(reply, { command, asked: 'list', field });
    return [{ ...about, mood: 'bad', answers: [answer] }];
  }
  /** @type {{ stations: import('./rows.js').Listed[], readings: number }} */
  const { stations, readings } = reply.told;
  if (stations.length === 0) return cardsWithoutSets(field, readings, limits);
  return stations.map(listed => ({
    ...cardOfFile(field), title: listed.name, mood: 'read', field, station: { field, listed },
  }));
}

/**
 * The cards of a field file without sets: those of a copy with codes, where the sets are
 * recognized.
 * @param {Input} field
 * @param {number} readings how many it has
 * @param {Limits} limits
 * @returns {Promise<Card[]>}
 */
async function cardsWithoutSets(field, readings, limits) {
  const card = { ...cardOfFile(field), field, readings };
  if (readings === 0 || field.original) return [card];
  const marked = await answerOfMark(field, field.station);
  if (isWithoutName(marked)) return [{ ...card, ...await tried(marked) }];
  if (!marked.other) return [{ ...card, marked, recognized: toldBeside(marked) }];
  const { told = [] } = marked, cards = await cardsOfField(marked.other, limits);
  return cards.map((one, nth) => {
    const recognized = told.filter(({ station, sets }) =>
      sets === 0 ? nth === 0 : !one.station || station === one.title);
    return { ...one, marked, recognized };
  });
}

/** Whether an answer is refused for this fault. */
const isOf = (/** @type {Answer} */ { explanation }, /** @type {string} */ fault) =>
  nameIn(explanation) === fault;

/** Whether codes could not be put in since nothing names the station. */
export const isWithoutName = (/** @type {Answer} */ answer) =>
  !answer.field.station && !answer.isSetUpLater && isOf(answer, 'NoSetUp');

/** Whether the number of sets, or of targets, has to be stated. */
export const isUncounted = (/** @type {Answer} */ answer) => isOf(answer, 'ByTargets');

/** Whether other numbers are stated than those that are found. */
export const isCountedOtherwise = (/** @type {Answer} */ answer) =>
  isOf(answer, 'SetCount') || isOf(answer, 'TargetCount');

/** Whether it has to be stated what a station is whose name comes again. */
export const isTwice = (/** @type {Answer} */ answer) => isOf(answer, 'StationTwice');

/**
 * What a job without a name shows: what is recognized but for it, or what is wrong besides, so that
 * nobody states a name in vain.
 * @param {Answer} marked
 */
async function tried(marked) {
  const answer = await answerOfMark(marked.field, NAME_TO_TRY);
  // (then what stands before that line is in the way, and no name is missing)
  if (isOf(answer, 'HasSetUp')) return { marked: { ...marked, isSetUpLater: true } };
  return answer.status === ACCEPTED ? { marked, recognized: answer.told }
    : { marked: answer, recognized: toldBeside(answer) };
}

/** What a refusal told of each station, where there are several. */
const toldBeside = (/** @type {Answer} */ { told = [] }) => told.length > 1 ? told : undefined;

/** Whether some stations may be left outside, and the others marked. */
export const mayLeaveOut = (/** @type {Answer} */ { told = [], field }) =>
  !field.others && told.some(({ sets }) => sets > 0) && told.some(({ fault }) => fault)
  && !told.some(({ fault }) => fault === 'StationTwice');

/**
 * The numbers that are stated of a file's stations, as the program and the call take them.
 * @param {Input} field
 * @param {'sets' | 'targets'} which
 */
const numbersOf = ({ numbers = new Map() }, which) => [...numbers]
  .filter(([, stated]) => stated[which] > 0)
  .map(([station, stated]) => station ? `${station}=${stated[which]}` : `${stated[which]}`);

/**
 * Whether numbers were stated of stations that are no longer there, as after another answer to what
 * begins them: these numbers are forgotten.
 * @param {Input} field
 * @param {import('./rows.js').Recognized[]} told
 */
function forgets({ numbers = new Map() }, told) {
  const there = told.filter(({ sets, fault }) => sets > 0 || fault).map(({ station }) => station);
  const gone = [...numbers.keys()].filter(name => name && !there.includes(name));
  for (const name of gone) numbers.delete(name);
  return gone.length > 0;
}

/**
 * The answer of putting codes into a copy of a field file: the copy is its other file.
 * @param {Input} field
 * @param {string} [station] the name that is stated
 * @returns {Promise<Answer>}
 */
async function answerOfMark(field, station = '') {
  const copyOf = (/** @type {string} */ name) => `${stemOf({ name })}_marked.gsi`;
  const copy = copyOf(field.name), { code = '', again, others = false } = field;
  const [sets, targets] = [numbersOf(field, 'sets'), numbersOf(field, 'targets')];
  const isSame = again === 'same', isAnother = again === 'another';
  const texts = [station, code, sets.join('\n'), targets.join('\n')];
  const { status, bytes, text, beside: rows } =
    await ask('markRows', field.bytes, ...texts, isSame, isAnother, others);
  const of = (/** @type {string} */ option, /** @type {string[]} */ values) =>
    values.flatMap(value => [`--${option}`, value]);
  const flags = Object.entries({ 'same-set-up': isSame, again: isAnother, others });
  const stated = [
    ...of('station', station ? [station] : []), ...of('station-code', code ? [code] : []),
    ...of('sets', sets), ...of('targets', targets),
    ...flags.filter(([, stands]) => stands).map(([flag]) => `--${flag}`),
  ];
  const command = commandOf('mark', [], {}, [field.name, copy], stated);
  const told = recognizedIn(rows);
  for (const one of told) if (one.fault) one.explanation = await explanationOf(one.fault);
  const about = { asked: 'mark', command, field, told };
  const answer = await answered({ status, text: status === ACCEPTED ? rows : text }, about);
  if (isOf(answer, 'NoSuchStation') && forgets(field, told)) return answerOfMark(field, station);
  if (status !== ACCEPTED) return answer;
  const digest = await digestOf({ name: copy, bytes });
  const kind = /** @type {const} */ ('field'), path = copyOf(field.path);
  const other = { name: copy, path, shown: copy, bytes, kind, digest, original: field };
  return { ...answer, other };
}

// ---------------------------------------------------------------- sheets and tables

/** Has the rows of a sheet or a table at hand, as the core reads them: several blanks are one. */
async function readRows(/** @type {Input} */ file) {
  if (file.rows) return;
  const { part, separators } = tellingPartOf(file);
  const read = separators.map(async separator => {
    /** @type {{ told?: string[][] }} */
    const { told = [] } = await ask('records', part, separator.charCodeAt(0));
    return separator === ' ' ? told.map(fields => fields.filter(field => field !== '')) : told;
  });
  const all = await Promise.all(read);
  // (no call looks for titles by blanks: then the numbers of the columns are proposed)
  const by = (/** @type {string} */ one) =>
    all[separators.indexOf(one)]?.find(row => row.length > 1) ?? [];
  file.rows = all.flat();
  file.titles = [by(';'), by('\t'), by(','), by(' ').map((_, nth) => `${nth + 1}`)]
    .find(one => one.length > 0) ?? [];
}

/** The number of a column, from 1, as the calls take it. */
const COLUMN = /^[1-9]\d{0,5}$/;

/**
 * States by which columns a table is to be read, of targets and of directions: by their numbers, or
 * by their titles, which a call looks for. Answers why it has none with these, and else nothing.
 * @param {Input} table
 * @param {string[]} stated
 */
export async function stateColumns(table, stated) {
  const areNumbers = stated.every(one => COLUMN.test(one)), given = originalOf(table);
  const { status, text: said } = areNumbers ? { status: ACCEPTED, text: stated.join() }
    : await ask('columns', table.bytes, ...stated);
  if (status !== ACCEPTED) {
    const { what, todo } = toldOf(await explanationOf(said.trimEnd()));
    return `${what} ${todo}`;
  }
  given.columns = said.split(',').map(Number);
  return '';
}

/**
 * The answer to a sheet, with the greatest residual where it is accepted.
 * @param {Input} sheet
 * @param {Input} field
 * @param {Station | undefined} station none where the field file has no station of the sheet's name
 * @param {Limits} limits
 * @returns {Promise<Answer>}
 */
async function answerOfSheet(sheet, field, station, limits) {
  const { twoC, twoI, residual } = limits;
  const reply = await ask('check', field.bytes, sheet.bytes, twoC, twoI, residual);
  const files = [field.name, sheet.name];
  const command = commandOf('check', ['twoC', 'twoI', 'residual'], limits, files);
  const answer = await answered(reply, { asked: 'check', field, other: sheet, station, command });
  if (answer.status !== ACCEPTED || !station) return answer;
  const { residuals } = await wholeOf(station, limits);
  if (residuals.status !== ACCEPTED) return answer;
  return { ...answer, greatest: greatestOf(residualsIn(residuals.line)) };
}

/** How a table is to be read, in numbers: its unit and its columns. */
function formOf(/** @type {Input} */ table) {
  const { unit = 'gon', columns = NO_COLUMNS } = originalOf(table);
  return [UNITS.indexOf(unit), ...columns];
}

/**
 * The answer to a table, of one reading of both files and one adjustment.
 * @param {Input} table
 * @param {Station} station
 * @param {Limits} limits
 * @returns {Promise<Answer>}
 */
async function answerOfTable(table, station, limits) {
  const { field, listed: { name } } = station, { twoC, twoI, within } = limits;
  const { unit = 'gon', columns } = originalOf(table), form = formOf(table);
  const files = [field.bytes, field.name, table.bytes, table.name];
  const { status, bytes, beside: note } =
    await ask('table', ...files, name, twoC, twoI, ...form, within);
  const { line: text = '', verdict = '', columns: read = '', differences } = partsIn(bytes);
  const operands = [field.name, name, table.name], stated = [
    ...unit === 'gon' ? [] : [`--${unit}`], ...columns ? ['--columns', columns.join(',')] : [],
  ];
  const command = commandOf('compare', ['twoC', 'twoI', 'within'], limits, operands, stated);
  const about = { asked: 'compare', field, other: table, station, command, note, differences };
  const said = { verdict: rowsIn(verdict)[0], columns: columnsIn(read) };
  return answered({ status, text }, { ...about, ...said });
}

// ---------------------------------------------------------------- the limit of residuals

/** Whether an answer is refused for a residual above its limit, which names the observation. */
const isOfResidual = (/** @type {Answer} */ answer) => isOf(answer, 'Residual');

/**
 * Holds a station to the limit of residuals: where no call has done it, by the greatest residual
 * that the call wrote, with its three decimals.
 * @param {Card} card
 * @param {Limits} limits
 */
export async function judge(card, limits) {
  const { station, answers } = card;
  if (!station || card.judged) return;
  const isAccepted = answers.some(one => one.asked === 'check' && one.status === ACCEPTED);
  if (isAccepted || answers.some(isOfResidual)) {
    card.judged = { isKept: isAccepted };
  } else {
    const { residuals } = await wholeOf(station, limits);
    if (residuals.status !== ACCEPTED) {
      card.judged = { isKept: false, residuals };
    } else {
      const greatest = greatestOf(residualsIn(residuals.line));
      const operands = [station.field.name, station.listed.name];
      const command = commandOf('directions', ['twoC', 'twoI', 'residual'], limits, operands);
      const isKept = isWithin(greatest.residual, limits);
      card.judged = { isKept, residuals, greatest, command };
    }
  }
  card.mood = moodOf(card);
}

/**
 * Whether a station was held to the limit of residuals: not where it has none for another reason.
 */
export const isHeld = (/** @type {Card} */ { judged }) => judged !== undefined
  && (!judged.residuals || judged.greatest !== undefined || isOfResidual(judged.residuals));

/**
 * How an answer looks on its card: good only where the station keeps the limit of residuals, and
 * the work was not stopped before that was seen.
 * @param {Answer} answer
 * @param {Card} card
 * @returns {Mood}
 */
export function moodOfAnswer({ status }, { judged, isStopped }) {
  if (status !== ACCEPTED) return 'bad';
  return judged?.isKept === false || isStopped ? 'read' : 'good';
}

/** How a card of a station, or of an answer, looks: good only where nothing of it is left. */
function moodOf(/** @type {Card} */ { answers, isStopped, judged }) {
  if (judged?.isKept === false || answers.some(one => one.status !== ACCEPTED)) return 'bad';
  if (isStopped) return 'open';
  return answers.length > 0 ? 'good' : 'read';
}

// ---------------------------------------------------------------- all files

/**
 * Makes the cards of all files, one after the other, so that those that are made stay where it is
 * stopped, and what was not reached is said; `told` hears before each file how far it is.
 * @param {Input[]} inputs
 * @param {Limits} limits
 * @param {Card[]} cards where they are put
 * @param {(done: number, all: number, name: string) => void} told
 */
export async function makeCards(inputs, limits, cards, told) {
  const given = withTaken(inputs);
  const of = (/** @type {string} */ kind) => given.filter(input => input.kind === kind);
  const fields = of('field'), others = [...of('sheet'), ...of('table')];
  const left = new Set(fields.length > 0 ? [...fields, ...others] : []), all = left.size;
  const tell = (/** @type {Input} */ file) => told(all - left.size + 1, all, file.shown);
  const stations = () => cards.flatMap(card => card.station ?? []);
  const read = () => each(cards.flatMap(card => card.field ?? []));
  try {
    for (const file of others) await readRows(file);
    for (const field of fields) {
      tell(field);
      // (of a large file the others are answered beside the first)
      const [made] = await Promise.all(
        [cardsOfField(field, limits), withDigest(field), record(field)]);
      cards.push(...made);
      left.delete(field);
    }
    tellApart([...given, ...read().filter(field => field.original)]);
    for (const file of others) {
      if (!left.has(file)) continue;
      tell(file);
      for (const one of file.original ? [file.original, file] : [file]) await withDigest(one);
      await placeFile(file, cards, read(), stations(), limits);
      left.delete(file);
    }
    for (const card of cards) {
      const mine = cards.filter(one => one.field === card.field).length;
      const isFew = card.field && mine * card.field.bytes.length <= MOST_READ;
      if (isFew || card.answers.length > 0) await judge(card, limits);
      // (of several cards there is a table, which has the standard deviations)
      if (isFew && card.station && cards.length > 1) await wholeOf(card.station, limits);
    }
  } catch (error) {
    leave(left, cards, read(), stations());
    throw error;
  }
}

/**
 * Says of files that were not reached that they were not, on the cards where they belong: none of
 * these is good.
 * @param {Iterable<Input>} files
 * @param {Card[]} cards
 * @param {Input[]} fields
 * @param {Station[]} stations
 */
function leave(files, cards, fields, stations) {
  for (const file of files) {
    const isField = file.kind === 'field';
    const station = isField ? undefined : placeOfFile(file, fields, stations).station;
    const card = cards.find(one => station && one.station === station);
    card?.waiting.push(file);
    if (!card) cards.push({ ...cardOfFile(file), unplaced: 'notReached' });
  }
  // (files that wait on a card of a station have not been reached; others wait for a station)
  for (const card of cards.filter(({ station }) => station)) {
    card.isStopped = card.waiting.length > 0 || (card.answers.length > 0 && !card.judged);
    card.mood = moodOf(card);
  }
}

/**
 * Where a sheet or a table belongs: its field file and its station, as far as they are found.
 * @param {Input} file
 * @param {Input[]} fields
 * @param {Station[]} stations
 * @returns {{ field?: Input, station?: Station }}
 */
function placeOfFile(file, fields, stations) {
  if (file.kind === 'table') {
    const station = stationOfTable(file, fields, stations);
    return { field: station?.field, station };
  }
  const field = fieldOfSheet(file, fields, stations), name = stationOfSheet(file);
  return { field, station: stations.find(one => one.field === field && one.listed.name === name) };
}

/**
 * Asks for the answer to a sheet or a table, and puts it onto the card where it belongs.
 * @param {Input} file
 * @param {Card[]} cards
 * @param {Input[]} fields
 * @param {Station[]} stations
 * @param {Limits} limits
 */
async function placeFile(file, cards, fields, stations, limits) {
  const isSheet = file.kind === 'sheet', { field, station } = placeOfFile(file, fields, stations);
  const lone = field ?? (fields.length === 1 ? fields[0] : undefined);
  const blocked = lone && !stations.some(one => one.field === lone);
  if (blocked) {
    cards.find(card => card.field === lone)?.waiting.push(file);
  } else if (!field) {
    const unplaced = isSheet || stations.length === 0 ? 'noFieldFor' : 'noStationFor';
    cards.push({ ...cardOfFile(file), unplaced });
  } else {
    const answer = isSheet || !station
      ? await answerOfSheet(file, field, station, limits)
      : await answerOfTable(file, station, limits);
    let card = cards.find(one => station && one.station === station);
    if (!card) cards.push(card = { ...cardOfFile(file), field });
    card.answers.push(answer);
    card.mood = moodOf(card);
  }
}

// ---------------------------------------------------------------- results

/**
 * What can be saved of a station as rows with numbers that have commas: its directions, the rows of
 * its report, and the differences of a table.
 * @type {Record<'directions' | 'rows' | 'differences',
 *   (station: Station, limits: Limits, table: Input) => Promise<import('./work.js').Reply>>}
 */
export const WITH_COMMAS = {
  directions: ({ field, listed: { name } }, { twoC, twoI, decimals }) =>
    ask('commaDirections', field.bytes, name, twoC, twoI, decimals),
  rows: ({ field, listed: { name } }, { twoC, twoI }) =>
    ask('commaRows', field.bytes, name, twoC, twoI),
  differences: ({ field, listed: { name } }, { twoC, twoI }, table) =>
    ask('commaDifferences', field.bytes, table.bytes, name, twoC, twoI, ...formOf(table)),
};

/** The sheet of means of a station whose sets are complete. */
export const meansOf = (/** @type {Station} */ { field, listed }, /** @type {Limits} */ limits) =>
  ask('means', field.bytes, listed.name, limits.twoC, limits.twoI);

/** The report of a station, in the language of the page. */
export const reportOf = (/** @type {Station} */ { field, listed }, /** @type {Limits} */ limits) =>
  ask('report', field.bytes, field.name, listed.name, limits.twoC, limits.twoI,
    languageNumber(spoken()));

/**
 * All that is answered of a station, of one reading of its file and one adjustment: asked for once.
 * @param {Station} station
 * @param {Limits} limits
 */
async function wholeOf(station, limits) {
  station.whole ??= await answersOf(station, limits);
  return station.whole;
}

/**
 * What is answered of a station, each with the command that prints it.
 * @param {Station} station
 * @param {Limits} limits
 * @returns {Promise<Results>}
 */
async function answersOf({ field, listed: { name } }, limits) {
  const { twoC, twoI, decimals } = limits, faces = ['twoC', 'twoI'];
  const { status, bytes, text } =
    await ask('station', field.bytes, field.name, name, twoC, twoI, decimals);
  const parts = status === ACCEPTED ? partsIn(bytes) : undefined;
  /** @type {(part: string, asked: string, names: string[], more?: string[]) => Promise<Answer>} */
  const of = (part, asked, names, more = []) => {
    const command = commandOf(asked, names, limits, [field.name, name], more);
    return answered({ status, text: parts?.[part] ?? text }, { asked, field, command });
  };
  return {
    directions: await of('directions', 'directions', [...faces, 'decimals']),
    residuals: await of('rows', 'report', faces, ['--csv']),
    report: await of('report', 'report', faces),
    accuracy: parts && accuracyIn(parts.accuracy),
    faces: parts && facesIn(parts.faces),
  };
}

/** Whether no reading of a station is redundant, where it is adjusted: then all residuals are 0. */
export const isWithoutFreedom = (/** @type {Station | undefined} */ station) =>
  station?.whole?.accuracy?.degrees === 0;

/** The results of a station: asked for when they are first shown. */
export const resultsOf = (/** @type {StationCard} */ { station }, /** @type {Limits} */ limits) =>
  wholeOf(station, limits);
