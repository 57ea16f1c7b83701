// Which lines the page proposes to leave out of a copy: the last set of a station, where it was not
// ended, and closing sights, which are found by the rules of examples/prepare.py; and sights before
// the first set-up line. They are proposed where a refusal is of them and nothing else is likely: a
// misspelled name, a single reading that was lost.
// The user sees the lines first, and the proved call makes the copy.

/**
 * A word of a line.
 * @typedef {{ index: number, information: string, content: string }} Word
 * A reading with a direction: its block, its target, and its face, 0 if that isn't clear.
 * @typedef {{ block: number, target: string, face: number }} Reading
 * What is proposed to be left out, and its lines, with the numbers of their blocks.
 * @typedef {{ what: 'lastSet' | 'closing' | 'before', lines: { block: number, line: string }[] }} Proposal
 */

// ---------------------------------------------------------------- lines

/** The codes that open a station and a set, and the one that ends both. */
const STATION_CODE = '10', SET_CODE = '20', END_CODE = '30';

/** The indices of words, and of those of which a line that sets the instrument up has one. */
const POINT_WORD = 11, DIRECTION_WORD = 21, ZENITH_WORD = 22, CODE_WORD = 41, INFORMATION_WORD = 42;
const MEASURED_WORDS = [DIRECTION_WORD, ZENITH_WORD, 31], SET_UP_WORDS = [84, 85, 86, 88];

/** A half circle and a full one, in units of 0.00001 gon, and the sign of an angle in these. */
const HALF_CIRCLE = 20_000_000, FULL_CIRCLE = 40_000_000, IN_GON = '2';

/** The lines of a field file that aren't blank: the first of them is block 1. */
export function blockLinesOf(/** @type {Uint8Array} */ bytes) {
  const lines = new TextDecoder('latin1').decode(bytes).split(/\r\n|\r|\n/);
  return lines.filter(line => /[^ ]/.test(line));
}

/** The words of a line, up to the first that is none. */
function wordsIn(/** @type {string} */ line) {
  /** @type {Word[]} */
  const words = [];
  const isWide = line.startsWith('*'), width = isWide ? 16 : 8, word = /(\d\d)([!-~]{4})[+-]/y;
  word.lastIndex = Number(isWide);
  for (let found = word.exec(line); found; found = word.exec(line)) {
    const begin = word.lastIndex, blank = line.indexOf(' ', begin + width);
    const end = blank < 0 ? line.length : blank, content = line.slice(begin, end);
    words.push({ index: Number(found[1]), information: found[2], content });
    word.lastIndex = end + 1;
  }
  return words;
}

/** The content of the first word of an index, without the zeros before it. */
const nameOfWord = (/** @type {Word[]} */ words, /** @type {number} */ index) =>
  words.find(word => word.index === index)?.content.replace(/^0+(?=.)/, '');

const beginsWith = (/** @type {Word[]} */ words, /** @type {number} */ index) =>
  words[0]?.index === index;

/** The code of a line; of one that has none nothing. */
function codeIn(/** @type {string} */ line) {
  const words = /^\*?41/.test(line) ? wordsIn(line) : [];
  return beginsWith(words, CODE_WORD) ? nameOfWord(words, CODE_WORD) : undefined;
}

/** The station that a line sets up; of one that sets none up nothing. */
function setUpIn(/** @type {string} */ line) {
  if (!/ 8[4568]/.test(line)) return undefined;
  const words = wordsIn(line);
  const has = (/** @type {number[]} */ some) => words.some(({ index }) => some.includes(index));
  const sets = beginsWith(words, POINT_WORD) && !has(MEASURED_WORDS) && has(SET_UP_WORDS);
  return sets ? nameOfWord(words, POINT_WORD) : undefined;
}

/** The face of a zenith angle: 0 where none has it. */
function faceOf(/** @type {Word} */ { information, content }) {
  const zenith = Number(content);
  if (information[3] !== IN_GON || !/^\d+$/.test(content)) return 0;
  if (zenith % HALF_CIRCLE === 0 || zenith > FULL_CIRCLE) return 0;
  return zenith < HALF_CIRCLE ? 1 : 2;
}

/**
 * The readings among lines, of which the first is this block.
 * @param {string[]} lines
 * @param {number} first
 */
function readingsAmong(lines, first) {
  /** @type {Reading[]} */
  const readings = [];
  lines.forEach((line, nth) => {
    const words = wordsIn(line), zenith = words.find(({ index }) => index === ZENITH_WORD);
    if (!beginsWith(words, POINT_WORD) || nameOfWord(words, DIRECTION_WORD) === undefined) return;
    const target = nameOfWord(words, POINT_WORD) ?? '';
    readings.push({ block: first + nth, target, face: zenith ? faceOf(zenith) : 0 });
  });
  return readings;
}

// ---------------------------------------------------------------- parts of readings

/** By what a target that is read in a face is known. */
const keyOf = (/** @type {Reading} */ { target, face }) => `${face} ${target}`;

/** How often each target is read in each face. */
function countedIn(/** @type {Reading[]} */ readings) {
  /** @type {Map<string, number>} */
  const counts = new Map();
  for (const one of readings) counts.set(keyOf(one), (counts.get(keyOf(one)) ?? 0) + 1);
  return (/** @type {string} */ target, /** @type {number} */ face) =>
    counts.get(keyOf({ block: 0, target, face })) ?? 0;
}

/** Whether a target is read in both faces. */
const isPair = (/** @type {Reading[]} */ [one, other]) =>
  one.target === other.target && one.face !== other.face;

/** Readings two by two: of an odd number the last stands alone. */
const byTwo = (/** @type {Reading[]} */ readings) =>
  readings.flatMap((_, at) => at % 2 === 0 ? [readings.slice(at, at + 2)] : []);

/** Whether each target is read in both faces before the next. */
const arePairs = (/** @type {Reading[]} */ readings) =>
  readings.length % 2 === 0 && byTwo(readings).every(isPair);

/** Readings in one face, up to one of the same target as the reading before it. */
function halfSets(/** @type {Reading[]} */ readings) {
  /** @type {Reading[][]} */
  const halves = [];
  readings.forEach((one, at) => {
    const before = readings[at - 1];
    if (before?.face === one.face && before.target !== one.target) halves.at(-1)?.push(one);
    else halves.push([one]);
  });
  return halves;
}

/** Readings in parts, each up to where a target is read in a face once more. */
function readOnce(/** @type {Reading[]} */ readings) {
  /** @type {Reading[][]} */
  const parts = [];
  const seen = new Set();
  for (const one of readings) {
    if (parts.length === 0 || seen.has(keyOf(one))) {
      parts.push([]);
      seen.clear();
    }
    parts[parts.length - 1].push(one);
    seen.add(keyOf(one));
  }
  return parts;
}

// ---------------------------------------------------------------- whole sets

/**
 * So many readings at most stand before the first set; more where each target is sighted once, but
 * the first perhaps again.
 */
const MOST_BEFORE = 3, MOST_SIGHTED = 200;

/** A sight in both faces has so many readings, and a set so many at least. */
const PAIR = 2, FEWEST_OF_SET = 4;

/**
 * Whether each target is read in both faces, and there are two at least: all in one face and then
 * in the other, or target by target.
 */
function isWhole(/** @type {Reading[]} */ part) {
  const turns = part.filter((one, at) => at > 0 && part[at - 1].face !== one.face).length;
  const targets = [...new Set(part.map(({ target }) => target))], count = countedIn(part);
  const isInBoth = targets.length > 1
    && targets.every(target => count(target, 1) > 0 && count(target, 2) > 0);
  return isInBoth && (turns === 1 || arePairs(part));
}

/** The targets with which the first half of a whole set begins and ends, in one order. */
function endsOf(/** @type {Reading[]} */ part) {
  const targets = [...new Set(part.map(({ target }) => target))];
  return [targets[0], targets[targets.length - 1]].sort().join('\n');
}

/**
 * Whether each target is sighted once, in this face or, one sight after the other, in both.
 * @param {Reading[]} readings
 * @param {number} face
 */
function areSightedOnce(readings, face) {
  const starts = readings.filter(({ target }, at) => readings[at - 1]?.target !== target);
  const count = countedIn(readings);
  return new Set(starts.map(({ target }) => target)).size === starts.length
    && readings.every(one => count(one.target, one.face) === 1 && count(one.target, face) > 0);
}

/**
 * Readings without those that read a target again, in a face in which it was read since another one
 * was.
 */
function withoutAgain(/** @type {Reading[]} */ readings) {
  /** @type {Set<number>} */
  const faces = new Set();
  return readings.filter(({ target, face }, at) => {
    if (readings[at - 1]?.target !== target) faces.clear();
    const isAgain = faces.has(face);
    faces.add(face);
    return !isAgain;
  });
}

/**
 * Readings without those behind the first, at their end and a pair at most, that read its target
 * again.
 */
function withoutClosing(/** @type {Reading[]} */ readings) {
  const others = readings.map(({ target }) => target !== readings[0].target).lastIndexOf(true) + 1;
  return readings.slice(0, Math.max(others, readings.length - PAIR, 1));
}

/**
 * Whether readings may be sights that belong to none of the sets, which begin in this face: a target
 * may have been sighted again at once.
 * @param {Reading[]} readings
 * @param {number} face
 */
function mayOpen(readings, face) {
  const count = countedIn(readings);
  return readings.length > MOST_BEFORE ? areSightedOnce(withoutAgain(readings), face)
    : readings.every(({ target }) => count(target, face) > 0);
}

/**
 * The same, or the first target may have been sighted again at the end.
 * @type {typeof mayOpen}
 */
const mayStandBefore = (readings, face) =>
  mayOpen(readings, face) || areSightedOnce(withoutClosing(readings), face);

/**
 * How many readings may stand before sets: none, and each number up to the greatest: up to where a
 * target is sighted in a face once more, and a pair for the first one again.
 */
function countsBefore(/** @type {Reading[]} */ readings) {
  const first = readings.slice(0, MOST_SIGHTED), kept = withoutAgain(first);
  const [once = []] = readOnce(kept), again = first.length - kept.length + PAIR;
  const most = Math.min(Math.max(MOST_BEFORE, once.length + again), readings.length - FEWEST_OF_SET);
  return Array.from({ length: Math.max(most, 0) + 1 }, (_, before) => before);
}

/**
 * Whether readings are whole sets, with the same ends, and those before may be sights that belong
 * to none.
 * @param {Reading[]} before
 * @param {Reading[]} readings
 */
function leaveWholeSets(before, readings) {
  if (readings.length === 0 || !mayStandBefore(before, readings[0].face)) return false;
  const parts = readOnce(readings);
  return parts.every(isWhole) && new Set(parts.map(endsOf)).size === 1;
}

/** Readings up to the last of a target that is read in both faces: none of detail points. */
function withoutDetails(/** @type {Reading[]} */ readings) {
  const count = countedIn(readings);
  const isInBoth = (/** @type {Reading} */ { target, face }) => count(target, 3 - face) > 0;
  return readings.slice(0, readings.map(isInBoth).lastIndexOf(true) + 1);
}

/**
 * How many readings may stand after sets: none; check sights in face I, as many as that face has
 * too many; or, where sets are read by faces, one sight in both faces.
 */
function countsAfter(/** @type {Reading[]} */ readings) {
  const isFirst = readings.map(({ face }) => face === 1);
  const more = 2 * isFirst.filter(Boolean).length - readings.length;
  const areChecks = more > 0 && isFirst.slice(-more).every(Boolean);
  const isLastPair = readings.length > 2 && isPair(readings.slice(-2))
    && !arePairs(readings.slice(0, -2));
  return [0, ...areChecks ? [more] : [], ...isLastPair ? [2] : []];
}

/**
 * Whether all sets may be whole, wherever they begin: up to the last reading; or up to check
 * sights, where what was found would take a reading from the sets.
 * @param {Reading[]} found
 * @param {Reading[]} all
 */
function mayBeWhole(found, all) {
  const readings = withoutDetails(all), blocks = new Set(found.map(({ block }) => block));
  return countsBefore(readings).some(before =>
    countsAfter(readings.slice(before)).some(after => {
      const sets = readings.slice(before, readings.length - after);
      const isLost = after === 0 || sets.some(({ block }) => blocks.has(block));
      return isLost && leaveWholeSets(readings.slice(0, before), sets);
    }));
}

// ---------------------------------------------------------------- closing sights

/** Whether a half set ends with the target that began it. */
const closes = (/** @type {Reading[]} */ half) =>
  half.length > 2 && half[half.length - 1].target === half[0].target;

/** The pairs of the opening target that stand between others and the end, or such a pair. */
function closingPairs(/** @type {Reading[]} */ readings) {
  const pairs = byTwo(readings), [opening] = readings;
  let isBetween = false; // whether others follow the pair that opened
  return pairs.flatMap((pair, at) => {
    const isOpening = pair[0].target === opening.target, [follows = opening] = pairs[at + 1] ?? [];
    const isClosing = isOpening && isBetween && follows.target === opening.target;
    isBetween = !isOpening;
    return isClosing ? pair : [];
  });
}

/**
 * The pair that stands after sets that were read by faces, of a target that begins a half set; none
 * where that target's faces weren't read as often before it.
 */
function lastPair(/** @type {Reading[]} */ readings) {
  const before = readings.slice(0, -2), last = readings.slice(-2), [{ target }] = last;
  const isOpening = halfSets(before).some(half => half.length > 1 && half[0].target === target);
  if (!isOpening || !isPair(last)) return [];
  const count = countedIn(before);
  return count(target, 1) === count(target, 2) ? last : [];
}

/** The readings of sets that close a half set, or pairs that close a set. */
function closingAmong(/** @type {Reading[]} */ readings) {
  if (arePairs(readings)) return closingPairs(readings);
  const ends = halfSets(readings).filter(closes).map(half => half[half.length - 1]);
  return [...ends, ...lastPair(readings)];
}

/**
 * Whether sets were read in one way: by targets; or by faces, where in each face all half sets are
 * closed, or none, but for the last one, and otherwise none has a target twice. Of these some are
 * closed: a pair alone is in nobody's way.
 * @param {Reading[][]} groups readings of sets, or of a station
 */
function areAlike(groups) {
  const halves = groups.filter(one => !arePairs(one)).flatMap(halfSets);
  if (halves.length > 0 && !halves.some(closes)) return false;
  const isClosed = (/** @type {number} */ face) => new Set(
    halves.slice(0, -1).filter(half => half.length > 1 && half[0].face === face).map(closes));
  const opened = halves.map(half => half.slice(0, half.length - Number(closes(half))));
  return isClosed(1).size < 2 && isClosed(2).size < 2
    && opened.every(half => new Set(half.map(keyOf)).size === half.length);
}

// ---------------------------------------------------------------- a set that was broken off

/**
 * The last place at which each target was read as often in face I as in face II, and that which was
 * read first comes again; the beginning where there is none.
 */
function lastEndOf(/** @type {Reading[]} */ readings) {
  /** @type {Map<string, number>} */
  const more = new Map(); // of each target how often more it was read in face I
  let odd = 0, end = 0;
  readings.forEach(({ target, face }, at) => {
    if (at > 0 && target === readings[0].target && odd === 0) end = at;
    const was = more.get(target) ?? 0, is = was + (face === 1 ? 1 : -1);
    more.set(target, is);
    odd += Number(is !== 0) - Number(was !== 0);
  });
  return end;
}

/**
 * Where so many readings stand before whole sets, the readings of a last set that lacks a face of a
 * target, or ends with another target than the set before it: none of no such set. Nothing where
 * they aren't whole sets, or more than one set may follow.
 * @param {Reading[]} readings
 * @param {number} before
 */
function brokenAfter(readings, before) {
  const sights = readings.slice(0, before), rest = readings.slice(before);
  if (leaveWholeSets(sights, withoutDetails(rest))) return [];
  const begin = lastEndOf(rest), whole = rest.slice(0, begin);
  if (!leaveWholeSets(sights, whole)) return undefined;
  const targets = new Set(whole.map(({ target }) => target));
  const isOfSets = rest.map(({ target }) => targets.has(target));
  const end = isOfSets.lastIndexOf(true) + 1, last = rest.slice(begin, end);
  // (then come detail points, which are read in one face alone)
  const countOfAll = countedIn(rest);
  if (rest.slice(end).some(({ target, face }) => countOfAll(target, 3 - face) > 0)) return undefined;
  const count = countedIn(last);
  if (last.some(one => count(one.target, one.face) > 1)) return undefined;
  const isEven = [...targets].every(target => count(target, 1) === count(target, 2));
  const endsAlike = last[last.length - 1].target === whole[whole.length - 1].target;
  return isEven && endsAlike ? [] : last;
}

/**
 * The readings of a last set that was broken off, however many stand before the sets; none where
 * all sets may be whole, or where it may have others.
 */
function brokenSet(/** @type {Reading[]} */ readings) {
  const found = countsBefore(readings).flatMap(before => {
    const broken = brokenAfter(readings, before);
    return broken ? [{ before, broken }] : [];
  });
  const divided = found.map(({ broken }) => broken), [first = []] = divided;
  // (sights that end with their first target alone may as well be a set and what closes it)
  const opens = found.some(({ before }) =>
    mayOpen(readings.slice(0, before), readings[before].face));
  const said = (/** @type {Reading[]} */ broken) =>
    `${broken[0]?.block}-${broken[broken.length - 1]?.block}`;
  const isOne = first.length > 0 && divided.every(broken => said(broken) === said(first));
  return isOne && opens && !mayBeWhole(first, readings) ? first : [];
}

// ---------------------------------------------------------------- what is proposed

/**
 * What may be in the way, by the fault of a refusal: closing sights, a last set that isn't whole, or
 * readings before the first set-up line.
 * @type {Record<string, Proposal['what'] | undefined>}
 */
const IN_THE_WAY = {
  ReadTwice: 'closing', OneTarget: 'closing', FaceTwice: 'closing',
  FaceMissing: 'lastSet', EndsElsewhere: 'lastSet', OneFace: 'lastSet', EmptySet: 'lastSet',
  NoSetUp: 'before',
};

/** So many lines before the one at which a refusal stands a closing sight may stand. */
const CLOSES_BEFORE = 1;

/**
 * The lines of the station in which a line stands: from the first to before the end. Nothing where
 * its name comes again, since its sets may go on there.
 * @param {(string | undefined)[]} names of each line the station that it begins, if it begins one
 * @param {number} at
 * @param {boolean} [isAnother] whether a name that comes again is that of another set-up
 */
function stationAround(names, at, isAnother = false) {
  const begins = names.flatMap((name, nth) => name === undefined ? [] : [nth]);
  const first = begins.filter(nth => nth <= at).pop() ?? 0;
  const end = begins.find(nth => nth > at) ?? names.length, name = names[first];
  const isAgain = name !== undefined && names.indexOf(name) !== names.lastIndexOf(name);
  return isAgain && !isAnother ? undefined : { first, end, name };
}

/**
 * The sets of the station in which a line stands, as codes mark them: of each the line of its code,
 * the end, and its readings. None where the station is in doubt.
 * @param {string[]} lines
 * @param {(string | undefined)[]} codes of the lines
 * @param {number} at
 */
function setsAround(lines, codes, at) {
  const names = lines.map((line, nth) => codes[nth] !== STATION_CODE ? undefined
    : nameOfWord(wordsIn(line), INFORMATION_WORD) ?? '');
  const station = stationAround(names, at);
  if (station?.name === undefined) return [];
  const marks = codes.flatMap((code, nth) => code === SET_CODE || code === END_CODE ? [nth] : []);
  const inStation = marks.filter(nth => nth >= station.first && nth < station.end);
  return inStation.filter(nth => codes[nth] === SET_CODE).map(first => {
    const end = inStation.find(nth => nth > first) ?? station.end;
    return { first, end, readings: readingsAmong(lines.slice(first, end), first + 1) };
  });
}

/** The blocks of readings. */
const blocksOf = (/** @type {Reading[]} */ readings) => readings.map(({ block }) => block);

/** Whether the face of each reading is known. */
const haveFaces = (/** @type {Reading[]} */ readings) => readings.every(({ face }) => face > 0);

/**
 * Whether a set was begun as these readings begin at a place: where it was begun as no other, a
 * name may be misspelled, or one reading be lost, and the set be whole.
 * @param {Reading[]} set
 * @param {Reading[]} others
 */
const isBegunAs = (set, others, at = 0) =>
  set.every((one, nth) => others[at + nth] && keyOf(one) === keyOf(others[at + nth]));

/**
 * Closing sights, if the one at which the refusal stands is among them, or the line before it.
 * @param {Reading[]} found
 * @param {number} block
 */
const ifMeant = (found, block) =>
  found.some(one => one.block === block || one.block === block - CLOSES_BEFORE)
    ? blocksOf(found) : [];

/**
 * The blocks of a proposal, of a file with codes or of a job without them, where the refusal stands
 * at a block: none where that is of other readings, or it is doubtful. `isLast` says that no station
 * of the job follows.
 * @typedef {{ byCodes: (lines: string[], codes: (string | undefined)[], block: number) => number[],
 *   inJob: (readings: Reading[], block: number, isLast: boolean) => number[] }} Rule
 * @type {Record<Proposal['what'], Rule>}
 */
const RULES = {
  lastSet: {
    byCodes(lines, codes, block) {
      // (of a set that isn't whole the refusal stands at what ends it)
      const at = block - 1, sets = setsAround(lines, codes, at - 1), last = sets.pop();
      if (last?.end !== at) return [];
      if (!sets.some(({ readings }) => isBegunAs(last.readings, readings))) return [];
      return codes.flatMap((_, nth) => nth >= last.first && nth < at ? [nth + 1] : []);
    },
    inJob(readings, block) {
      const broken = brokenSet(readings), blocks = blocksOf(broken);
      const begin = readings.length - broken.length, before = readings.slice(0, begin);
      // (what follows may belong to it, with a name that is misspelled)
      const isMeant = blocks.includes(block) && readings[begin] === broken[0];
      return isMeant && before.some((_, at) => isBegunAs(broken, before, at)) ? blocks : [];
    },
  },
  closing: {
    byCodes(lines, codes, block) {
      const read = setsAround(lines, codes, block - 1).map(({ readings }) => readings);
      const isClear = read.every(haveFaces) && areAlike(read);
      return isClear ? ifMeant(read.flatMap(closingAmong), block) : [];
    },
    inJob(readings, block) {
      const found = closingAmong(readings), broken = blocksOf(brokenSet(readings));
      const isDoubtful = !areAlike([readings]) || mayBeWhole(found, readings);
      // (the same readings may be those of a set that was broken off)
      const isOther = blocksOf(found).join() !== broken.join()
        && found.some(one => broken.includes(one.block));
      return isDoubtful || isOther ? [] : ifMeant(found, block);
    },
  },
  before: {
    byCodes: () => [],
    inJob(readings, block, isLast) {
      // (what is read more often may be sets, of which the set-up line was lost)
      const count = countedIn(readings);
      const areOnce = readings.every(({ target, face }) => count(target, face) === 1);
      return areOnce && !isLast ? blocksOf(readings) : [];
    },
  },
};

/**
 * What is proposed to be left out, where a refusal stands at a block of a field file with this
 * fault: of the station in which that stands, and not just the line itself.
 * @param {Uint8Array} bytes
 * @param {number} block
 * @param {string} fault
 * @param {boolean} isAnother whether the user stated that a name that comes again is another set-up
 * @returns {Proposal | undefined}
 */
export function proposalFor(bytes, block, fault, isAnother) {
  const what = IN_THE_WAY[fault];
  if (!what) return undefined;
  const lines = blockLinesOf(bytes), codes = lines.map(codeIn);
  const blocks = codes.includes(SET_CODE) ? RULES[what].byCodes(lines, codes, block)
    : blocksInJob(lines, block, RULES[what], isAnother);
  if (blocks.length === 0 || blocks.join() === `${block}`) return undefined;
  return { what, lines: blocks.map(nth => ({ block: nth, line: lines[nth - 1] })) };
}

/**
 * The blocks of a proposal, in a job without codes.
 * @param {string[]} lines
 * @param {number} block
 * @param {Rule} rule
 * @param {boolean} isAnother
 */
function blocksInJob(lines, block, rule, isAnother) {
  const station = stationAround(lines.map(setUpIn), block - 1, isAnother);
  if (!station) return [];
  const { first, end } = station, readings = readingsAmong(lines.slice(first, end), first + 1);
  return haveFaces(readings) ? rule.inJob(readings, block, end === lines.length) : [];
}
