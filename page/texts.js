// The page's own words, in the language that it speaks. What the program says, its lines and
// explanations, stands in the page as it is.
import { signed } from './numbers.js';

/** The languages, by their codes. */
export const LANGUAGES = { en: 'English', de: 'Deutsch', fr: 'Français' };

/**
 * How each language writes a date; English as it does where angles are in gon.
 * @type {Record<string, string>}
 */
export const DATES = { en: 'en-GB', de: 'de', fr: 'fr' };

/**
 * Each text by its language and its name, as texts/ has them: those that a script needs at once are put
 * here when it is joined. `{word}` is filled in; before `|` stands the text for one, then that for
 * more. The blanks of French signs are made narrow where it is spoken.
 * @type {Record<string, Record<string, string>>}
 */
export const TEXTS = {};

/** The language that the page speaks, and what it puts before the decimals of a number. */
let language = 'en', point = '.';

/** Whether its numbers have a comma: so have those of a spreadsheet beside it. */
export const hasComma = () => point === ',';

/** The first of the wanted languages that the page speaks. */
export function languageOf(/** @type {readonly string[]} */ wanted) {
  return wanted.map(code => code.slice(0, 2)).find(code => code in LANGUAGES) ?? 'en';
}

/** Speaks a language: with the numbers of its land, where the browser names one, as de-CH. */
export function speak(/** @type {string} */ code) {
  language = code;
  const land = navigator.languages.find(one => one.startsWith(code)) ?? code;
  const parts = new Intl.NumberFormat(land).formatToParts(0.5);
  point = parts.find(({ type }) => type === 'decimal')?.value ?? '.';
}

export const spoken = () => language;

/** A number that a call wrote, with the decimal sign of the language. */
export const numeral = (/** @type {string} */ number) => number.replace('.', point);

/** The same with a sign that is seen. */
export const signedNumeral = (/** @type {string} */ number) => numeral(signed(number));

/**
 * French text with narrow blanks, at which no line ends, before its signs and within its quotes.
 */
const inFrench = (/** @type {string} */ said) => said.replace(/ (?=[:;?!»])|(?<=«) /g, '\u202f');

/** A text as its language sets it. */
export const typeset = (/** @type {string} */ said) => language === 'fr' ? inFrench(said) : said;

/**
 * How a language tells one from more, once it was spoken.
 * @type {Record<string, Intl.PluralRules>}
 */
const plurals = {};

/** The words in the place of which texts have numbers with decimals. */
const NUMBERS = new Set([
  'size', 'apart', 'limit', 'twoC', 'twoI', 'residual', 'within', 'least', 'most', 'step',
]);

/**
 * The text of this name, with these values filled in; `n` chooses between one and more. It is empty
 * as long as the texts are not yet unpacked.
 * @param {string} name
 * @param {Record<string, string | number>} [values]
 */
export function text(name, values = {}) {
  const [one, more] = (TEXTS[language]?.[name] ?? '').split('|');
  const rules = plurals[language] ??= new Intl.PluralRules(language);
  const isOne = more === undefined || rules.select(Number(values.n)) === 'one';
  return typeset(isOne ? one : more).replace(/\{(\w+)\}/g, (_, word) => {
    const value = String(values[word]);
    return NUMBERS.has(word) ? numeral(value) : value;
  });
}
