// The results of a station, on its card and in its protocol.
import { ACCEPTED, isWithoutFreedom } from './answers.js';
import { element, ofProgram } from './elements.js';
import { decimalsIn, originalOf } from './files.js';
import { hasZeniths } from './notes.js';
import { showPicture } from './picture.js';
import { readingsTables, zenithsTables } from './readings.js';
import { showMeaning } from './refusals.js';
import { differencesIn, readingsIn, residualsIn } from './rows.js';
import {
  accuracyNote, differencesTable, directionsTable, faceMeansNote, facesTables, residualsTable,
} from './tables.js';
import { text } from './texts.js';

/**
 * @typedef {import('./answers.js').Answer} Answer
 * @typedef {import('./answers.js').ReadyCard} ReadyCard
 */

/**
 * A table of so many sets fits beside the directions; where there are more the picture does. If the
 * differences stand beside the directions, both stand beside each other, on paper too.
 */
const FEW_SETS = 5;

/** Why there are no adjusted directions, and so no residuals. */
function showRefused(/** @type {Answer} */ answer, /** @type {Element} */ parent) {
  ofProgram('samp', answer.line, element('p', '', parent));
  showMeaning('p', answer, parent);
}

/**
 * A section of the results: its title, what fills it, and how it is laid out; whether the user
 * unfolded it, where it is folded.
 * @typedef {{ title: string, fill: (part: Element) => void, className?: string,
 *   isUnfolded?: boolean, unfold?: (isOpen: boolean) => void }} Section
 */

/**
 * The readings of a station: folded in the window; on paper they have the face differences too, and
 * the zenith angles where the user wants them.
 * @param {ReadyCard} card
 * @param {boolean} isOnPaper
 * @returns {Section[]}
 */
function sectionsOfReadings({ station, results: { residuals, faces: means } }, isOnPaper) {
  /** @type {Section} */
  const faces = { title: text('faces'), fill: part => facesTables(station, means, part) };
  if (residuals.status !== ACCEPTED) return [faces];
  const { listed: { name }, field } = station, unfolded = originalOf(field).unfolded ??= new Set();
  /** @type {(title: string, fill: (part: Element) => void) => Section} */
  const folded = (title, fill) => {
    const key = `${title} ${name}`, about = { title: text(title), fill, className: 'across whole' };
    const unfold = (/** @type {boolean} */ isOpen) => {
      if (isOpen) unfolded.add(key); else unfolded.delete(key);
    };
    return isOnPaper ? about : { ...about, isUnfolded: unfolded.has(key), unfold };
  };
  const read = readingsIn(residuals.line);
  const readings = folded('readings', part => {
    readingsTables(read, part);
    if (means && isOnPaper) faceMeansNote(means, part);
  });
  const angles = folded('zeniths', part => zenithsTables(read, part));
  const isWanted = hasZeniths() || !isOnPaper;
  return [...isOnPaper ? [] : [faces], readings, ...isWanted ? [angles] : []];
}

/**
 * The results of a station, section by section.
 * @param {ReadyCard} card
 * @param {boolean} isOnPaper
 * @returns {Section[]}
 */
function sectionsOf(card, isOnPaper) {
  const { station, results, answers } = card;
  const { directions, residuals, accuracy } = results;
  /** @type {Section[]} */
  const sections = answers.flatMap(({ differences, other, columns }) => differences && other ? [{
    title: text('differences', { name: other.shown }),
    fill(part) {
      differencesTable(differencesIn(differences), decimalsIn(other, columns), part);
      element('p', text('differencesNote', { size: '0.5' }), part, { className: 'quiet note' });
    },
  }] : []);
  sections.push({
    title: text('directions'),
    fill(part) {
      if (directions.status === ACCEPTED) directionsTable(directions.line, station, part);
      else showRefused(directions, part);
    },
  });
  if (residuals.status === ACCEPTED) {
    const read = residualsIn(residuals.line);
    const deviation = accuracy?.deviation ?? '', hasFreedom = !isWithoutFreedom(station);
    /** @type {Section} */
    const table = {
      title: text('residuals'),
      fill(part) {
        if (hasFreedom) residualsTable(read, part);
        if (accuracy) accuracyNote(accuracy, part);
      },
    };
    /** @type {Section} */
    const picture = {
      title: text('picture'), className: 'across',
      fill: part => showPicture(read, deviation, part),
    };
    const isFew = read.sets.length <= FEW_SETS, isBeside = isFew && sections.length === 2;
    if (isBeside) picture.className = 'across stacked';
    // (residuals that are all 0 for want of redundancy are no picture)
    const pictures = hasFreedom ? [picture] : [];
    sections.push(...isFew ? [table, ...pictures] : [...pictures, table]);
  }
  return [...sections, ...sectionsOfReadings(card, isOnPaper)];
}

/**
 * Shows a section of the results: one that is folded is filled when it is first unfolded.
 * @param {Section} section
 * @param {Element} parent
 */
function showSection({ title, fill, className = '', isUnfolded, unfold }, parent) {
  const part = element('section', '', parent, { className });
  if (!unfold) {
    element('h3', title, part);
    fill(part);
    return;
  }
  const fold = /** @type {HTMLDetailsElement} */ (element('details', '', part));
  element('h3', title, element('summary', '', fold));
  const show = () => { if (fold.childElementCount === 1) fill(fold); };
  fold.open = isUnfolded === true;
  if (isUnfolded) show();
  fold.ontoggle = () => {
    unfold(fold.open);
    if (fold.open) show();
  };
}

/** Shows the results of a station in its protocol. */
export function showResults(/** @type {ReadyCard} */ card, /** @type {Element} */ parent) {
  const around = element('div', '', parent, { className: 'beside' });
  for (const section of sectionsOf(card, true)) showSection(section, around);
}

/**
 * Shows them one after the other, so that no large station holds the window.
 * @param {ReadyCard} card
 * @param {Element} parent
 */
export async function showResultsInTurn(card, parent) {
  const around = element('div', '', parent, { className: 'beside' });
  for (const section of sectionsOf(card, false)) {
    showSection(section, around);
    await new Promise(done => setTimeout(done));
  }
}
