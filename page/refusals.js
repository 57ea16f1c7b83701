// A refusal: where the fault stands, what it means and what to do, on a card and on paper.
import { REFUSED } from './answers.js';
import { element, ofProgram } from './elements.js';
import { toldOf } from './faults.js';
import { placeOf } from './place.js';
import { text } from './texts.js';

/** @typedef {import('./faults.js').Explanation} Explanation */

/** So many pixels are seen right of what is meant, in a line that is longer than its room. */
const BESIDE_MARK = 24;

/**
 * The lines around a fault, with its place marked.
 * @param {import('./place.js').Place} place
 * @param {Element} parent
 */
export function showPlace({ where, lines, first, end }, parent) {
  element('p', where, parent, { className: 'where' });
  if (lines.length === 0) return;
  const around = element('pre', '', parent, { className: 'lines' });
  around.setAttribute('role', 'group');
  around.setAttribute('aria-label', where);
  for (const { number, text: line, isMeant } of lines) {
    const row = element('span', '', around, { className: isMeant ? 'line meant' : 'line' });
    if (number) element('span', number, row, { className: 'number' });
    const content = element('span', '', row, { className: 'content' });
    if (!isMeant) content.textContent = line;
    else {
      content.append(line.slice(0, first));
      element('mark', line.slice(first, end), content);
      content.append(line.slice(end));
    }
    around.append('\n');
  }
  const meant = around.querySelector('mark');
  if (!meant || first === 0) return;
  // What is meant may stand right of what a phone shows. (All that is new is laid out at once.)
  requestAnimationFrame(() => {
    around.scrollLeft = meant.offsetLeft + meant.offsetWidth + BESIDE_MARK - around.clientWidth;
  });
}

/**
 * What a fault is, as a sentence. What is said in the words of the program is English.
 * @param {string} tag
 * @param {import('./answers.js').Answer} answer
 * @param {Element} parent
 */
export function showMeaning(tag, { explanation }, parent, className = '') {
  const { what, isOfProgram } = toldOf(explanation);
  return isOfProgram ? ofProgram(tag, what, parent, className)
    : element(tag, what, parent, { className });
}

/** The lines of a text of the program as one, which the page breaks where it has room. */
const flowing = (/** @type {string} */ lines) => lines.replaceAll('\n', ' ');

/**
 * When a fault comes and what to do, in full as the program says it, folded.
 * @param {Explanation} explanation
 * @param {Element} parent
 * @param {boolean} open
 */
function showInFull({ when, remedy }, parent, open) {
  const part = element('details', '', parent, { open });
  element('summary', text('inFull'), part);
  ofProgram('p', flowing(when), part);
  element('strong', 'What to do: ', ofProgram('p', '', part)).after(flowing(remedy));
}

/**
 * What is to be done about a fault, on the page; below it, but not on paper, what the program says
 * of it in full, which is English.
 * @param {Explanation} explanation
 * @param {Element} parent
 */
export function showExplanation(explanation, parent, isOnPaper = false) {
  const { todo, isByCopy } = toldOf(explanation);
  const part = element('div', '', parent, { className: 'explanation' });
  part.setAttribute('role', 'note');
  part.setAttribute('aria-label', text('whatToDo'));
  if (todo) {
    const said = element('p', '', part, { className: 'todo' });
    element('strong', `${text('whatToDo')} `, said).after(todo);
  }
  if (isByCopy) element('p', text('byCopy'), part, { className: 'quiet' });
  if (!isOnPaper || !todo) showInFull(explanation, part, !todo);
}

/**
 * Of a refusal where the fault stands, and what it means and what to do.
 * @param {import('./answers.js').Answer} answer
 * @param {Element} parent
 */
export function showFault(answer, parent, isOnPaper = false) {
  const { status, station, explanation } = answer;
  const place = status === REFUSED ? placeOf(answer, station) : null;
  if (place) showPlace(place, parent);
  if (explanation) showExplanation(explanation, parent, isOnPaper);
}
