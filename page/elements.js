// Elements of the page, made with their texts.
import { text } from './texts.js';

/**
 * Makes an element at the end of another.
 * @param {string} tag
 * @param {string} content
 * @param {Element} parent
 * @param {Record<string, any>} [more] properties
 * @returns {HTMLElement}
 */
export function element(tag, content, parent, more = {}) {
  const made = Object.assign(document.createElement(tag), more);
  if (content) made.textContent = content;
  return parent.appendChild(made);
}

/**
 * An element with what the program says, which is English.
 * @param {string} tag
 * @param {string} content
 * @param {Element} parent
 */
export const ofProgram = (tag, content, parent, className = '') =>
  element(tag, content, parent, { lang: 'en', translate: false, className });

/**
 * A button that does this work.
 * @param {string} content
 * @param {Element} parent
 * @param {() => void} work
 */
export function button(content, parent, work, className = 'button') {
  return element('button', content, parent, { type: 'button', className, onclick: work });
}

/**
 * A menu of buttons, which are put into what it answers: they are shown below its own button until
 * one is pressed, or another part of the page is turned to.
 * @param {string} content
 * @param {Element} parent
 */
export function menuOf(content, parent) {
  const menu = /** @type {HTMLDetailsElement} */ (element('details', '', parent));
  menu.className = 'menu';
  const opens = element('summary', content, menu, { className: 'button' });
  const list = element('div', '', menu);
  const close = () => {
    menu.open = false;
    opens.focus();
  };
  list.onclick = close;
  menu.onkeydown = ({ key }) => { if (key === 'Escape') close(); };
  menu.addEventListener('focusout', ({ relatedTarget: next }) => {
    if (!menu.contains(/** @type {Node | null} */ (next))) menu.open = false;
  });
  return list;
}

/**
 * A cell of a table: its text, how it is marked, and the bar in it, from -1 to 1.
 * @typedef {{ text: string, mark?: string, bar?: number }} Cell
 */

function cellOf(/** @type {Cell} */ { text: content, mark = '', bar }, /** @type {Element} */ row) {
  const said = mark === 'greatest' ? { title: text('isGreatest') } : {};
  const about = { className: mark, ...said };
  const cell = element('td', bar === undefined ? content : '', row, about);
  if (bar === undefined) return;
  element('span', content, cell);
  const line = element('span', '', cell, { className: bar < 0 ? 'bar below' : 'bar' });
  line.style.setProperty('--part', String(Math.abs(bar)));
  line.setAttribute('aria-hidden', 'true');
}

/**
 * Makes a row of a table, whose first cell is a heading.
 * @param {[string, ...Cell[]]} cells
 * @param {Element} parent
 */
export function rowOf([first, ...cells], parent) {
  const row = element('tr', '', parent);
  element('th', first, row, { scope: 'row' });
  for (const cell of cells) cellOf(cell, row);
  return row;
}

/**
 * Makes a table with these headings and rows. It can be scrolled where it is wider than the page.
 * @param {string} caption
 * @param {string[]} headings
 * @param {[string, ...Cell[]][]} rows
 * @param {Element} parent
 */
export function tableOf(caption, headings, rows, parent, className = '') {
  const around = element('div', '', parent, { className: 'wide' });
  const table = /** @type {HTMLTableElement} */ (element('table', '', around, { className }));
  element('span', caption, element('caption', '', table, { className: 'caption' }));
  const head = element('tr', '', element('thead', '', table)), body = element('tbody', '', table);
  for (const heading of headings) element('th', heading, head, { scope: 'col' });
  for (const row of rows) rowOf(row, body);
  return table;
}

/**
 * Hands a file to the user's folder of downloads.
 * @param {string} name
 * @param {BlobPart} content
 * @param {string} type
 */
export function save(name, content, type) {
  const address = URL.createObjectURL(new Blob([content], { type }));
  const link = element('a', '', document.body, { href: address, download: name });
  link.click();
  link.remove();
  setTimeout(() => URL.revokeObjectURL(address), 60_000);
}
