// The readings of a station: a table for each set, two of which stand beside each other on paper.
import { element, tableOf } from './elements.js';
import { averaged } from './numbers.js';
import { each, sizeOf } from './rows.js';
import { numeral, signedNumeral, text } from './texts.js';

/**
 * The readings in both faces, a table for each set, the greatest 2c and the greatest 2i marked.
 * @param {import('./rows.js').Reading[]} readings
 * @param {Element} parent
 */
export function readingsTables(readings, parent) {
  element('p', text('readingsCaption'), parent, { className: 'caption' });
  const around = element('div', '', parent, { className: 'sets' });
  const headings = ['faceOne', 'faceTwo', 'mean'].map(name => text(name));
  const greatest = {
    twoC: Math.max(...readings.map(({ twoC }) => sizeOf(twoC))),
    twoI: Math.max(...readings.map(({ twoI }) => sizeOf(twoI))),
  };
  for (const set of each(readings.map(one => one.set))) {
    const rows = readings.filter(one => one.set === set).map(reading => {
      const cell = (/** @type {'twoC' | 'twoI'} */ name) => {
        const mark = sizeOf(reading[name]) === greatest[name] ? 'greatest' : '';
        return { text: signedNumeral(reading[name]), mark };
      };
      const { target, one, two, mean } = reading;
      const gon = [one, two, mean].map(number => ({ text: numeral(number) }));
      return [target, ...gon, cell('twoC'), cell('twoI')];
    });
    const title = text('setNumber', { set }), heads = [title, ...headings, '2c', '2i'];
    tableOf(title, heads, /** @type {any} */ (rows), around, 'numbers');
  }
}

/**
 * The zenith angles: of all sets the mean of each target's means, of each set both faces and their
 * mean.
 * @param {import('./rows.js').Reading[]} readings
 * @param {Element} parent
 */
export function zenithsTables(readings, parent) {
  element('p', text('zenithsCaption'), parent, { className: 'caption' });
  const around = element('div', '', parent, { className: 'sets' });
  /** @type {(title: string, heads: string[], rows: string[][]) => void} */
  const show = (title, heads, rows) => {
    const all = rows.map(([target, ...gon]) =>
      [target, ...gon.map(one => ({ text: numeral(one) }))]);
    const headings = [title, ...heads.map(name => text(name))];
    tableOf(title, headings, /** @type {any} */ (all), around, 'numbers');
  };
  show(text('allSets'), ['mean'], each(readings.map(one => one.target)).map(target =>
    [target, averaged(readings.filter(one => one.target === target).map(one => one.zenith))]));
  for (const set of each(readings.map(one => one.set))) {
    const rows = readings.filter(one => one.set === set);
    show(text('setNumber', { set }), ['faceOne', 'faceTwo', 'mean'], rows.map(one =>
      [one.target, one.zenithOne, one.zenithTwo, one.zenith]));
  }
}
