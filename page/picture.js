// The picture of a station's residuals: a strip for each target and one for each set, over an axis
// in mgon.
//
// Its numbers stand as the call wrote them; what is computed here says where they stand. It is
// drawn for the room that there is and never scaled, so that its letters are as large on a phone as
// on a screen. Its colours are the tokens of the style; in a file of its own they are of light.
import { element } from './elements.js';
import { APART, mgonOf } from './numbers.js';
import { greatestOf, sizeOf } from './rows.js';
import { signedNumeral, text } from './texts.js';

/**
 * @typedef {import('./rows.js').Residual} Residual
 * @typedef {import('./rows.js').Residuals} Residuals
 * A strip: its name, and its residuals.
 * @typedef {{ name: string, rows: Residual[] }} Strip
 * Strips below one axis, and how high in its strip a residual stands, from -1 at the top to 1: the
 * same set, or target, stands at one height in all strips.
 * @typedef {{ title: string, heading: string, strips: Strip[],
 *   levelOf: (row: Residual) => number }} Panel
 * What all panels of a picture share, so that one below another can be compared: their width; the
 * greatest size of a residual, the standard deviation, which is 0 where none is known, and the step
 * and the end of the axis, in 0.001 mgon; and where so many of these stand.
 * @typedef {{ width: number, greatest: number, deviation: number, step: number, end: number,
 *   x: (units: number) => number }} Axis
 */

// Lengths in pixels.
/** The height of a strip, what is above the first one, and how far from its middle a dot may be. */
const STRIP = 22;
const ABOVE = 24;
const SPREAD = 6;
/** The size of letters, and the width of one where all are as wide. */
const LETTER = 12;
const ADVANCE = 7.3;
/** How far below the middle of a strip its letters stand, and a line of text below another. */
const BELOW = 4.3;
const LINE_HEIGHT = 18;
/** What is free at both sides of a panel, and at both ends of the axis for the numbers there. */
const GAP = 4;
const EDGE = 24;
/** The width of a strip's greatest residual, and the least of a step of the axis. */
const NUMBER = 62;
const STEP = 44;
/** The width of a dot, in a strip of few residuals and in others, and half that of a diamond. */
const LARGE_DOT = 7;
const SMALL_DOT = 5;
const DIAMOND = 6;
/** The width of a panel on paper, where the style makes it smaller. */
const PRINTED = 400;
/** The width of a file of its own, what is free around its panels, and the size of its title. */
const FILED = 720;
const MARGIN = 24;
const TITLE = 16;

/** So many strips at most stand below one axis: a panel has room on a page of paper. */
const MOST_STRIPS = 30;
/** Ends of an axis, in 0.001 mgon, times 1, 10 and so on. */
const ROUND_ENDS = [10, 15, 20, 30, 40, 50, 60, 80];
/** So many residuals of a strip are few. */
const SPARSE = 12;
/** Of so many residuals at most each dot says which it is: more would hold the window. */
const MOST_TOLD = 2000;
/** So many standard deviations reach the bands behind the dots, and how much of them is seen. */
const BANDS = [3, 1];
const SEEN = 0.1;

const INK = 'var(--ink)';
const QUIET = 'var(--quiet)';
const LINE = 'var(--line)';
const STRIPE = 'var(--sunk)';
const DOT = 'var(--bar)';
const GREATEST = 'var(--greatest)';
const PAPER = 'var(--card)';

const FONT = 'system-ui, sans-serif';
const ONE_WIDTH = 'ui-monospace, monospace';

const SVG = 'http://www.w3.org/2000/svg';

/**
 * Makes a part of a picture at the end of another.
 * @param {string} tag
 * @param {Record<string, string | number>} attributes
 * @param {Element} parent
 */
function shape(tag, attributes, parent, content = '') {
  const made = document.createElementNS(SVG, tag);
  for (const [name, value] of Object.entries(attributes)) made.setAttribute(name, written(value));
  made.textContent = content;
  return parent.appendChild(made);
}

/** The text of a length, of which no more than two decimals are seen. */
const written = (/** @type {string | number} */ value) =>
  typeof value === 'number' ? String(Number(value.toFixed(2))) : value;

// ---------------------------------------------------------------- what is drawn

/** Strips in groups, as even as can be, of which each has room below one axis. */
function grouped(/** @type {Strip[]} */ strips) {
  const groups = Math.ceil(strips.length / MOST_STRIPS), size = Math.ceil(strips.length / groups);
  return Array.from({ length: groups }, (_, nth) => strips.slice(nth * size, (nth + 1) * size));
}

/**
 * The panels of a station: its targets, and then its sets.
 * @returns {Panel[]}
 */
function panelsOf(/** @type {Residuals} */ { rows, sets, targets }) {
  const names = { target: targets, set: sets };
  /** @type {(key: 'target' | 'set', other: 'target' | 'set', title: string) => Panel[]} */
  const panelsBy = (key, other, title) => {
    const levels = names[other];
    const levelOf = (/** @type {Residual} */ row) =>
      (2 * levels.indexOf(row[other]) + 1) / levels.length - 1;
    const all = names[key].map(name => ({ name, rows: rows.filter(row => row[key] === name) }));
    return grouped(all).map((strips, _, groups) => {
      const part = groups.length > 1 ? `, ${strips[0].name} – ${strips.at(-1)?.name}` : '';
      return { title: title + part, heading: text(key), strips, levelOf };
    });
  };
  return [
    ...panelsBy('target', 'set', text('pictureByTarget')),
    ...panelsBy('set', 'target', text('pictureBySet')),
  ];
}

/** The greatest size of a residual, in 0.001 mgon. */
const greatestUnits = (/** @type {Residuals} */ residuals) =>
  Math.abs(unitsOf(greatestOf(residuals)));

/**
 * What the picture shows, in sentences.
 * @param {Residuals} residuals
 * @param {string} deviation
 */
function pictureTexts(residuals, deviation) {
  const { set, target, residual } = greatestOf(residuals), size = signedNumeral(residual);
  const greatest = sizeOf(residual) === 0
    ? text('pictureZero', { size }) : text('pictureGreatest', { size, set, target });
  const bands = sizeOf(deviation) > 0 ? [text('pictureBands', { size: deviation })] : [];
  return [text('pictureHow'), ...bands, greatest];
}

// ---------------------------------------------------------------- where it stands

/** A number in 0.001 mgon, as its three decimals say. */
const thousandthsIn = (/** @type {string} */ number) => Number(number.replace('.', ''));

const unitsOf = (/** @type {Residual} */ { residual }) => thousandthsIn(residual);

/** The end of the axis, in 0.001 mgon: the least round number that is not below the greatest. */
function endOf(/** @type {number} */ greatest) {
  for (let ten = 1; ; ten *= 10) {
    const end = ROUND_ENDS.find(one => one * ten >= greatest);
    if (end !== undefined) return end * ten;
  }
}

/** The least round step of which at most so many lead to the end, or the end where none does. */
function stepTo(/** @type {number} */ end, /** @type {number} */ most) {
  for (let steps = most; steps > 1; steps--)
    if (end % steps === 0 && /^[1-5]0*$/.test(String(end / steps))) return end / steps;
  return end;
}

/**
 * The axis of panels of this width, between the names and the numbers of their strips.
 * @param {Panel[]} panels
 * @param {number} greatest
 * @param {string} deviation
 * @param {number} width
 * @returns {Axis}
 */
function axisOf(panels, greatest, deviation, width) {
  const names = panels.flatMap(({ heading, strips }) =>
    [heading, ...strips.map(({ name }) => name)]);
  const longest = Math.max(...names.map(name => name.length));
  const left = GAP + longest * ADVANCE + EDGE, right = width - GAP - NUMBER - EDGE;
  const middle = (left + right) / 2, reach = (right - left) / 2;
  const end = endOf(greatest), step = stepTo(end, Math.floor(reach / STEP));
  const x = (/** @type {number} */ units) => middle + units / end * reach;
  return { width, greatest, deviation: thousandthsIn(deviation), step, end, x };
}

// ---------------------------------------------------------------- drawing

/**
 * What stands above the strips, and the lines of the axis through them.
 * @param {Axis} axis
 * @param {string} heading
 * @param {number} bottom
 * @param {Element} parent
 */
function drawAxis({ width, step, end, x }, heading, bottom, parent) {
  const letters = { y: ABOVE - 2 * GAP, fill: QUIET }, bold = { ...letters, 'font-weight': 600 };
  shape('text', { x: GAP, ...bold }, parent, heading);
  shape('text', { x: width - GAP, 'text-anchor': 'end', ...bold }, parent, text('greatest'));
  for (let units = -end; units <= end; units += step) {
    const at = x(units), stroke = units === 0 ? QUIET : LINE;
    shape('line', { x1: at, x2: at, y1: ABOVE - GAP, y2: bottom, stroke }, parent);
    const size = mgonOf(Math.abs(units), APART);
    const number = signedNumeral(units < 0 ? `-${size}` : size);
    shape('text', { x: at, 'text-anchor': 'middle', ...letters }, parent, number);
  }
}

/**
 * The bands of the standard deviation and of 3 times that, as far as the axis goes.
 * @param {Axis} axis
 * @param {number} bottom
 * @param {Element} parent
 */
function drawBands({ deviation, end, x }, bottom, parent) {
  for (const times of deviation > 0 ? BANDS : []) {
    const half = Math.min(times * deviation, end), [left, right] = [x(-half), x(half)];
    const place = { x: left, y: ABOVE, width: right - left, height: bottom - ABOVE };
    shape('rect', { ...place, fill: DOT, 'fill-opacity': SEEN }, parent);
  }
}

/** Which residual it is, and how large. */
function saidOfResidual(/** @type {Residual} */ { set, target, residual }) {
  const label = text('setAndTarget', { set, target });
  return text('labelled', { label, said: `${signedNumeral(residual)} mgon` });
}

/**
 * Dots at the places of these residuals: lines that are too short to be seen, with round ends. Each
 * says which it is, where they are not too many for that.
 * @param {Residual[]} rows
 * @param {(row: Residual) => number[]} placeOf
 * @param {number} size
 * @param {boolean} isTold
 * @param {Element} parent
 */
function drawDots(rows, placeOf, size, isTold, parent) {
  const round = { 'stroke-width': size, 'stroke-linecap': 'round' };
  const dots = shape('g', { fill: 'none', stroke: DOT, ...round }, parent);
  const ways = rows.map(row => `M${placeOf(row).map(written).join(' ')}h.01`);
  if (!isTold) shape('path', { d: ways.join('') }, dots);
  else ways.forEach((d, nth) =>
    shape('title', {}, shape('path', { d }, dots), saidOfResidual(rows[nth])));
}

/**
 * A diamond at the place of a residual, which says which it is.
 * @param {Residual} row
 * @param {number[]} place
 * @param {Element} parent
 */
function drawDiamond(row, [x, y], parent) {
  const corners = [[x - DIAMOND, y], [x, y - DIAMOND], [x + DIAMOND, y], [x, y + DIAMOND]];
  const points = corners.flat().map(written).join(' ');
  shape('title', {}, shape('polygon', { points, fill: GREATEST }, parent), saidOfResidual(row));
}

/**
 * Draws a panel.
 * @param {Panel} panel
 * @param {Axis} axis
 * @param {Element} parent
 * @returns {number} how high it is
 */
function drawPanel({ heading, strips, levelOf }, axis, parent) {
  const isTold = strips.flatMap(({ rows }) => rows).length <= MOST_TOLD;
  const { width, greatest } = axis;
  const isGreatest = (/** @type {Residual} */ row) =>
    greatest > 0 && Math.abs(unitsOf(row)) === greatest;
  const topOf = (/** @type {number} */ nth) => ABOVE + nth * STRIP, bottom = topOf(strips.length);
  for (let nth = 0; nth < strips.length; nth += 2)
    shape('rect', { x: 0, y: topOf(nth), width, height: STRIP, fill: STRIPE }, parent);
  drawBands(axis, bottom, parent);
  drawAxis(axis, heading, bottom, parent);
  strips.forEach(({ name, rows }, nth) => {
    const middle = topOf(nth) + STRIP / 2, most = greatestOf({ rows });
    const placeOf = (/** @type {Residual} */ row) =>
      [axis.x(unitsOf(row)), middle + levelOf(row) * SPREAD];
    const others = rows.filter(row => !isGreatest(row)), isSparse = rows.length <= SPARSE;
    /** @type {Record<string, string | number>} */
    const look = isGreatest(most) ? { fill: GREATEST, 'font-weight': 700 } : { fill: INK };
    const letters = { y: middle + BELOW, ...look }, number = signedNumeral(most.residual);
    shape('text', { x: GAP, 'font-family': ONE_WIDTH, class: 'name', ...letters }, parent, name);
    shape('text', { x: width - GAP, 'text-anchor': 'end', ...letters }, parent, number);
    drawDots(others, placeOf, isSparse ? LARGE_DOT : SMALL_DOT, isTold, parent);
    for (const row of rows.filter(isGreatest)) drawDiamond(row, placeOf(row), parent);
  });
  return bottom;
}

/**
 * A picture of this width and height, with a title and a description for those who can't see it.
 * @param {string} title
 * @param {string} description
 * @param {number} width
 * @param {(svg: Element) => number} draw what draws in it, and answers how high that is
 */
function pictureOf(title, description, width, draw) {
  const svg = document.createElementNS(SVG, 'svg');
  const looks = { role: 'img', 'font-family': FONT, 'font-size': LETTER, width };
  for (const [name, value] of Object.entries(looks)) svg.setAttribute(name, written(value));
  shape('title', {}, svg, title);
  shape('desc', {}, svg, description);
  const height = draw(svg);
  svg.setAttribute('height', String(height));
  svg.setAttribute('viewBox', `0 0 ${width} ${height}`);
  return svg;
}

// ---------------------------------------------------------------- on the page

/** How wide the style has a panel, which is a column; where nothing is shown, as on paper. */
const widthOf = (/** @type {Element} */ around) =>
  Math.floor(parseFloat(getComputedStyle(around).gridTemplateColumns)) || PRINTED;

/**
 * Shows the panels of the picture, and draws them anew where there is more room or less.
 * @param {Residuals} residuals
 * @param {string} deviation the standard deviation in mgon, where it is known
 * @param {Element} parent
 */
export function showPicture(residuals, deviation, parent) {
  const panels = panelsOf(residuals), greatest = greatestUnits(residuals);
  const said = pictureTexts(residuals, deviation).join(' ');
  element('p', said, parent, { className: 'caption' });
  const around = element('div', '', parent, { className: 'picture' });
  let drawn = 0;
  const draw = () => {
    const width = widthOf(around);
    if (width === drawn) return;
    drawn = width;
    const axis = axisOf(panels, greatest, deviation, width);
    around.replaceChildren(...panels.map(panel =>
      pictureOf(panel.title, said, width, svg => drawPanel(panel, axis, svg))));
  };
  draw();
  new ResizeObserver(draw).observe(around);
}

// ---------------------------------------------------------------- as a file

/** Writes the colours of light in the place of the tokens, which a file of its own has not. */
function inLight(/** @type {Element} */ svg) {
  const probe = element('span', '', document.body, { hidden: true });
  probe.style.colorScheme = 'light';
  for (const name of ['fill', 'stroke']) {
    for (const part of svg.querySelectorAll(`[${name}^=var]`)) {
      probe.style.color = part.getAttribute(name) ?? '';
      part.setAttribute(name, getComputedStyle(probe).color);
    }
  }
  probe.remove();
}

/**
 * The picture as a file: what it is of, a line for each, and all panels below each other.
 * @param {string} title
 * @param {string[]} origin
 * @param {Residuals} residuals
 * @param {string} deviation
 */
export function pictureFile(title, origin, residuals, deviation) {
  const texts = pictureTexts(residuals, deviation), panels = panelsOf(residuals);
  const axis = axisOf(panels, greatestUnits(residuals), deviation, FILED - 2 * MARGIN);
  const svg = pictureOf(title, texts.join(' '), FILED, whole => {
    let y = MARGIN + LETTER;
    const large = { y, fill: INK, 'font-size': TITLE, 'font-weight': 700 };
    shape('rect', { width: '100%', height: '100%', fill: PAPER }, whole);
    shape('text', { x: MARGIN, ...large }, whole, title);
    for (const line of [...texts, ...origin])
      shape('text', { x: MARGIN, y: y += LINE_HEIGHT, fill: QUIET }, whole, line);
    for (const panel of panels) {
      const part = shape('g', { transform: `translate(${MARGIN} ${y += MARGIN})` }, whole);
      y += drawPanel(panel, axis, part);
    }
    return y + MARGIN;
  });
  inLight(svg);
  return `<?xml version="1.0" encoding="utf-8"?>\n${new XMLSerializer().serializeToString(svg)}\n`;
}
