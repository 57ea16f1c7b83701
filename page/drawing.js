// Draws a state over what is there. A part is drawn anew only where it is to be made of something
// else, and then it has what the user did to the part whose place it takes: the keyboard, what is
// unfolded, how far it is scrolled. Long lists are drawn slice by slice, so that they don't hold the
// window.
import { spoken } from './texts.js';

/**
 * What each part was drawn of last.
 * @type {WeakMap<Element, unknown[]>}
 */
const drawnOf = new WeakMap();

/** Whether a part is to be made of something else than it was. */
function isOld(/** @type {Element} */ part, /** @type {unknown[]} */ of) {
  const before = drawnOf.get(part);
  return before?.length !== of.length || before.some((one, nth) => one !== of[nth]);
}

/** Whether a part is to be made of something else than it was; what it is made of is noted. */
export function isOther(/** @type {Element} */ part, /** @type {unknown[]} */ of) {
  const is = isOld(part, of);
  drawnOf.set(part, of);
  return is;
}

/**
 * What the user scrolled or unfolded, and what that stands in: of anything else it isn't asked what
 * was done to it, since that takes time, and parts out of sight would be laid out.
 * @type {WeakSet<Element>}
 */
const touched = new WeakSet();

/** Notes what was touched. */
function touch(/** @type {Element | null} */ part) {
  for (; part; part = part.parentElement) touched.add(part);
}
for (const done of ['scroll', 'toggle'])
  document.addEventListener(done, ({ target }) => touch(/** @type {any} */ (target)), true);

/**
 * The keys of the parts of lists.
 * @type {WeakMap<Element, string>}
 */
const keys = new WeakMap();

/** By what a part is known among those beside it: its key, or else what it is. */
const nameOf = (/** @type {Element} */ part) =>
  keys.get(part) ?? `${part.tagName} ${part.classList[0] ?? ''}`;

/** Parts by their names, in their order. */
function named(/** @type {Element} */ parent) {
  /** @type {Map<string, Element[]>} */
  const parts = new Map();
  for (const part of parent.children) {
    const name = nameOf(part), same = parts.get(name);
    if (same) same.push(part); else parts.set(name, [part]);
  }
  return parts;
}

/**
 * Of each fold that is filled later than it is drawn: in whose place it came, and where in that the
 * keyboard was.
 * @type {WeakMap<Element, { before: Element, here: Element | null }>}
 */
const toFill = new WeakMap();

/**
 * Hands on what the user did to a part, as soon as that which is drawn in its place is there. If it
 * is another one, which only stands where that was, it has the keyboard alone.
 * @param {Element} before
 * @param {Element} drawn
 * @param {Element | null} here where the keyboard is
 * @param {(() => void)[]} after
 */
function handOn(before, drawn, here, after, isSame = true) {
  if (before === here)
    after.push(() => /** @type {HTMLElement} */ (drawn).focus({ preventScroll: true }));
  if (isSame && before instanceof HTMLDetailsElement && drawn instanceof HTMLDetailsElement) {
    drawn.open = before.open;
    toFill.delete(before);
    toFill.set(drawn, { before, here: before.contains(here) ? here : null });
  }
  if (isSame && touched.has(before)) {
    const { scrollLeft, scrollTop } = before;
    touch(drawn);
    if (scrollLeft + scrollTop > 0)
      after.push(() => { drawn.scrollTo(scrollLeft, scrollTop); });
  }
  if (touched.has(before) || before.contains(here))
    handOnWithin(before, drawn, here, after, isSame);
}

/**
 * Hands on what the user did within a part.
 * @type {(before: Element, drawn: Element, here: Element | null, after: (() => void)[],
 *   isSame: boolean) => void}
 */
function handOnWithin(before, drawn, here, after, isSame) {
  const parts = named(drawn);
  [...before.children].forEach((part, nth) => {
    const same = parts.get(nameOf(part))?.shift();
    const other = part.contains(here) ? drawn.children[nth] ?? drawn.lastElementChild : null;
    if (same) handOn(part, same, here, after, isSame);
    else if (other) handOn(part, other, here, after, false);
  });
}

/** Hands on to a fold that is filled now. */
export function handOnTo(/** @type {Element} */ fold) {
  const { before, here } = toFill.get(fold) ?? {};
  toFill.delete(fold);
  /** @type {(() => void)[]} */
  const after = [];
  // (what was turned to meanwhile stays so)
  const isFree = document.activeElement === document.body;
  if (before) handOnWithin(before, fold, isFree && here || null, after, true);
  for (const one of after) one();
}

/**
 * Draws what is in a part, where that is to be made of something else.
 * @param {Element} part
 * @param {unknown[]} of
 * @param {(room: Element) => void} draw
 */
export function redraw(part, of, draw) {
  if (!isOther(part, of)) return;
  const room = /** @type {Element} */ (part.cloneNode(false));
  /** @type {(() => void)[]} */
  const after = [];
  draw(room);
  handOn(part, room, document.activeElement, after);
  part.replaceChildren(...room.childNodes);
  for (const one of after) one();
}

// ---------------------------------------------------------------- lists, in slices

/**
 * The parts of lists that are still to be drawn, each with what draws it: until then what was drawn
 * before stands in its place, or what is not shown.
 * @type {Map<Element, () => HTMLElement>}
 */
const toDraw = new Map();

/** So many parts are drawn in a slice, unless that takes more milliseconds. */
const MOST_AT_ONCE = 40, MOST_OF_TIME = 20;
/** Of what is new in a list so many parts are drawn first. */
const AT_FIRST = 12;

/** A part of a list, which is drawn now if it is still to be. */
export const drawNow = (/** @type {Element | undefined} */ part) =>
  part && toDraw.get(part)?.() || part;

/**
 * Has the parts of a list drawn, one of each of these things, which are known by their keys. Those
 * that are made of the same stay as they are.
 * @template T
 * @param {Element} parent
 * @param {T[]} things
 * @param {(thing: T) => string} keyOf
 * @param {(thing: T) => unknown[]} of
 * @param {(thing: T, room: Element) => Element} draw
 */
export function redrawEach(parent, things, keyOf, of, draw) {
  const before = named(parent), room = /** @type {Element} */ (parent.cloneNode(false));
  const here = /** @type {HTMLElement | null} */ (document.activeElement);
  lists.add(parent);
  const parts = things.map(thing => {
    const key = keyOf(thing), made = of(thing);
    const was = before.get(key)?.shift() ?? document.createElement('template');
    keys.set(was, key);
    toDraw.delete(was);
    if (isOld(was, made)) toDraw.set(was, () => {
      toDraw.delete(was);
      const part = /** @type {HTMLElement} */ (draw(thing, room));
      // (it may be drawn before all of the page speaks its language, and after)
      part.lang = spoken();
      keys.set(part, key);
      isOther(part, made);
      /** @type {(() => void)[]} */
      const after = [];
      handOn(was, part, document.activeElement, after);
      was.replaceWith(part);
      for (const one of after) one();
      return part;
    });
    return was;
  });
  const at = [...parent.children].findIndex(part => part.contains(here));
  const held = parent.children[at];
  const stays = new Set(parts);
  for (const part of [...parent.children]) {
    if (stays.has(part)) continue;
    toDraw.delete(part);
    part.remove();
  }
  let place = parent.firstElementChild;
  for (const part of parts) {
    if (part === place) place = part.nextElementSibling;
    else parent.insertBefore(part, place);
  }
  // (what was moved has lost the keyboard)
  if (stays.has(held)) here?.focus({ preventScroll: true });
  else if (held && parts.length > 0) {
    /** @type {(() => void)[]} */
    const after = [];
    const next = drawNow(parts[at] ?? parts.at(-1));
    if (next) handOn(held, next, here, after, false);
    for (const one of after) one();
  }
}

/** The lists that are drawn. */
const lists = /** @type {Set<Element>} */ (new Set());

const topOf = (/** @type {Element} */ part) => part.getBoundingClientRect().top;

/**
 * The parts of lists that are in sight, with their places: of each list they stand below each other.
 * It is asked for before anything is changed, when nothing has to be laid out for that.
 */
export function partsInSight() {
  /** @type {Map<Element, number>} */
  const seen = new Map();
  for (const { children: parts } of lists) {
    let first = 0, end = parts.length;
    while (first < end) {
      const at = first + end >> 1;
      if (parts[at].getBoundingClientRect().bottom > 0) end = at;
      else first = at + 1;
    }
    let part = parts.item(first);
    for (; part && topOf(part) < innerHeight; part = part.nextElementSibling)
      seen.set(part, topOf(part));
  }
  return seen;
}

/** Asks for the next slice: by a message, since timers wait where the page isn't seen. */
const nextSlice = new MessageChannel();

/**
 * Draws what is left of lists slice by slice, so that none holds the window: first what is in sight,
 * whose first part keeps its place, and the beginning of what is new. `told` hears after each slice
 * whether something is left.
 * @param {Map<Element, number>} seen
 * @param {(isLeft: boolean) => void} told
 */
export function drawInTurn(seen, told) {
  const left = [...toDraw.keys()];
  const isFirst = (/** @type {Element} */ part, /** @type {number} */ nth) =>
    part.localName === 'template'
      ? left[nth - AT_FIRST]?.parentElement !== part.parentElement : seen.has(part);
  const order = new Set([...left.filter(isFirst), ...left]);
  let [[held, top = 0] = []] = seen;
  // (later it is the browser that holds what is in sight)
  if (held && toDraw.has(held) && scrollY > 0) requestAnimationFrame(() => {
    const by = held ? topOf(held) - top : 0;
    if (Math.abs(by) < innerHeight) scrollBy(0, by);
  });
  const slice = () => {
    const start = performance.now();
    let count = 0;
    try {
      for (const part of order) {
        order.delete(part);
        if (toDraw.has(part)) count++;
        const drawn = drawNow(part);
        if (part === held) held = drawn;
        if (count === MOST_AT_ONCE || performance.now() - start > MOST_OF_TIME) break;
      }
    } finally {
      if (order.size > 0) nextSlice.port2.postMessage(0);
      told(order.size > 0);
    }
  };
  // (a message that was asked for earlier draws of this order, and then none asks for another)
  nextSlice.port1.onmessage = () => { if (order.size > 0) slice(); };
  slice();
}
