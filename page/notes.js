// What the user says of the job for the protocol: the browser keeps it, and it is never sent.

/** The fields, and by what name the browser keeps them. */
const NOTED = ['project', 'instrument', 'observer'], KEPT_AS = 'station_check';
/** The field that says whether zenith angles are to stand in protocols. */
const ANGLES = 'zeniths';

const fieldOf = (/** @type {string} */ name) =>
  /** @type {HTMLInputElement} */ (document.getElementById(name));

/** What is typed of the job, by the names of the fields; those that are empty have no text. */
export const notes = () =>
  Object.fromEntries(NOTED.map(name => [name, fieldOf(name).value.trim()]));

/** Whether zenith angles are to stand in protocols. */
export const hasZeniths = () => fieldOf(ANGLES).checked;

/** What the browser kept: nothing, where it keeps nothing of a page in a folder. */
function kept() {
  try {
    return JSON.parse(localStorage.getItem(KEPT_AS) ?? '{}') ?? {};
  } catch {
    return {};
  }
}

function keep() {
  try {
    localStorage.setItem(KEPT_AS, JSON.stringify({ ...notes(), [ANGLES]: hasZeniths() }));
  } catch {
    // (they stay as long as the page)
  }
}

/** Puts what was kept into the fields, and has what is typed kept. */
export function recallNotes() {
  const before = kept();
  for (const name of NOTED) {
    fieldOf(name).value = String(before[name] ?? '');
    fieldOf(name).oninput = keep;
  }
  fieldOf(ANGLES).checked = before[ANGLES] === true;
  fieldOf(ANGLES).onchange = keep;
}
