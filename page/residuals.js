// The residuals of a station in a file of their own, which examples/residuals.py writes: what the
// program printed stands in it, and is shown as the page shows it.
import { button, element, save } from './elements.js';
import { pictureFile, showPicture } from './picture.js';
import { residualsIn } from './rows.js';
import { residualsTable } from './tables.js';
import { languageOf, speak, spoken, text } from './texts.js';

/** Shows the residuals of the station of this name. */
function showResiduals(/** @type {string} */ name) {
  const [heading, shown, buttons, printed, summary] =
    ['h1', '#shown', '#buttons', '#printed', 'summary']
      .map(one => /** @type {Element} */ (document.querySelector(one)));
  const residuals = residualsIn(printed.textContent ?? ''), title = text('residualsOf', { name });
  document.documentElement.lang = spoken();
  document.title = heading.textContent = title;
  showPicture(residuals, '', element('section', '', shown, { className: 'across' }));
  residualsTable(residuals, element('section', '', shown));
  button(text('print'), buttons, () => print(), 'button primary');
  button(text('savePicture'), buttons, () =>
    save(`${name}_residuals.svg`, pictureFile(title, [], residuals, ''), 'image/svg+xml'));
  summary.textContent = text('printed');
  summary.parentElement?.removeAttribute('open');
}

speak(languageOf(navigator.languages));
showResiduals(document.title);
