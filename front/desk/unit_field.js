// A field for a unit, which takes its reference code as well as its number, and says which unit that is: what the public does not
// see is told from the copy of the night.

import { el, words } from '../shared/dom.js';
import { textField } from '../shared/fields.js';
import { text } from '../shared/language.js';
import { numberOf } from '../shared/numbers.js';
import { findInCopy } from './night_copy.js';
import { containerLink } from './parts.js';

export const NO_UNIT = { ok: false, kind: 'refused', refused: 'UnknownUnit' };

export function unitField(name, label, hint = text('Its reference code or its number.')) {
  const row = textField(name, label, { hint, maxlength: 200 });
  const told = el('div', { class: 'about', role: 'status' });
  let shown = '';
  row.querySelector('input').addEventListener('blur', async ({ target }) => {
    if (target.value === shown) return;
    shown = target.value;
    told.replaceChildren(...await unitLine(shown));
  });
  return [row, told];
}

/** The number of the only unit that was meant, or null. */
export async function unitNamed(typed) {
  return numberOf(typed) ?? (await unitMeant(typed))?.unit.toString() ?? null;
}

/** What the copy of the night has of a unit, as one line; nothing if it has none, or if the service is away. */
export async function unitLine(typed) {
  const unit = typed.trim() === '' ? null : await unitMeant(typed);
  return unit ? [el('p', {}, unitWords(unit), ' ', unitState(unit), ' ',
    el('span', { class: 'quiet' }, text('As of the copy of {time}.', { time: unit.copy })))] : [];
}

/** What staff know a unit by. */
export const unitWords = ({ code, title, dates, level }) => words([code, title, dates, level].filter(Boolean).join(', '));

const BOXES = [text('It is in no container.'), text('It is in:')];

/** The boxes of a unit, with their places. several: what is said above them if there is more than one. */
export function boxesOf({ boxes }, several = BOXES[1]) {
  return [el('p', {}, BOXES[boxes.length] ?? several),
    boxes.length > 0 && el('ul', { class: 'lower' }, boxes.map(({ container, name, location }) =>
      el('li', {}, words([name, location].filter(Boolean).join(', ')), ' ', containerLink(container))))].filter(Boolean);
}

/** What staff must know of a unit that is not open to everybody. */
export function unitState({ draft, belowDraft, until }) {
  if (draft) return text('Draft');
  if (belowDraft) return text('Below a draft');
  return until === null ? '' : text('Closed until {until}.', { until });
}

/** The unit that was meant, as the copy has it; null if there is none, or more than one. */
export async function unitMeant(typed) {
  const answer = await findInCopy(typed);
  const [first, second] = answer.ok ? answer.value.units : [];
  return first && (!second || second.rank > first.rank) ? { ...first, copy: answer.value.copy } : null;
}
