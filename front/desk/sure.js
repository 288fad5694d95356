// A question before a command that cannot be undone. The answer that changes nothing has the focus.

import { el } from '../shared/dom.js';
import { stopSecondClick } from '../shared/form.js';

/** The form's own answer if somebody decides not to go on. */
export const STAYED = { ok: false };

export function isSure({ title, content, stay, go, kind = '' }) {
  const keep = el('button', { value: 'stay', class: 'plain', autofocus: true }, stay);
  const leave = el('button', { value: 'go', class: kind, click: stopSecondClick }, go);
  const dialog = el('dialog', { 'aria-labelledby': 'question' },
    el('h2', { id: 'question' }, title), el('div', { class: 'about-it' }, content), el('form', { method: 'dialog', class: 'buttons' }, keep, leave));
  return new Promise((resolve) => {
    dialog.addEventListener('close', () => { dialog.remove(); resolve(dialog.returnValue === 'go'); });
    document.body.append(dialog);
    dialog.showModal();
    keep.focus();
  });
}
