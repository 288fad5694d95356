// What a barcode reader sends: a number, or the code on a ticket or a label, which has a letter before its number. A code of
// the other kind is not taken.

import { el } from '../shared/dom.js';
import { numberField } from '../shared/fields.js';
import { text } from '../shared/language.js';
import { numberOf } from '../shared/numbers.js';

const TICKET = {
  letter: 'T', other: 'B', wrong: text('This is the code of a container. Scan a ticket.'), none: text('Scan or type the number of a ticket.'),
  form: text('A ticket’s number has digits alone. Its code has the letter T before them.'),
};
const BOX = {
  letter: 'B', other: 'T', wrong: text('This is the code of a ticket. Scan a container.'), none: text('Scan or type the number of a container.'),
  form: text('A container’s number has digits alone. Its code has the letter B before them.'),
};

export const ticketCode = (ticket) => `${TICKET.letter}${ticket}`;
export const boxCode = (container) => `${BOX.letter}${container}`;

export const ticketOf = (typed) => numberOf(typed.replace(/^\s*T/i, ''));
export const boxOf = (typed) => numberOf(typed.replace(/^\s*B/i, ''));

export const ticketField = (options) => scanField(TICKET, 'ticket', text('Ticket'), options);
export const boxField = (options) => scanField(BOX, 'container', text('Container'), options);

function scanField(kind, name, label, options) {
  const row = numberField(name, label, options);
  const input = row.querySelector('input');
  const told = el('span', { class: 'wrong', role: 'alert' });
  row.append(told);
  input.pattern = `\\s*[${kind.letter}${kind.letter.toLowerCase()}]?0*[1-9][0-9]{0,9}\\s*`;
  input.removeAttribute('title');
  input.addEventListener('invalid', (event) => { event.preventDefault(); tellWrong(kind, input, told); });
  input.addEventListener('input', () => { told.textContent = ''; input.removeAttribute('aria-invalid'); });
  return row;
}

/** Only the first field of a form that is wrong is told: the others come later. */
function tellWrong(kind, input, told) {
  if (input.form.querySelector('input:invalid') !== input) return;
  input.setAttribute('aria-invalid', 'true');
  told.textContent = wrongWords(kind, input.value);
  input.focus();
  input.select();
}

function wrongWords(kind, typed) {
  if (typed.trim() === '') return kind.none;
  if (typed.trim().toUpperCase().startsWith(kind.other)) return kind.wrong;
  return kind.form;
}
