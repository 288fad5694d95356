// The fields of forms: each is one row with its label, its input and, if it has one, its hint.

import { el } from './dom.js';
import { text } from './language.js';
import { TYPED } from './numbers.js';

let last = 0;

export function numberField(name, label, { hint, value = '', required = true } = {}) {
  return field(label, hint, el('input', {
    name, value, required, type: 'text', inputmode: 'numeric', autocomplete: 'off', maxlength: 32,
    pattern: TYPED, title: text('A number above 0, in digits alone'), class: 'short',
  }));
}

export function dayField(name, label, { hint, value = '', required = true } = {}) {
  return field(label, hint, el('input', { name, value, required, type: 'date', min: '1900-01-01', max: '9999-12-31' }));
}

export function textField(name, label, { hint, value = '', pattern, title, maxlength, required = true, type = 'text' } = {}) {
  return field(label, hint, el('input', { name, value, required, type, autocomplete: 'off', pattern, title, maxlength }));
}

export function fileField(name, label, { hint, accept } = {}) {
  return field(label, hint, el('input', { name, required: true, type: 'file', accept }));
}

export function checkField(name, label) {
  const id = `field-${++last}`;
  return el('p', { class: 'field check' }, el('input', { id, name, type: 'checkbox' }), el('label', { for: id }, label));
}

/** choices: [value, label] pairs; none is chosen at first, so that nobody sends one by mistake. */
export function choiceField(name, legend, choices) {
  return el('fieldset', { class: 'field' }, el('legend', {}, legend),
    choices.map(([value, label]) => choice(name, value, label)));
}

/** A list of which one is always chosen. choices: [value, label] pairs. */
export function selectField(name, label, choices) {
  return field(label, undefined, el('select', { name }, choices.map(([value, text]) => el('option', { value }, text))));
}

function choice(name, value, label) {
  const id = `field-${++last}`;
  return el('p', { class: 'check' },
    el('input', { id, name, value, type: 'radio', required: true }), el('label', { for: id }, label));
}

function field(label, hint, input) {
  const id = `field-${++last}`;
  input.id = id;
  if (hint) input.setAttribute('aria-describedby', `${id}-hint`);
  return el('p', { class: 'field' }, el('label', { for: id }, label), input,
    hint && el('span', { class: 'hint', id: `${id}-hint` }, hint));
}
