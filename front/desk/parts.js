// What several pages of the desk use.

import { el, link } from '../shared/dom.js';
import { commandForm, note } from '../shared/form.js';
import { phrase, text } from '../shared/language.js';
import { deskWords } from '../shared/refusals.js';
import { STAYED } from './sure.js';

export const containerLink = (container) => link(`#/counter/${container}`, text('container {number}', { number: container }));
export const runLink = (run) => link(`#/runs/${run}`, text('run {run}', { run }));
export const unitLink = (unit) => link(`#/units/${unit}`, text('unit {unit}', { unit }));

export const said = (...children) => el('p', {}, el('strong', {}, ...children));

/** What a refusal means, or that somebody decided not to go on. */
export const notDone = (answer, command) => (answer === STAYED ? [text('Nothing was done.'), ''] : deskWords(answer, command));

let last = 0;

/** A part of a page with its heading, so that a screen reader can find it. */
export function card(title, ...children) {
  const id = `card-${++last}`;
  return el('section', { class: 'card', 'aria-labelledby': id }, el('h2', { id }, title), children);
}

/** In place of what could not be shown. */
export function problem(answer) {
  const [means, todo] = deskWords(answer);
  return note('refused', el('p', {}, el('strong', {}, means), ' ', todo));
}

/** Below a refusal that names a container: the way to it. */
export function heldContainer(answer) {
  return answer.refused === 'WithReader'
    ? el('p', {}, phrase('Its page at the counter: {container}.', { container: containerLink(answer.container) })) : null;
}

/** A button in a row of a table: `what` is what it is for, which only a screen reader says. */
export const rowForm = ({ button, what, ...parts }) => commandForm({
  ...parts, button: [`${button} `, el('span', { class: 'unseen' }, what)], kind: 'plain small', explain: deskWords });

/** A form that looks something up: it changes nothing, so it may be sent any number of times. */
export function lookUp(field, button, then) {
  const form = el('form', { class: 'look' }, field,
    el('p', { class: 'buttons' }, el('button', { type: 'submit', class: 'plain' }, button)));
  form.addEventListener('submit', (event) => {
    event.preventDefault();
    then(form.querySelector('input').value);
  });
  return form;
}
