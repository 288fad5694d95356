// A form that gives one command. It is never sent twice: not while its answer is awaited, not by a key that is held
// down or a second click, and not after an answer that leaves open whether the command was done, until somebody has
// looked.

import { el } from './dom.js';
import { heldValues, keepHeld, releaseHeld } from './held.js';
import { text } from './language.js';

const PAUSE = 600; // milliseconds after an answer in which a repeated command counts as a mistake

/**
 * key: a name that only this form has; fields: rows of fields.js; button: its words; kind: its class;
 * before(values): promises null to go on, or an answer that ends it; send(values): promises an answer of routes.js;
 * done(value, values): promises what to show if it was done; shown(outcome): called when that is shown;
 * explain(answer): two sentences if it was not; help(answer, values, again): more to show then; `again` sends the same;
 * look(values): promises what shows whether it was done, or null if that cannot be read now;
 * focus(form, answer): what gets the focus after an answer (null after success);
 * harmless: giving the command twice does no harm, so the form is never held.
 */
export function commandForm(parts) {
  const press = el('button', { type: 'submit', class: parts.kind ?? '' }, parts.button);
  const outcome = el('div', { class: 'outcome', role: 'status' });
  const form = el('form', { class: 'command' }, parts.fields ?? [], el('p', { class: 'buttons' }, press), outcome);
  const state = { parts, form, press, outcome, busy: false, answered: -PAUSE, last: '' };
  form.addEventListener('keydown', (event) => { stopHeldKey(event); noteMissed(event, state); });
  press.addEventListener('click', stopSecondClick);
  form.addEventListener('submit', (event) => submit(event, state));
  resume(state);
  return form;
}

function stopHeldKey(event) {
  if (event.key === 'Enter' && event.repeat) event.preventDefault();
}

let answered = -PAUSE; // when a command was answered last, whichever form gave it

/** The second of two clicks gives no command: neither the same again, nor that of a button that has appeared there. */
export function stopSecondClick(event) {
  const isSecond = event.detail > 1 || (event.detail > 0 && performance.now() < answered + PAUSE);
  if (isSecond) event.preventDefault();
}

/** A barcode that is scanned while the form waits is not taken, and the clerk must see that. */
function noteMissed(event, state) {
  if (state.busy && /^[0-9]$/.test(event.key)) state.missed = true;
}

async function submit(event, state) {
  event.preventDefault();
  const values = Object.fromEntries(new FormData(state.form));
  if (state.busy || isRepeat(state, values)) return;
  begin(state);
  const ended = await state.parts.before?.(values);
  if (ended) return stop(state, ended, values);
  showWaiting(state);
  const answer = await state.parts.send(values);
  end(state);
  if (answer.ok) return succeed(state, answer.value, values);
  if (answer.kind === 'uncertain' && !state.parts.harmless) return hold(state, answer, values);
  return fail(state, answer, values);
}

function isRepeat(state, values) {
  const now = JSON.stringify(values);
  if (performance.now() < state.answered + PAUSE && now === state.last) return true;
  state.last = now;
  return false;
}

function begin(state) {
  state.missed = false;
  for (const input of state.form.querySelectorAll('[aria-invalid]')) input.removeAttribute('aria-invalid');
  shut(state, true);
  state.outcome.replaceChildren();
}

function showWaiting(state) {
  state.slow = setTimeout(() => state.outcome.replaceChildren(el('p', { class: 'waiting' }, text('Waiting for the office …'))), 400);
}

function stop(state, ended, values) {
  end(state);
  fail(state, ended, values);
}

function end(state) {
  clearTimeout(state.slow);
  answered = state.answered = performance.now();
  shut(state, false);
}

/** While a form is shut its fields take nothing: what a barcode reader types would be added to what is there. */
function shut(state, isShut) {
  state.busy = isShut;
  state.press.setAttribute('aria-disabled', String(isShut));
  for (const input of state.form.querySelectorAll('input')) input.readOnly = isShut;
}

async function succeed(state, value, values) {
  state.form.reset();
  state.parts.focus?.(state.form, null);
  const shown = await whatWasDone(state, value, values);
  if (!shown) return;
  state.outcome.replaceChildren(note('done', [shown, missed(state)]));
  comeIntoView(state);
  state.parts.shown?.(state.outcome);
}

/** An outcome is seen, also where its form ends below the window. */
function comeIntoView(state) {
  state.outcome.scrollIntoView({ block: 'nearest' });
}

/** A page that fails after its command must not hide that it was done. */
async function whatWasDone(state, value, values) {
  try {
    return await state.parts.done(value, values);
  } catch (mistake) {
    console.warn(mistake);
    return el('p', {}, el('strong', {}, text('It was done, but this page cannot show it.')), ' ', text('Load the page again.'));
  }
}

const missed = (state) => state.missed
  && el('p', {}, text('A number was typed or scanned while the office was busy. It was not taken: please do it again.'));

function fail(state, answer, values) {
  state.outcome.replaceChildren(note('refused', [
    refusal(state.parts, answer), state.parts.help?.(answer, values, () => sendAgain(state)), missed(state)]));
  if (state.parts.focus) state.parts.focus(state.form, answer);
  else selectFirst(state.form);
  if (['refused', 'unread'].includes(answer.kind)) markWrong(document.activeElement, state.form);
  comeIntoView(state);
}

/** The field that has the focus after a refusal is marked as wrong until somebody changes it. */
function markWrong(input, form) {
  if (!form.contains(input) || !['text', 'date'].includes(input.type)) return;
  input.setAttribute('aria-invalid', 'true');
  input.addEventListener('input', () => input.removeAttribute('aria-invalid'), { once: true });
}

/** For somebody who has removed the cause of a refusal and sends the same values on purpose. */
function sendAgain(state) {
  state.last = '';
  state.form.requestSubmit();
}

function selectFirst(form) {
  const input = form.querySelector('input') ?? form.querySelector('button[type=submit]');
  input?.focus();
  if (input?.type === 'text') input.select();
}

/** A form that was held when its page was left is held when it is shown again. */
function resume(state) {
  const values = state.parts.key && heldValues(state.parts.key);
  if (!values) return;
  for (const [name, value] of Object.entries(values)) putBack(state.form.elements[name], value);
  hold(state, { ok: false, kind: 'uncertain' }, values);
}

/** A list of choices takes a value as other fields do; a file cannot be put back. */
function putBack(field, value) {
  if (!field || field.type === 'file') return;
  if (field.type === 'checkbox') field.checked = true;
  else field.value = value;
}

/** Nobody can tell whether it was done: the form stays shut until somebody has looked. */
function hold(state, answer, values) {
  shut(state, true);
  if (state.parts.key) keepHeld(state.parts.key, values);
  const seen = el('div', {});
  const look = el('button', { type: 'button', click: () => showWhatIs(state, values, seen) }, text('Look now'));
  state.outcome.replaceChildren(note('refused', [refusal(state.parts, answer), el('p', { class: 'buttons' }, look), seen]));
  look.focus();
}

async function showWhatIs(state, values, seen) {
  seen.replaceChildren(el('p', { class: 'waiting' }, text('Looking …')));
  const what = await (state.parts.look?.(values) ?? null);
  if (what === null) {
    seen.replaceChildren(el('p', {}, text('This cannot be seen now, so the form stays shut. Try again in a minute.')));
    return;
  }
  const done = el('button', { type: 'button', class: 'plain', click: () => release(state, true) }, text('It was done'));
  const undone = el('button', { type: 'button', class: 'plain', click: () => release(state, false) }, text('It was not done: open the form'));
  seen.replaceChildren(el('div', { class: 'seen' }, what), el('p', { class: 'buttons' }, done, undone));
}

function release(state, wasDone) {
  releaseHeld(state.parts.key);
  end(state);
  state.last = '';
  if (wasDone) state.form.reset();
  state.outcome.replaceChildren();
  selectFirst(state.form);
}

function refusal(parts, answer) {
  const [means, todo] = parts.explain(answer);
  return el('p', {}, el('strong', {}, means), ' ', todo);
}

/** A note below a form: `done` or `refused`. */
export function note(kind, content) {
  return el('div', { class: `note ${kind}` }, content);
}
