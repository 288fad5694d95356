// Units: what the public sees of one, its status, closure and place, permits for it, and its removal.

import { el, link } from '../shared/dom.js';
import { checkField, choiceField, dayField, textField } from '../shared/fields.js';
import { commandForm } from '../shared/form.js';
import { numberOf } from '../shared/numbers.js';
import { go } from '../shared/router.js';
import { headLine } from '../shared/heads.js';
import { counted, phrase, text } from '../shared/language.js';
import { fonds, move, setClosure, setStatus, unit as askUnit } from '../shared/routes.js';
import { readFonds, readHead, readPage } from '../shared/texts.js';
import { askIfPast } from './days.js';
import { lookAtUnit } from './looks.js';
import { card, heldContainer, lookUp, notDone, problem, said, unitLink } from './parts.js';
import { permitForm, permitList } from './permits.js';
import { removeForm } from './removal.js';
import { may } from './signed_in.js';
import { boxesOf, NO_UNIT, unitField, unitLine, unitMeant, unitNamed } from './unit_field.js';

export async function unitsPage(number) {
  const field = textField('unit', text('Unit'), { hint: text('Its reference code, its number, or words of its title.'), maxlength: 200 });
  const look = lookUp(field, text('Open the unit'), (typed) => go(numberOf(typed) ? `#/units/${numberOf(typed)}` : `#/find/${encodeURIComponent(typed.trim())}`));
  if (!number) return { title: text('Units'), focus: field.querySelector('input'), content: [el('h1', {}, text('Units')), look, await tops()] };
  const page = el('div', { role: 'region', 'aria-label': text('What the public sees'), tabindex: 0 });
  const view = { number, head: el('div', {}), page };
  const boxes = el('div', {});
  unitMeant(number).then((unit) => boxes.replaceChildren(...(unit ? boxesOf(unit) : [])));
  await show(view);
  return { title: text('Unit {unit}', { unit: number }), content: [
    el('h1', {}, text('Unit {unit}', { unit: number })), view.head, boxes,
    el('div', { class: 'cards' }, may('archivist') && changes(view), card(text('Another unit'), look)),
    el('h2', {}, text('What the public sees')), view.page,
  ] };
}

const changes = (view) => [
  card(text('Status'), statusForm(view)), card(text('Closure'), closureForm(view), endForm(view)),
  card(text('Move'), moveForm(view), topForm(view)),
  card(text('Remove'), removeForm(view.number, () => show(view))),
  card(text('Permits'), permitForm(view.number), permitList(view.number)),
];

async function show(view) {
  const answer = await askUnit(view.number);
  view.head.replaceChildren(...(answer.ok ? [headLine(readPage(answer.value).head, 'p'), stateOf(answer.value)] : [nothing(answer)]));
  if (answer.kind === 'missing') view.head.append(...await unitLine(view.number));
  view.page.replaceChildren(answer.ok
    ? el('pre', { class: 'page' }, pageLines(answer.value)) : el('p', { class: 'quiet' }, text('Nothing.')));
}

/** The status and the closure of a unit that the public sees. Of others the office tells nothing. */
function stateOf(page) {
  const [, until] = /^closed until (\d{4}-\d{2}-\d{2})$/.exec(readHead(readPage(page).head)?.title ?? '') ?? [];
  const isClosed = until && page.split('\n').length === 2; // an open one may have this title, but has no such page
  return el('p', { class: 'state' }, isClosed
    ? phrase('Published, and closed until {until}.', { until: el('span', { class: 'whole' }, until) }) : text('Published and open.'));
}

/** The page to the letter, where the units right below are links to their pages here. */
function pageLines(page) {
  const { units } = readPage(page);
  const list = units.map(({ number, rest }) => `  Unit ${number}: ${rest}\n`).join('');
  if (!page.endsWith(list)) return page;
  return [page.slice(0, page.length - list.length), ...units.flatMap(({ number, rest }) =>
    [`  Unit ${number}: `, link(`#/units/${number}`, rest), '\n'])];
}

/** Units that the public sees, as links to their pages here. */
function unitList(units) {
  const shown = units.filter(({ number }) => number !== null);
  return shown.length > 0 && el('ul', { class: 'lower' }, shown.map(({ number, rest }) =>
    el('li', {},
      phrase('{head} (unit {unit})', { head: link(`#/units/${number}`, headLine(rest)), unit: number }))));
}

async function tops() {
  const answer = await fonds();
  if (!answer.ok) return problem(answer);
  return [el('h2', {}, text('Top units that the public sees')), unitList(readFonds(answer.value)) || el('p', {}, text('None yet.'))];
}

function nothing(answer) {
  if (answer.kind !== 'missing') return problem(answer);
  return el('p', { class: 'quiet' }, text('Nothing: it is a draft, lies below a draft or a closed unit, or there is no unit with this number.'));
}

function change(view, parts) {
  return commandForm({
    ...parts, key: `${parts.key} ${view.number}`, explain: notDone, help: heldContainer, look: () => lookAtUnit(view.number),
    done: async (value, values) => { await show(view); return said(...parts.done(value, values)); },
  });
}

function statusForm(view) {
  return change(view, {
    fields: [choiceField('status', text('Set it to'), [['published', text('Published')], ['draft', text('Draft')]]),
      checkField('branch', text('With everything below it'))],
    key: 'status of', button: text('Set the status'),
    send: ({ status, branch }) => setStatus(view.number, status, branch !== undefined),
    done: ({ units }, { status }) => [status === 'published'
      ? counted(units, '{number} unit was set to published.', '{number} units were set to published.')
      : counted(units, '{number} unit was set to draft.', '{number} units were set to draft.')],
  });
}

function closureForm(view) {
  return change(view, {
    fields: [dayField('until', text('Closed until'), { hint: text('It opens on that day.') })],
    key: 'closure of', button: text('Set the closure'),
    before: ({ until }) => askIfPast(until, text('A unit that is closed until a past day is open.')),
    send: ({ until }) => setClosure(view.number, until),
    done: (value, { until }) => phrase('Closed until {until}.', { until }),
  });
}

/** A button of its own: a field that was left empty by mistake must not open what is closed. */
const endForm = (view) => change(view, {
  key: 'end of closure of', button: text('End the closure'), kind: 'plain', send: () => setClosure(view.number, null),
  done: () => [text('No longer closed.')],
});

function moveForm(view) {
  return change(view, {
    fields: unitField('parent', text('Below which unit'),
      text('Its reference code or its number. The unit becomes the last one there, with everything below it.')),
    key: 'move of', button: text('Move'),
    before: async ({ parent }) => ((view.parent = await unitNamed(parent)) === null ? NO_UNIT : null),
    send: () => move(view.number, view.parent),
    done: () => phrase('It is now the last below {unit}.', { unit: unitLink(view.parent) }),
  });
}

const topForm = (view) => change(view, {
  key: 'top of', button: text('Make it a top unit'), kind: 'plain', send: () => move(view.number, null),
  done: () => [text('It is now the last of the top units.')],
});
