// What orders a box: a field that takes its number, its code or the reference code of the unit that is wanted, and says what in
// the box is not open to everybody, as the copy of the night has it. Which unit was wanted is told with the order.

import { el, link } from '../shared/dom.js';
import { counted, text } from '../shared/language.js';
import { order } from '../shared/routes.js';
import { boxesInCopy, tellOrdered } from './night_copy.js';
import { boxField, boxOf } from './scans.js';
import { boxesOf, unitMeant, unitState, unitWords } from './unit_field.js';

const NO_BOX = { ok: false, kind: 'refused', refused: 'UnknownContainer' };
const ANY = '(?!\\s*[Tt]\\s*[0-9]+\\s*$).*\\S.*'; // but the code of a ticket

/** The fields of an order, what finds its box before it is sent, what sends it for a ticket, and which box it then is for. */
export function boxOrder() {
  const row = boxField({ hint: text('Its number or barcode, or the reference code of what is wanted.') });
  const input = row.querySelector('input');
  Object.assign(input, { pattern: ANY, inputMode: 'text', maxLength: 200, className: '' });
  const told = el('div', { class: 'about', role: 'status' });
  const meant = { box: null, unit: null };
  input.addEventListener('change', async () => {
    const typed = input.value;
    input.form.addEventListener('reset', () => { meant.unit = null; told.replaceChildren(); }, { once: true });
    await find(meant, typed);
    const lines = [...aboutUnit(meant), ...await notOpenIn(meant.box)];
    if (input.value === typed) told.replaceChildren(...lines);
  });
  return {
    fields: [row, told], box: () => meant.box,
    before: async ({ container }) => ((await find(meant, container)) === null ? NO_BOX : null),
    send: (ticket) => orderBox(ticket, meant),
  };
}

/** The box that was meant: that of the number or, of a unit with one box alone, the unit's. A number of one of the boxes of the
 * unit that was typed before is for that unit. */
async function find(meant, typed) {
  const number = boxOf(typed);
  if (number === null) meant.unit = typed.trim() === '' ? null : await unitMeant(typed);
  else if (!meant.unit?.boxes.some(({ container }) => container === Number(number))) meant.unit = null;
  const boxes = meant.unit?.boxes ?? [];
  meant.box = number ?? (boxes.length === 1 ? String(boxes[0].container) : null);
  return meant.box;
}

const SEVERAL = text('It is in several containers. Type the number of one:');

const aboutUnit = ({ unit }) => (unit ? [el('p', {}, unitWords(unit), ' ', unitState(unit)), ...boxesOf(unit, SEVERAL)] : []);

/** Orders a box, for a unit if that is known, and tells what was wanted, or why it was refused. */
export async function orderBox(ticket, { box, unit = null }) {
  const answer = await order(ticket, box);
  if (answer.ok && unit) tellOrdered([[answer.value.order, ticket, box, unit.unit].map(Number)], []);
  else if (answer.kind === 'refused') tellOrdered([], [[Number(box), answer.refused]]);
  return answer;
}

/** What in a box is a draft or closed; nothing if all is open, or if nobody can tell. */
export async function notOpenIn(container) {
  const answer = container === null ? { ok: false } : await boxesInCopy([container]);
  const [box] = answer.ok ? answer.value.boxes : [];
  return box && box.withheld.length > 0 ? [
    el('p', {}, text('Not open to everybody in this box:')),
    el('ul', { class: 'lower' }, box.withheld.map((unit) => el('li', {},
      link(`#/units/${unit.unit}`, unitWords(unit)), ' ', unitState(unit)))),
    box.more > 0 && el('p', {}, counted(box.more, 'And {number} more unit.', 'And {number} more units.')),
    el('p', { class: 'quiet' }, text('The office refuses an order if there is a draft, or a closed unit without a permit for this reader.'), ' ',
      text('As of the copy of {time}.', { time: answer.value.copy })),
  ].filter(Boolean) : [];
}
