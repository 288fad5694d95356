// What never ends by itself: orders that wait long, and boxes that stand at the desk for nobody. Both come from the lists of
// the night; what is ticked is cancelled, or goes back to its shelf.

import { el, link, table, words } from '../shared/dom.js';
import { numberField } from '../shared/fields.js';
import { commandForm } from '../shared/form.js';
import { counted, named, phrase, text, textAs, written } from '../shared/language.js';
import { numberOf } from '../shared/numbers.js';
import { deskWords } from '../shared/refusals.js';
import { cancel, queue, reshelve } from '../shared/routes.js';
import { asOf } from './days.js';
import { onceMore } from './looks.js';
import { nightList } from './night_lists.js';
import { card, notDone } from './parts.js';
import { shelfList } from './shelf_list.js';
import { isSure, STAYED } from './sure.js';
import { forgetWaiting } from './waiting.js';

const DAYS = 30; // how old what is listed is at least, unless somebody wants otherwise
const NOT_WAITING = 'OrderNotWaiting';
const NOTHING_TO_MOVE = 'NothingToMove';

const PLACES = { 'on its shelf': text('on its shelf'), 'at the desk': text('at the desk'), out: text('out') };

const ORDERS = {
  list: 'long-waiting', key: 'old orders', caption: text('Orders that wait long'), button: text('Cancel what is ticked'),
  heads: [textAs('noun', 'Order'), text('Ordered on'), text('Days'), text('Reader'), text('Container'), text('Where it is')],
  least: text('Waiting for at least so many days'),
  cells: (row) => [el('span', { class: 'whole' }, row['Ordered on']), row.Days,
    link(`#/readers/${row.Ticket}`, phrase('{name}, ticket {ticket}', { name: words(row.Reader), ticket: row.Ticket })),
    link(`#/counter/${row.Container}`, phrase('{name}, container {container}', { name: words(row.Name), container: row.Container })),
    PLACES[row.Where] ?? row.Where],
  number: (row) => row.Order, name: (row) => text('Order {order}', { order: row.Order }),
  many: (number) => counted(number, '{number} order', '{number} orders'),
  sure: text('Each ticked order is cancelled. Who still wants the box has to order it again.'), end: cancelEach,
};
const BOXES = {
  list: 'idle', key: 'idle boxes', caption: text('Boxes at the desk that nobody has asked for'), button: text('Take back what is ticked'),
  heads: [text('Container'), text('Name'), text('Location'), text('Last ordered on'), text('Days'), text('Orders that wait')],
  least: text('Not asked for in so many days'),
  cells: (row) => [link(`#/counter/${row.Container}`, words(row.Name)), words(row.Location), el('span', { class: 'whole' }, row['Last ordered on']),
    row.Days, row['Orders that wait']],
  number: (row) => row.Container, name: (row) => text('Container {container}', { container: row.Container }),
  many: (number) => counted(number, '{number} box', '{number} boxes'),
  sure: text('The orders that still wait for these boxes are cancelled, and then everything at the desk that nobody is waiting for '
    + 'goes back to its shelf.'),
  end: takeBackEach,
};

export async function oldPage() {
  const [orders, boxes] = [await nightList(ORDERS.list), await nightList(BOXES.list)];
  return { title: text('Old orders'), content: [
    el('h1', {}, text('Old orders')),
    el('p', { class: 'quiet' }, orders ? `${text('From the lists of the night.')} ${asOf(orders.made)}`
      : text('Each night’s backup makes these lists.')),
    card(ORDERS.caption, orders ? listForm(ORDERS, orders.rows) : el('p', {}, text('This list is not there yet.'))),
    card(BOXES.caption, boxes ? listForm(BOXES, boxes.rows) : el('p', {}, text('This list is not there yet.'))),
  ] };
}

/** A list of what is so many days old, with boxes to tick and one button. */
function listForm(kind, all) {
  const days = numberField('days', kind.least, { value: String(DAYS) });
  const list = el('div', {});
  const view = { kind, all, list, gone: new Set(), days: days.querySelector('input') };
  days.addEventListener('input', () => showRows(view));
  const form = commandForm({
    key: kind.key, fields: [days, list], button: kind.button,
    before: (values) => askFirst(kind, ticked(values)),
    send: (values) => kind.end(ticked(values), view),
    done: (ended) => { forgetWaiting(); showRows(view); return report(ended); },
    explain: (answer) => (answer === NOTHING_TICKED ? [text('Nothing is ticked.'), text('Tick what is to end.')] : notDone(answer)),
    look: onceMore(text('what has been cancelled is told as “no longer waiting”.')),
  });
  showRows(view);
  return form;
}

function showRows(view) {
  const least = Number(numberOf(view.days.value) ?? 0);
  const rows = view.all.filter((row) => Number(row.Days) >= least && !view.gone.has(view.kind.number(row)));
  const shown = rows.map((row) => [tickBox(view.kind, view.kind.number(row), view.kind.name(row)), ...view.kind.cells(row)]);
  view.list.replaceChildren(rows.length === 0 ? el('p', {}, text('None.')) : el('div', {}, allButton(view.list),
    table(named(view.kind.caption, written(rows.length)), view.kind.heads, shown)));
}

function tickBox(kind, number, name) {
  const id = `${kind.list}-${number}`;
  return el('span', { class: 'tick' }, el('input', { id, type: 'checkbox', name: `tick-${number}` }), el('label', { for: id }, name));
}

function allButton(list) {
  const tickAll = () => { for (const box of list.querySelectorAll('input[type=checkbox]')) box.checked = true; };
  return el('p', { class: 'buttons' }, el('button', { type: 'button', class: 'plain small', click: tickAll }, text('Tick all')));
}

const ticked = (values) => Object.keys(values).filter((name) => name.startsWith('tick-')).map((name) => name.slice(5));

const NOTHING_TICKED = { ok: false };

async function askFirst(kind, numbers) {
  if (numbers.length === 0) return NOTHING_TICKED;
  const many = kind.many(numbers.length);
  const content = el('p', {}, kind.sure);
  const title = text('{what}: {many}?', { what: kind.button, many });
  return await isSure({ title, stay: text('Leave them'), go: text('Yes, {many}', { many }), content }) ? null : STAYED;
}

/** Cancels these orders one after the other: { ok: true, value: lines }, or the first answer that leaves open what was done. */
async function cancelEach(orders, view) {
  const lines = [];
  for (const order of orders) {
    const answer = await cancel(order);
    if (!answer.ok && answer.kind !== 'refused') return answer;
    if (answer.ok || answer.refused === NOT_WAITING) view.gone.add(order);
    lines.push(answer.ok ? text('Order {order} is cancelled.', { order }) : named(text('Order {order}', { order }), deskWords(answer)[0]));
  }
  return { ok: true, value: lines };
}

/** Cancels what waits for these boxes, and reshelves. A box that somebody has ordered since the night stays. */
async function takeBackEach(boxes, view) {
  const newest = new Map(view.all.map((row) => [row.Container, Number(row['Newest order'])]));
  const lines = [];
  for (const box of boxes) {
    const answer = await endOrders(box, newest.get(box));
    if (!answer.ok) return answer;
    if (answer.value === '') view.gone.add(box);
    else lines.push(answer.value);
  }
  const answer = await reshelve();
  if (!answer.ok && answer.refused !== NOTHING_TO_MOVE) return answer;
  return { ok: true, value: [...lines, answer.ok ? await shelfList(answer.value.containers) : text('Nothing goes back.')] };
}

/** Cancels the orders that wait for a box, up to the newest that the night knew. The value says why a box stays, if it does. */
async function endOrders(box, newest) {
  const answer = await queue(box);
  if (answer.kind === 'missing') return { ok: true, value: text('There is no container with this number.') };
  if (!answer.ok) return answer;
  const names = { container: box };
  if (answer.value.place !== 'desk') return { ok: true, value: text('Container {container} is no longer at the desk.', names) };
  if (answer.value.waiting.some(({ order }) => order > newest)) {
    return { ok: true, value: text('Container {container} stays: it was ordered since the night.', names) };
  }
  for (const { order } of answer.value.waiting) {
    const ended = await cancel(order);
    if (!ended.ok && ended.refused !== NOT_WAITING) return ended;
  }
  return { ok: true, value: '' };
}

const report = (lines) => lines.map((line) => (typeof line === 'string' ? el('p', {}, line) : line));
