// Every order that waits, gathered from the readers' cards, with the place of its container and, as far as it can be known,
// why no run has fetched it. What was read is kept in the tab.

import { el, printButton, table } from '../shared/dom.js';
import { askEach } from '../shared/asking.js';
import { note } from '../shared/form.js';
import { counted, phrase, text, textAs, written } from '../shared/language.js';
import { cancel, queue } from '../shared/routes.js';
import { asOf, newestRun } from './days.js';
import { keep, kept } from './kept.js';
import { lookAtReader } from './looks.js';
import { boxLink, knownCards, newestTicket, readCard, readerLink, saveCards } from './names.js';
import { paced, progress } from './pace.js';
import { card, rowForm, runLink, said } from './parts.js';
import { wantedOf } from './wanted.js';

const FEW = 200; // up to so many cards are asked for without a press of the button

const LIST = 'what waits';

let last = savedList(); // what was gathered last: { orders, places, run, moment, skipped }
let isOld = true; // whether that was before this page was loaded

function savedList() {
  const list = kept(LIST, null);
  return list && { ...list, places: new Map(list.places), moment: new Date(list.moment) };
}

function saveList() {
  keep(LIST, last && { ...last, places: [...last.places] });
}

/** After a run the list is gathered again when it is next shown. */
export function forgetWaiting() {
  last = null;
  saveList();
}

export function waitingList() {
  const told = el('p', { class: 'told', role: 'status' });
  const list = el('div', {});
  const view = { told, list, buttons: [], done: el('div', { role: 'status' }) };
  const button = (name, all) =>
    el('button', { type: 'button', class: 'plain', click: () => gather(view, Infinity, all) }, name);
  view.buttons = [button(text('Show what waits now'), false), button(text('Read every card again'), true)];
  if (last) showGathered(view, last);
  if (!last || isOld) gather(view, FEW, false);
  return card(text('What waits'), el('p', { class: 'quiet' }, text('Gathered from the readers’ cards.')),
    el('p', { class: 'buttons no-print' }, view.buttons), view.done, told, list);
}

async function gather(view, most, all) {
  if (view.buttons[0].getAttribute('aria-disabled') === 'true') return;
  for (const button of view.buttons) button.setAttribute('aria-disabled', 'true');
  await gatherNow(view, most, all);
  for (const button of view.buttons) button.removeAttribute('aria-disabled');
}

async function gatherNow(view, most, all) {
  const tell = (told) => { view.told.textContent = told; };
  tell(text('Asking the office …'));
  const [newest, run] = [await newestTicket(), await newestRun()];
  if (newest === null || run === null) return tell(text('The office did not answer. Try again in a minute.'));
  const tickets = ticketsToRead(newest, all ? null : run.day);
  const many = text('There are {number} cards to ask for, which takes a while.', { number: written(tickets.length) });
  if (tickets.length > most) return last ? showGathered(view, last) : tell(many);
  if (!await readThese(tickets, view, run)) return tell(text('The office stopped answering. Try again in a minute.'));
  const orders = waitingOrders();
  last = { orders, places: await placesOf(orders), run, moment: new Date(), skipped: newest - tickets.length };
  isOld = false;
  saveCards();
  saveList();
  return showGathered(view, last);
}

/** The cards that can have changed: a ticket that had expired before the newest run, and has no order, can place none. */
function ticketsToRead(newest, day) {
  const isQuiet = (known) => known && day && known.until < day && known.orders.length === 0;
  return Array.from({ length: newest }, (_, place) => place + 1).filter((ticket) => !isQuiet(knownCards().get(ticket)));
}

/** Reads the cards and shows what is found as it comes; false if a card was not answered: an incomplete list would mislead. */
async function readThese(tickets, view, run) {
  let done = 0;
  const show = paced(() => {
    view.told.textContent = progress(done, tickets.length);
    showOrders(view, waitingOrders(), new Map(), run);
  });
  return askEach(tickets, readCard, (ticket, answer) => {
    if (!answer.ok) return false;
    done += 1;
    show();
    return view.told.isConnected || done < 10;
  });
}

function waitingOrders() {
  const found = [...knownCards()].flatMap(([ticket, { orders }]) => orders.filter(({ state }) => state === 'waiting')
    .map((order) => ({ ...order, ticket })));
  return found.sort((a, b) => a.order - b.order);
}

async function placesOf(orders) {
  const places = new Map();
  await askEach([...new Set(orders.map((order) => order.container))], queue, (container, answer) => {
    if (answer.ok) places.set(container, answer.value);
  });
  return places;
}

function showGathered(view, { orders, places, run, moment, skipped }) {
  const few = orders.length === 0 ? text('No order is waiting.') : counted(orders.length, '{number} order waits.', '{number} orders wait.');
  const old = counted(skipped, 'Not read again: {number} expired ticket without an order.',
    'Not read again: {number} expired tickets without an order.');
  view.told.textContent = `${few} ${asOf(moment)}${skipped > 0 ? ` ${old}` : ''}`;
  showOrders(view, orders, places, run, wantedOf(orders));
}

function showOrders(view, orders, places, run, wanted = () => '') {
  const rows = orders.map((order) => [String(order.order), [boxLink(order.container), wanted(order)], readerLink(order.ticket),
    whereFor(order, places.get(order.container), run), places.size > 0 && cancelForm(view, order)]);
  view.list.replaceChildren(...(rows.length === 0 ? [] : [
    table(text('Orders that wait, the oldest first'), [textAs('noun', 'Order'), text('Container'), text('Reader'), text('Where it is'),
      text('Cancel')], rows),
    el('p', {}, printButton(text('Print this list')))]));
}

/** An order that is cancelled leaves the list, and the next one may be the first for its container. */
function cancelForm(view, { order, ticket, container }) {
  return rowForm({
    key: `cancel ${order}`, button: text('Cancel'), what: text('order {order}', { order }),
    send: () => cancel(order), look: () => lookAtReader(ticket),
    done: async () => {
      await readCard(ticket);
      const box = await queue(container);
      if (box.ok) last.places.set(container, box.value);
      last.orders = last.orders.filter((one) => one.order !== order);
      saveCards();
      saveList();
      showGathered(view, last);
      const told = el('div', { tabindex: -1 }, note('done', said(text('Order {order} is cancelled.', { order }))));
      view.done.replaceChildren(told);
      told.focus();
    },
  });
}

function whereFor(order, box, run) {
  if (!box) return '…';
  if (box.place === 'out') return text('out with another reader');
  const isFirst = box.waiting[0]?.order === order.order;
  if (box.place === 'desk') return isFirst ? text('at the desk, ready if it is open to this reader') : text('at the desk, for another reader first');
  if (!isFirst) return text('on its shelf, for another reader first');
  if (!wasPassedOver(order, run)) return text('on its shelf: a run fetches it if it is open to this reader');
  return phrase('on its shelf: {run} passed it over. Probably it is not open to this reader: closed, a draft, or no longer in any unit', {
    run: runLink(run.run) });
}

/** A run takes the oldest orders that it can: what is older than one of them, and still on its shelf, it could not take. */
const wasPassedOver = (order, run) => run.lines.some((line) => Number(line.order) > order.order);
