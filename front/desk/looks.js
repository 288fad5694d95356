// Where to look after an answer that leaves open whether a command was done. Each function promises the present state, or
// null if it cannot be read.

import { lastNumber } from '../shared/asking.js';
import { el, words } from '../shared/dom.js';
import { phrase, text } from '../shared/language.js';
import { permits, queue, reader, slip, unit } from '../shared/routes.js';
import { newestTicket, readerLink } from './names.js';

const NEWEST = 5; // the most tickets that are listed

const line = (...children) => el('p', {}, ...children);

/** `missing` is an answer too: there is no such thing. */
async function shown(promised, show, missing) {
  const answer = await promised;
  if (answer.ok) return show(answer.value);
  return answer.kind === 'missing' ? line(missing) : null;
}

export const lookAtContainer = (container) => shown(queue(container), placeOf, text('There is no container with this number.'));

export const lookAtReader = (ticket) => shown(reader(ticket), cardLines, text('There is no ticket with this number.'));

export const lookAtPermits = (ticket) => shown(permits(ticket), permitLines, text('There is no ticket with this number.'));

export const lookAtUnit = (number) => shown(unit(number), (page) => [line(text('The public sees now:')), el('pre', { class: 'page' }, page)],
  text('The public sees nothing of this unit now: it is a draft, lies below a draft or a closed unit, or is not there.'));

export async function lookAtNewestTicket() {
  const newest = await newestTicket();
  if (newest === null) return null;
  if (newest === 0) return line(text('No ticket has been given yet.'));
  const tickets = Array.from({ length: Math.min(newest, NEWEST) }, (_, place) => newest - place);
  const cards = await Promise.all(tickets.map((ticket) => reader(ticket)));
  if (cards.some((answer) => !answer.ok)) return null;
  return [line(text('The newest tickets:')),
    el('ul', {}, cards.map(({ value }) => el('li', {},
      phrase('{reader}, good until {until}', { reader: readerLink(value.ticket), until: value.until })))),
    line(text('If one of them is the one that you asked for, the registration was done.'))];
}

export async function lookAtNewestRun() {
  const newest = await lastNumber(slip);
  if (newest === null) return null;
  if (newest === 0) return line(text('There has been no run yet.'));
  const answer = await slip(newest);
  return answer.ok ? [line(text('The newest run is run {run}. If you have not seen its slip before, the run was done:', { run: newest })),
    el('pre', { class: 'page' }, answer.value)] : null;
}

/** If no question can show it, giving the command again shows it and does no harm. */
export const onceMore = (sign) => async () => line(
  text('No page can show this. Open the form and do the same once more, which does no harm: {sign}', { sign }));

function placeOf(box) {
  const place = { shelf: text('on its shelf'), desk: text('at the desk'), out: text('out with order {order}', { order: box.out }) }[box.place];
  const waiting = box.waiting.map(({ order, ticket }) => text('{order} (ticket {ticket})', { order, ticket })).join(', ') || text('none');
  return line(phrase('Container {number}, {name}, is {place}. Orders that wait for it: {waiting}.',
    { number: box.container, name: words(box.name), place, waiting }));
}

function cardLines({ name, ticket, until, seat, orders }) {
  const list = orders.map(({ order, container, state }) =>
    text('{order} (container {container}, {state})', { order, container, state: text(state) })).join(', ') || text('none');
  return line(phrase('{name}, ticket {ticket}, good until {until}.', { name: words(name), ticket, until }), ' ',
    seat === null ? text('No seat.') : text('Seat {seat}.', { seat }), ' ', text('Orders: {list}.', { list }));
}

function permitLines(permitted) {
  const list = permitted.map(({ unit: number, until }) => text('unit {unit} until {until}', { unit: number, until })).join(', ') || text('none');
  return line(text('Permits: {list}.', { list }));
}
