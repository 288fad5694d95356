// The reader at the counter: the name, the seat, the containers in hand, and those that are ready at the desk.

import { el, words } from '../shared/dom.js';
import { phrase, text } from '../shared/language.js';
import { queue } from '../shared/routes.js';
import { boxLink, readCard } from './names.js';
import { problem } from './parts.js';

let turn = 0;

export async function showReader(place, ticket) {
  const mine = ++turn;
  place.replaceChildren();
  if (ticket === null) return;
  const answer = await readCard(ticket);
  const shown = answer.ok ? await summary(answer.value) : [none(answer)];
  if (mine === turn) place.replaceChildren(...shown);
}

function none(answer) {
  return answer.kind === 'missing' ? el('p', {}, text('There is no ticket with this number.')) : problem(answer);
}

async function summary({ name, seat, until, orders }) {
  const ready = await readyFor(orders);
  const inHand = orders.filter((order) => order.state === 'out');
  return [
    el('p', {}, seat === null ? phrase('{name}, no seat yet, ticket good until {until}.', { name: words(name, 'strong'), until })
      : phrase('{name}, seat {seat}, ticket good until {until}.', { name: words(name, 'strong'), seat, until })),
    inHand.length > 0 && el('p', {}, phrase('Has now: {containers}.', { containers: listed(inHand) })),
    el('p', {}, ready.length > 0 ? phrase('Ready at the desk: {containers}.', { containers: listed(ready) })
      : text('Nothing is ready at the desk for this reader.')),
  ].filter(Boolean);
}

/** Links to the containers, with what parts them in the language. */
const listed = (orders) => orders.map(({ container }) => boxLink(container)).reduce((list, last) => phrase('{list}; {last}', { list, last }));

/** The orders whose container is at the desk and whose reader is the first who waits. */
async function readyFor(orders) {
  const waiting = orders.filter((order) => order.state === 'waiting');
  const boxes = await Promise.all(waiting.map(({ container }) => queue(container)));
  return waiting.filter(({ order }, place) => {
    const box = boxes[place];
    return box.ok && box.value.place === 'desk' && box.value.waiting[0]?.order === order;
  });
}
