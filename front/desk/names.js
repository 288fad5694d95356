// Names beside numbers, and the readers' cards that were read. The program answers one card and one container at a time, so
// each answer is kept: cards in the tab until it is closed or somebody signs out, also when the page is loaded again. Tickets
// and containers keep their names.

import { el, link, words } from '../shared/dom.js';
import { queue, reader } from '../shared/routes.js';
import { askEach, lastNumber } from '../shared/asking.js';
import { text } from '../shared/language.js';
import { keep, kept } from './kept.js';

const CARDS = 'cards';
const SAVED = 20_000; // the most cards that are kept in the tab

/** Seats are not kept: they change through the day. */
const savedCards = () => kept(CARDS, []).map(([ticket, name, until, orders]) => [ticket, { ticket, name, until, orders }]);

const cards = new Map(savedCards()); // by ticket, as they were when they were read
const containers = new Map();

export const knownCards = () => cards;

async function readerName(ticket) {
  return cards.get(ticket)?.name ?? (await readCard(ticket)).value?.name ?? null;
}

export async function containerName(container) {
  if (!containers.has(container)) {
    const answer = await queue(container);
    if (!answer.ok) return null;
    containers.set(container, answer.value.name);
  }
  return containers.get(container);
}

/** A link to a reader's card, with the name as soon as it is known. */
export const readerLink = (ticket) => named(`#/readers/${ticket}`, text('ticket {ticket}', { ticket }), readerName(Number(ticket)));

/** A link to a container, with its name as soon as it is known. */
export const boxLink = (container) =>
  named(`#/counter/${container}`, text('container {number}', { number: container }), containerName(Number(container)));

function named(hash, number, promised) {
  const name = el('span', {});
  const whole = link(hash, name, number);
  promised.then((found) => found !== null && name.replaceChildren(words(found), ', '));
  return whole;
}

/** A reader's name as soon as it is known. */
export function readerWords(ticket, tag) {
  const name = el(tag, {});
  readerName(Number(ticket)).then((found) => found !== null && name.replaceChildren(words(found)));
  return name;
}

/** The newest ticket's number, 0 if there is none, null if the office does not answer. */
export async function newestTicket() {
  const known = Math.max(0, ...cards.keys());
  const later = await lastNumber((number) => readCard(known + number));
  return later === null ? null : known + later;
}

/** A reader's card, as it is now. */
export async function readCard(ticket) {
  const answer = await reader(ticket);
  if (answer.ok) cards.set(Number(ticket), answer.value);
  return answer;
}

/** Asks for the cards that are not known yet, the newest first; tell(done, all) returns false to end it. */
export async function readCards(newest, tell) {
  const unknown = [];
  for (let ticket = newest; ticket >= 1; ticket -= 1) if (!cards.has(ticket)) unknown.push(ticket);
  let done = 0;
  const whole = await askEach(unknown, readCard, (ticket, answer) =>
    (answer.kind === 'silent' ? false : tell(++done, unknown.length)));
  if (unknown.length > 0) saveCards();
  return whole;
}

export function saveCards() {
  const newest = [...cards].sort(([a], [b]) => a - b).slice(-SAVED);
  keep(CARDS, newest.map(([ticket, { name, until, orders }]) => [ticket, name, until, orders]));
}
