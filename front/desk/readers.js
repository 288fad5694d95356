// Readers: found by name or number, and registered.

import { el, table, words, link } from '../shared/dom.js';
import { dayField, textField } from '../shared/fields.js';
import { isSameName, partsOf } from '../shared/folding.js';
import { commandForm } from '../shared/form.js';
import { counted, phrase, text, written } from '../shared/language.js';
import { LONGEST_NAME } from '../shared/limits.js';
import { numberOf } from '../shared/numbers.js';
import { go } from '../shared/router.js';
import { register } from '../shared/routes.js';
import { asOf, askIfPast, sureOrStayed } from './days.js';
import { lookAtNewestTicket } from './looks.js';
import { knownCards, newestTicket, readCards, readerLink } from './names.js';
import { findInCopy } from './night_copy.js';
import { suggestedLastDay } from './new_ticket.js';
import { paced, progress } from './pace.js';
import { card, notDone, said } from './parts.js';

const SHOWN = 50; // the most readers that are listed
const LOOKED_AT = 400; // the most cards that are read before a reader is registered
const MOST = 20000; // the most cards that are asked for before somebody must say to go on

export async function readersPage() {
  const until = await suggestedLastDay();
  const field = textField('who', text('Name or ticket number'), { maxlength: LONGEST_NAME, hint: text('Any part of the name will do.') });
  return { title: text('Readers'), focus: field.querySelector('input'), content: [
    el('h1', {}, text('Readers')),
    el('div', { class: 'cards' }, card(text('Find a reader'), findForm(field)), card(text('Register a reader'), registerForm(until))),
  ] };
}

function findForm(field) {
  const told = el('p', { class: 'told', role: 'status' });
  const found = el('div', {});
  const form = el('form', { class: 'find' }, field,
    el('p', { class: 'buttons' }, el('button', { type: 'submit', class: 'plain' }, text('Find'))), told, found);
  form.addEventListener('submit', (event) => {
    event.preventDefault();
    const who = form.elements.who.value;
    const ticket = numberOf(who);
    if (ticket !== null) go(`#/readers/${ticket}`);
    else findByName(form, who, told, found);
  });
  return form;
}

let turn = 0;

/** Names that are known are shown at once, and the others as their cards come. */
async function findByName(form, who, told, found) {
  const mine = ++turn;
  const goesOn = () => mine === turn && form.isConnected;
  const show = (end) => showFound(who, told, found, end);
  show(text('Asking the office for the readers’ cards …'));
  const newest = await newestTicket();
  if (newest === null) return goesOn() && show(text('The office did not answer. Try again in a minute.'));
  const showSome = paced((done, all) => show(progress(done, all)));
  const whole = await readCards(newest, (done, all) => {
    if (goesOn()) showSome(done, all);
    return goesOn() && done < MOST;
  });
  const known = written(knownCards().size);
  if (goesOn()) show(whole ? asOf() : text('The newest {known} cards were searched. Choose Find again to search older ones.', { known }));
}

function showFound(who, told, found, end) {
  const tickets = matching(who);
  const many = counted(tickets.length, '{number} reader with “{who}”.', '{number} readers with “{who}”.', { who: who.trim() });
  told.textContent = `${many} ${end}`;
  found.replaceChildren(...(tickets.length === 0 ? [] : [
    table(text('Readers found'), [text('Name'), text('Ticket')],
      tickets.slice(0, SHOWN).map(([ticket, name]) => [link(`#/readers/${ticket}`, words(name)), String(ticket)])),
    tickets.length > SHOWN ? el('p', {}, more(tickets.length - SHOWN)) : '']));
}

const more = (number) => counted(number, 'And {number} more: type more of the name.', 'And {number} more: type more of the name.');

const namesOf = () => [...knownCards()].map(([ticket, { name }]) => [ticket, name]);

/** The readers whose names have every word that was typed, whatever its case and accents. */
function matching(who) {
  const has = partsOf(who);
  return namesOf().filter(([, name]) => has(name))
    .sort((a, b) => a[1].localeCompare(b[1]) || a[0] - b[0]);
}

function registerForm(suggested) {
  return commandForm({
    key: 'register',
    fields: [
      textField('name', text('Name'), { maxlength: LONGEST_NAME }),
      dayField('until', text('Last day of the ticket'), { value: suggested, hint: text('The ticket is good on that day too.') }),
    ],
    button: text('Register'),
    before: askFirst,
    send: ({ name, until }) => register(oneSpaced(name), until),
    done: ({ ticket }, { until }) => said(phrase('Registered: {reader}, good until {until}.', { reader: readerLink(ticket), until })),
    explain: notDone,
    look: lookAtNewestTicket,
    focus: toName,
  });
}

function toName(form) {
  const name = form.querySelector('input');
  name.focus();
  name.select();
}

/** A name without spaces around it, and with one space between its parts. */
const oneSpaced = (name) => name.trim().replace(/\s+/g, ' ');

/** Asks about a last day that is past, and about a reader who has a ticket already. */
async function askFirst({ name, until }) {
  return await askIfPast(until, text('Such a ticket has expired already.')) ?? askIfKnown(oneSpaced(name));
}

async function askIfKnown(name) {
  const newest = await newestTicket();
  if (newest !== null) await readCards(newest, (done) => done < LOOKED_AT);
  const copy = await findInCopy(name);
  const known = new Map([...(copy.ok ? copy.value.readers : []).map((one) => [one.ticket, one.name]), ...namesOf()]);
  const same = [...known].filter(([, one]) => isSameName(one, name)).map(([ticket]) => ticket);
  if (name === '' || same.length === 0) return null;
  return sureOrStayed(text('There is a reader of this name'), text('Register another reader of this name'), [
    el('ul', {}, same.slice(0, SHOWN).map((ticket) => el('li', {}, readerLink(ticket)))),
    el('p', {}, text('A reader who has a ticket keeps it: renew it on the reader’s card.'))]);
}
