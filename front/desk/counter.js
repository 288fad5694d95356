// The counter: issuing, taking back, seats, and where a container is. Each form takes only numbers, so a keyboard
// or a barcode reader that sends Enter is enough.

import { el } from '../shared/dom.js';
import { commandForm, note } from '../shared/form.js';
import { phrase, text } from '../shared/language.js';
import { deskWords } from '../shared/refusals.js';
import { go } from '../shared/router.js';
import { giveBack, issue, leaveSeat, queue, takeSeat } from '../shared/routes.js';
import { lookAtContainer, lookAtReader } from './looks.js';
import { boxLink, readerLink } from './names.js';
import { card, lookUp, problem, said } from './parts.js';
import { showReader } from './reader_at_counter.js';
import { boxField, boxOf, ticketField, ticketOf } from './scans.js';

const KEPT = 12; // the most containers that are listed after they came back
const UNKNOWN_SEAT = text('The office did not say whether the seat was given. Press the button again, which does no harm: nobody gets two seats.');

export function counterPage() {
  const ticket = ticketField({ hint: text('Scan or type, then Enter.') });
  const counter = el('div', { class: 'cards counter' },
    card(text('Issue'), issueForm(ticket)),
    card(text('Take back'), returnForm()),
    card(text('A reader arrives'), seatForm()),
    card(text('A reader leaves'), leaveForm()),
    card(text('Where is a container?'), lookUp(boxField(), text('Look it up'), (typed) => go(`#/counter/${boxOf(typed)}`))));
  const input = ticket.querySelector('input');
  counter.addEventListener('keydown', (event) => digitsGoTo(event));
  return { title: text('Counter'), focus: input, content: [el('h1', {}, text('Counter')), counter] };
}

/** What a barcode reader sends (a letter or a digit first) while a button or a link has the focus goes to the first field of the same card. */
function digitsGoTo(event) {
  const isPressed = event.target.closest('button, a') !== null;
  if (!isPressed || !/^[0-9BT]$/i.test(event.key) || event.ctrlKey || event.altKey || event.metaKey) return;
  const input = event.target.closest('.card')?.querySelector('input');
  input?.focus();
  input?.select();
}

function issueForm(ticketRow) {
  const containerRow = boxField({ hint: text('Scan or type, then Enter to issue.') });
  const about = el('div', { class: 'about', role: 'status' });
  const form = commandForm({
    key: 'issue', fields: [ticketRow, about, containerRow], button: text('Issue'),
    send: ({ ticket, container }) => issue(boxOf(container), ticketOf(ticket)),
    done: (value, { ticket, container }) => {
      showReader(about, null);
      return issued(value, ticketOf(ticket), boxOf(container));
    },
    explain: deskWords,
    help: (answer, { ticket }, again) => (answer.refused === 'NotSeated'
      ? seatButton(ticketOf(ticket), again) : readerOf(answer, ticketOf(ticket))),
    look: ({ container }) => lookAtContainer(boxOf(container)),
    focus: focusOfIssue,
  });
  moveOn(ticketRow.querySelector('input'), containerRow.querySelector('input'), (number) => showReader(about, number));
  return form;
}

/** Enter in the ticket's field goes on to the container's and sends nothing. */
function moveOn(input, next, then) {
  input.addEventListener('keydown', (event) => {
    if (event.key !== 'Enter' || ticketOf(input.value) === null) return;
    event.preventDefault();
    if (event.repeat || input.readOnly) return;
    next.focus();
    next.select();
  });
  input.addEventListener('change', () => then(ticketOf(input.value)));
}

const OF_THE_CONTAINER = ['UnknownContainer', 'NotAvailable', 'NotAtDesk', 'NotFirst'];

/** After a refusal the focus is on the field that must be changed. */
function focusOfIssue(form, answer) {
  const { ticket, container } = form.elements;
  const button = answer?.refused === 'NotSeated' ? form.querySelector('.note button') : null;
  const input = OF_THE_CONTAINER.includes(answer?.refused) ? container : ticket;
  if (button) return button.focus();
  input.focus();
  return input.select();
}

function issued(value, ticket, container) {
  return said(phrase('Issued: {container} to {reader}. Order {order}.', {
    container: boxLink(container), reader: readerLink(ticket), order: value.order }));
}

function readerOf(answer, ticket) {
  return ['TicketExpired', 'HandsFull'].includes(answer.refused) ? el('p', {}, phrase('The card: {reader}.', { reader: readerLink(ticket) })) : null;
}

function seatButton(ticket, again) {
  const place = el('div', {});
  const give = el('button', { type: 'button', class: 'plain', click: () => seat(ticket, give, place, again) },
    text('Give ticket {ticket} a seat and issue', { ticket }));
  place.append(give);
  return place;
}

/** A reader who has a seat gets no other, so this form is never held: sending it again does no harm. */
async function seat(ticket, give, place, again) {
  if (give.getAttribute('aria-disabled') === 'true') return;
  give.setAttribute('aria-disabled', 'true');
  const answer = await takeSeat(ticket);
  if (answer.ok || answer.refused === 'AlreadySeated') {
    again();
    return;
  }
  give.removeAttribute('aria-disabled');
  place.replaceChildren(answer.kind === 'uncertain' ? note('refused', el('p', {}, UNKNOWN_SEAT)) : problem(answer));
  if (answer.kind === 'refused') return;
  place.append(give);
  give.focus();
}

function returnForm() {
  const list = el('ul', { class: 'back', 'aria-label': text('Taken back just now') });
  const form = commandForm({
    key: 'return', button: text('Take back'),
    fields: [boxField({ hint: text('Scan or type, then Enter. One after the other.') })],
    send: ({ container }) => giveBack(boxOf(container)),
    done: (value, { container }) => cameBack(list, boxOf(container), value.order),
    explain: deskWords,
    look: ({ container }) => lookAtContainer(boxOf(container)),
    focus: (shown) => { shown.elements.container.focus(); shown.elements.container.select(); },
  });
  return [form, list];
}

async function cameBack(list, container, order) {
  const answer = await queue(container);
  const line = () => [phrase('Back: {container}. Order {order} is done.', { container: boxLink(container), order }), ' ',
    el('span', {}, whereNext(answer))];
  list.prepend(el('li', {}, line()));
  while (list.children.length > KEPT) list.lastChild.remove();
  return said(line());
}

function whereNext(answer) {
  if (!answer.ok) return '';
  const [first] = answer.value.waiting;
  return first ? phrase('Keep it at the desk for {reader}.', { reader: readerLink(first.ticket) }) : text('Nobody is waiting for it.');
}

function seatForm() {
  return commandForm({
    key: 'seat', fields: [ticketField()], button: text('Give a seat'), kind: 'plain',
    send: ({ ticket }) => takeSeat(ticketOf(ticket)),
    done: ({ seat: number }, { ticket }) => said(phrase('Seat {seat} for {reader}.', { seat: number, reader: readerLink(ticketOf(ticket)) })),
    explain: deskWords, look: ({ ticket }) => lookAtReader(ticketOf(ticket)),
  });
}

function leaveForm() {
  return commandForm({
    key: 'leave', fields: [ticketField()], button: text('Free the seat'), kind: 'plain',
    send: ({ ticket }) => leaveSeat(ticketOf(ticket)),
    done: ({ seat: number }, { ticket }) =>
      said(phrase('Seat {seat} is free. {reader} has left.', { seat: number, reader: readerLink(ticketOf(ticket)) })),
    explain: deskWords,
    help: (answer, { ticket }) => (answer.refused === 'HoldsContainers'
      ? el('p', {}, phrase('What is out: {reader}.', { reader: readerLink(ticketOf(ticket)) })) : null),
    look: ({ ticket }) => lookAtReader(ticketOf(ticket)),
  });
}
