// A reader's card: seat, orders, permits, and what can be done for the reader.

import { el, link, table, words } from '../shared/dom.js';
import { dayField } from '../shared/fields.js';
import { commandForm, note } from '../shared/form.js';
import { phrase, text, textAs } from '../shared/language.js';
import * as routes from '../shared/routes.js';
import { askIfPast } from './days.js';
import { lookAtPermits, lookAtReader } from './looks.js';
import { myOrdersCard } from './my_orders.js';
import { boxLink, readCard } from './names.js';
import { boxOrder } from './ordered_box.js';
import { card, heldContainer, notDone, problem, rowForm, said, unitLink } from './parts.js';
import { may } from './signed_in.js';
import { NO_UNIT, unitField, unitNamed } from './unit_field.js';
import { wantedOf } from './wanted.js';

const STATES = { waiting: text('waiting'), out: text('out') };
const PERMIT = text('A permit opens a closed unit to this reader, with the closed units above and below it. It does not open drafts.');

export async function cardPage(ticket) {
  const view = {
    ticket, name: el('p', { class: 'big-name' }), head: el('div', { class: 'reader' }), told: el('div', { role: 'status' }),
  };
  const [isThere, own] = await Promise.all([show(view), routes.ownAddress(ticket)]);
  return { title: text('Ticket {ticket}', { ticket }), content: [
    el('h1', {}, text('Ticket {ticket}', { ticket })), view.name, view.told, view.head,
    isThere ? el('div', { class: 'cards four' },
      card(text('Seat'), seatForm(view), leaveForm(view)),
      card(text('Order a container'), orderForm(view)),
      card(text('Renew'), renewForm(view)),
      own.ok && myOrdersCard(ticket, own.value),
      may('archivist') && card(text('Give a permit'), el('p', { class: 'quiet' }, PERMIT), permitForm(view)))
      : el('p', {}, link('#/readers', text('Find a reader'))),
  ] };
}

/** Whether there is such a ticket; true if the office does not answer. */
async function show(view) {
  const reader = await readCard(view.ticket);
  const permits = may('archivist') ? await routes.permits(view.ticket) : { ok: false };
  view.name.replaceChildren(...(reader.ok ? [words(reader.value.name)] : []));
  view.isSeated = reader.ok && reader.value.seat !== null;
  markSeatButton(view);
  view.head.replaceChildren(...(reader.ok ? readerParts(view, reader.value) : [problem(reader)]),
    ...(permits.ok && permits.value.length > 0 ? [permitTable(view, permits.value)] : []));
  return reader.kind !== 'missing';
}

/** The card is shown again after each command, and the message stays. */
async function after(view, ...sentence) {
  await show(view);
  return said(...sentence);
}

function readerParts(view, { until, seat, orders }) {
  return [
    el('p', {}, phrase('Ticket good until {until}.', { until }), ' ', seat === null ? text('No seat.') : text('Seat {seat}.', { seat }), ' ',
      el('a', { href: `#/readers/${view.ticket}/ticket`, class: 'no-print' }, text('The ticket to print'))),
    orders.length > 0 ? orderTable(view, orders) : el('p', { class: 'quiet' }, text('No order is waiting, and nothing is out.')),
  ];
}

function orderTable(view, orders) {
  const heads = [textAs('noun', 'Order'), text('Container'), text('State'), text('Cancel')];
  const wanted = wantedOf(orders.map((one) => ({ ...one, ticket: view.ticket })));
  return table(text('Orders'), heads, orders.map(({ order, container, state }) =>
    [String(order), [boxLink(container), wanted({ order })], STATES[state] ?? state, state === 'waiting' ? cancelForm(view, order) : '']));
}

function cancelForm(view, order) {
  return inRow(view, {
    key: `cancel ${order}`, button: text('Cancel'), what: text('order {order}', { order }), send: () => routes.cancel(order),
    sentence: [text('Order {order} is cancelled.', { order })], look: () => lookAtReader(view.ticket),
  });
}

/** The command removes the row, so its result is shown above the tables. */
function inRow(view, { sentence, ...parts }) {
  return rowForm({
    ...parts, help: heldContainer,
    done: async () => {
      view.told.replaceChildren(note('done', await after(view, ...sentence)));
      view.name.tabIndex = -1;
      view.name.focus();
    },
  });
}

function command(view, key, button, send, done, more = {}) {
  return commandForm({
    key: `${key} ${view.ticket}`, button, send, explain: notDone, look: () => lookAtReader(view.ticket),
    done: (value, values) => after(view, ...done(value, values)), ...more,
  });
}

function seatForm(view) {
  const form = command(view, 'seat of', text('Give a seat'), () => routes.takeSeat(view.ticket),
    ({ seat }) => [text('Seat {seat}.', { seat })]);
  view.seatButton = form.querySelector('button');
  markSeatButton(view);
  return form;
}

/** Who has a seat needs no other: then this is no main button. */
const markSeatButton = (view) => view.seatButton?.classList.toggle('plain', view.isSeated);

const leaveForm = (view) => command(view, 'leave of', text('Free the seat'), () => routes.leaveSeat(view.ticket),
  ({ seat }) => [text('Seat {seat} is free.', { seat })], { kind: 'plain' });

function orderForm(view) {
  const { fields, before, send, box } = boxOrder();
  return command(view, 'order of', text('Order'), () => send(view.ticket),
    ({ order }) => phrase('Order {order} for {container}.', { order, container: boxLink(box()) }), { fields, before });
}

const renewForm = (view) => command(view, 'renewal of', text('Renew'), ({ until }) => routes.renew(view.ticket, until),
  (value, { until }) => phrase('Good until {until}.', { until }), {
    fields: [dayField('until', text('New last day'))], before: ({ until }) => askIfPast(until, text('The ticket then has expired.')) });

const permitForm = (view) => command(view, 'permit of', text('Give a permit'), ({ until }) => routes.permit(view.ticket, view.unit, until),
  (value) => phrase('Permit for {unit} until {until}.', { unit: unitLink(value.unit), until: value.until }), {
    fields: [unitField('unit', text('Unit')),
      dayField('until', text('Last day of the permit'), { hint: text('If there is a permit already, the later day counts.') })],
    before: async ({ unit, until }) => ((view.unit = await unitNamed(unit)) === null ? NO_UNIT
      : askIfPast(until, text('A permit that ends on a past day opens nothing.'))),
    explain: (answer) => notDone(answer, 'permit'), look: () => lookAtPermits(view.ticket),
  });

function permitTable(view, permits) {
  return table(text('Permits'), [text('Unit'), text('Good until'), text('Take away')], permits.map(({ unit, until }) =>
    [unitLink(unit), el('span', { class: 'whole' }, until), revokeForm(view, unit)]));
}

function revokeForm(view, unit) {
  return inRow(view, {
    key: `revoke ${view.ticket} ${unit}`, button: text('Take away'), what: text('the permit for unit {unit}', { unit }),
    send: () => routes.revoke(view.ticket, unit), sentence: phrase('The permit for {unit} is taken away.', { unit: unitLink(unit) }),
    look: () => lookAtPermits(view.ticket),
  });
}
