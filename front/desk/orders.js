// Orders: placing one for a reader, cancelling one, and what waits.

import { el, link } from '../shared/dom.js';
import { numberField } from '../shared/fields.js';
import { commandForm } from '../shared/form.js';
import { phrase, text, textAs } from '../shared/language.js';
import { numberOf } from '../shared/numbers.js';
import { deskWords } from '../shared/refusals.js';
import { cancel } from '../shared/routes.js';
import { lookAtReader, onceMore } from './looks.js';
import { boxLink, readerLink } from './names.js';
import { boxOrder } from './ordered_box.js';
import { card, said } from './parts.js';
import { ticketField, ticketOf } from './scans.js';
import { waitingList } from './waiting.js';

export function ordersPage() {
  return { title: text('Orders'), content: [
    el('h1', {}, text('Orders')),
    el('div', { class: 'cards' }, card(text('Place an order'), placeForm()), card(text('Cancel an order'), cancelForm())),
    waitingList(),
    el('p', { class: 'no-print' }, link('#/orders/old', text('Orders that wait long, and boxes that nobody has asked for'))),
  ] };
}

function placeForm() {
  const { fields, before, send, box } = boxOrder();
  return commandForm({
    key: 'order', fields: [ticketField(), fields], before,
    button: text('Order'),
    send: ({ ticket }) => send(ticketOf(ticket)),
    done: (value, { ticket }) =>
      said(phrase('Order {order}: {container} for {reader}.', {
        order: value.order, container: boxLink(box()), reader: readerLink(ticketOf(ticket)) })),
    explain: deskWords,
    look: ({ ticket }) => lookAtReader(ticketOf(ticket)),
  });
}

function cancelForm() {
  return commandForm({
    key: 'cancel', fields: [numberField('order', textAs('noun', 'Order'), { hint: text('The reader’s card and the container’s page show it.') })],
    button: text('Cancel the order'), kind: 'plain',
    send: (values) => cancel(numberOf(values.order)),
    done: (value) => said(text('Order {order} is cancelled.', { order: value.order })),
    explain: deskWords,
    look: onceMore(text('“no longer waiting” means that it was cancelled.')),
  });
}
