// The address that leads a reader to My orders: on the printed ticket and on the card, where a new secret is made.

import { el } from '../shared/dom.js';
import { commandForm } from '../shared/form.js';
import { text } from '../shared/language.js';
import { newSecret, ownAddress } from '../shared/routes.js';
import { addressCode } from './barcode.js';
import { sureOrStayed } from './days.js';
import { card, notDone, said } from './parts.js';

/** An address with its code; without a code if nobody has told the address of the readers' site. */
export const addressParts = (own) => (own.path ? addressCode(own) : el('p', { class: 'coded' }, el('bdi', {}, own.address)));

export function myOrdersCard(ticket, own) {
  const shown = el('div', {}, addressParts(own));
  return card(text('My orders'),
    el('p', { class: 'quiet' }, text('Whoever has this address sees and cancels this reader’s orders, and orders.')), shown,
    !own.path && el('p', { class: 'quiet' }, text('For a code, office.json must have the address of the readers’ site.')),
    commandForm({
      key: `secret of ${ticket}`, button: text('Make a new address'), kind: 'plain', send: () => newSecret(ticket), explain: notDone,
      before: () => sureOrStayed(text('Make a new address?'), text('Make a new address'), el('p', {}, text('The address on a printed ticket then leads nowhere: print the ticket again.'))),
      look: async () => addressParts((await ownAddress(ticket)).value ?? own),
      done: (value) => { shown.replaceChildren(addressParts(value)); return said(text('The ticket has a new address. Print the ticket again.')); },
    }));
}
