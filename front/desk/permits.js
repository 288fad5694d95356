// Permits for a unit: giving one, and who has one.

import { askEach } from '../shared/asking.js';
import { el, table } from '../shared/dom.js';
import { dayField } from '../shared/fields.js';
import { commandForm } from '../shared/form.js';
import { counted, phrase, text } from '../shared/language.js';
import { permit, permits } from '../shared/routes.js';
import { asOf, askIfPast } from './days.js';
import { lookAtPermits } from './looks.js';
import { newestTicket, readerLink } from './names.js';
import { paced, progress } from './pace.js';
import { notDone, said } from './parts.js';
import { ticketField, ticketOf } from './scans.js';

const FEW = 200; // tickets whose cards are asked for without a wish

export function permitForm(unit) {
  return commandForm({
    key: `permit for ${unit}`,
    fields: [ticketField(),
      dayField('until', text('Last day of the permit'), { hint: text('It opens what is closed here to that reader, and no draft.') })],
    button: text('Give a permit'), kind: 'plain',
    before: ({ until }) => askIfPast(until, text('A permit that ends on a past day opens nothing.')),
    send: ({ ticket, until }) => permit(ticketOf(ticket), unit, until),
    done: (value) => said(phrase('Permit for {reader} until {until}.', { reader: readerLink(value.ticket), until: value.until })),
    explain: (answer) => notDone(answer, 'permit'),
    look: ({ ticket }) => lookAtPermits(ticketOf(ticket)),
  });
}

/** Who has a permit for exactly this unit. Permits are on the readers' cards, so every card is asked for: at once if there are few. */
export function permitList(unit) {
  const told = el('p', { class: 'told', role: 'status' });
  const list = el('div', {});
  let asked = null;
  const begin = () => { if (asked === null) asked = gather(Number(unit), told, list).finally(() => { asked = null; }); };
  const ask = el('button', { type: 'button', class: 'plain', click: begin }, text('Who has a permit for it?'));
  newestTicket().then((newest) => newest !== null && newest <= FEW && begin());
  return [el('p', { class: 'buttons' }, ask), told, list];
}

async function gather(unit, told, list) {
  told.textContent = text('Asking the office for the readers’ cards …');
  const found = await holdersOf(unit, (some, done, all) => { told.textContent = progress(done, all); showHolders(list, some); });
  if (found === null) { told.textContent = text('The office did not answer for all cards. Try again in a minute.'); return; }
  told.textContent = found.length === 0 ? text('Nobody has a permit for this very unit.')
    : `${counted(found.length, '{number} permit.', '{number} permits.')} ${asOf()}`;
  showHolders(list, found);
}

function showHolders(list, found) {
  list.replaceChildren(...(found.length === 0 ? [] : [table(text('Permits for this unit'), [text('Reader'), text('Good until')],
    found.map((one) => [readerLink(one.ticket), el('span', { class: 'whole' }, one.until)]))]));
}

async function holdersOf(unit, tell) {
  const newest = await newestTicket();
  if (newest === null) return null;
  const found = [];
  let done = 0;
  const tickets = Array.from({ length: newest }, (_, place) => newest - place);
  const tellSome = paced(() => tell(found, done, newest));
  const whole = await askEach(tickets, permits, (ticket, answer) => {
    if (!answer.ok) return false;
    for (const one of answer.value) if (one.unit === unit) found.push({ ticket, until: one.until });
    done += 1;
    tellSome();
    return true;
  });
  return whole ? found.sort((a, b) => a.ticket - b.ticket) : null;
}
