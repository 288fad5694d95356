// A container: where it is, who waits for it, and what can be done with it next.

import { el, link, table, words } from '../shared/dom.js';
import { commandForm } from '../shared/form.js';
import { phrase, text, textAs } from '../shared/language.js';
import { deskWords } from '../shared/refusals.js';
import { giveBack, issue, issued, queue } from '../shared/routes.js';
import { lookAtContainer, lookAtReader } from './looks.js';
import { readerLink } from './names.js';
import { boxesInCopy } from './night_copy.js';
import { notOpenIn, orderBox } from './ordered_box.js';
import { card, problem, said } from './parts.js';
import { ticketField, ticketOf } from './scans.js';

export async function containerPage(number) {
  const view = { number, told: el('div', { role: 'status' }), panel: el('div', { class: 'panel' }) };
  const isThere = await show(view);
  const [shelf, withheld] = [el('div', {}), el('div', {})];
  boxesInCopy([number]).then(({ value }) => shelf.replaceChildren(...(value?.boxes ?? []).map(({ location }) => words(location))));
  notOpenIn(number).then((lines) => withheld.replaceChildren(...lines));
  return { title: text('Container {number}', { number }), content: [
    el('h1', {}, text('Container {number}', { number })),
    el('p', { class: 'links no-print' }, link('#/counter', text('Back to the counter')), ' ',
      isThere && link(`#/counter/${number}/label`, text('A label to print'))),
    view.told, view.panel, shelf, withheld,
    isThere && card(text('Order it for a reader'), orderForm(view)),
  ] };
}

/** Shows the container, or why it cannot be shown; says whether it is there, as far as anybody knows. */
async function show(view) {
  const answer = await queue(view.number);
  const holder = answer.ok && answer.value.place === 'out' ? await holderOf(view.number) : null;
  view.panel.replaceChildren(...(answer.ok ? panel(view, answer.value, holder) : [problem(answer)]));
  return answer.kind !== 'missing';
}

async function holderOf(number) {
  const answer = await issued();
  return answer.ok ? answer.value.find((row) => row.container === Number(number))?.ticket : null;
}

function panel(view, box, holder) {
  return [
    words(box.name, 'p', { class: 'big-name' }),
    el('p', { class: 'place' }, place(box, holder)),
    next(view, box),
    box.waiting.length > 0 && table(text('Who waits, first to last'), [textAs('noun', 'Order'), text('Reader')],
      box.waiting.map((one) => [String(one.order), readerLink(one.ticket)])),
  ].filter(Boolean);
}

function place(box, holder) {
  if (box.place === 'shelf') return text('It is on its shelf.');
  if (box.place === 'desk') return text('It is at the desk.');
  if (!holder) return text('It is out, order {order}.', { order: box.out });
  return phrase('It is out with {reader}, order {order}.', { reader: readerLink(holder), order: box.out });
}

function next(view, box) {
  if (box.place === 'out') return returnForm(view);
  if (box.waiting.length === 0) return el('p', { class: 'quiet' }, text('Nobody is waiting for it.'));
  if (box.place === 'desk') return issueForm(view, box.waiting[0].ticket);
  return el('p', {}, phrase('A {run} fetches it if it is open to the first who waits.', { run: link('#/runs', text('run')) }));
}

function after(view, sentence) {
  return async (value) => { await show(view); view.told.replaceChildren(el('div', { class: 'note done' }, said(sentence(value)))); };
}

function issueForm(view, ticket) {
  return commandForm({
    key: `issue ${view.number}`, button: text('Issue to ticket {ticket}, the first who waits', { ticket }),
    send: () => issue(view.number, ticket),
    done: after(view, ({ order: number }) => text('Issued to ticket {ticket}, order {order}.', { ticket, order: number })),
    explain: deskWords, look: () => lookAtContainer(view.number),
    help: () => el('p', {}, phrase('The card: {reader}.', { reader: readerLink(ticket) })),
  });
}

function returnForm(view) {
  return commandForm({
    key: `return ${view.number}`, button: text('Take back'),
    send: () => giveBack(view.number),
    done: after(view, ({ order: number }) => text('Taken back. Order {order} is done.', { order: number })),
    explain: deskWords, look: () => lookAtContainer(view.number),
  });
}

function orderForm(view) {
  return commandForm({
    key: `order of container ${view.number}`, fields: [ticketField()], button: text('Order'), kind: 'plain',
    send: ({ ticket }) => orderBox(ticketOf(ticket), { box: view.number }),
    done: async (value, { ticket }) => {
      await show(view);
      return said(phrase('Order {order} for {reader}.', { order: value.order, reader: readerLink(ticketOf(ticket)) }));
    },
    explain: deskWords, look: ({ ticket }) => lookAtReader(ticketOf(ticket)),
  });
}
