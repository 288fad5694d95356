// What is printed to be cut or stuck: call slips of a run, a reader's ticket, a container's label.

import { askEach } from '../shared/asking.js';
import { el, link, printButton, words } from '../shared/dom.js';
import { phrase, text } from '../shared/language.js';
import { ownAddress, queue, reader, slip } from '../shared/routes.js';
import { locationIn, readRun } from '../shared/texts.js';
import { barcode } from './barcode.js';
import { codeList, findCodes } from './codes.js';
import { addressParts } from './my_orders.js';
import { readerWords } from './names.js';
import { problem } from './parts.js';
import { boxCode, ticketCode } from './scans.js';
import { onPaper, wantedOf } from './wanted.js';

/** The call slips of a run: one for each order. */
export async function callSlipsPage(run) {
  const answer = await slip(run);
  if (!answer.ok) return failed(text('Run {run}', { run }), answer);
  const { day, lines } = readRun(answer.value);
  const names = await namesOf(lines);
  const print = printButton(text('Print the call slips'));
  const title = text('Call slips of run {run}', { run });
  const slips = el('div', { class: 'call-slips' });
  const wanted = wantedOf(lines, onPaper);
  const show = () => slips.replaceChildren(...lines.map((line) => callSlip(line, names.get(line.container), run, day, wanted(line))));
  show();
  findCodes(lines.map((line) => line.container)).then(show);
  return { title, focus: print, content: [
    el('h1', { class: 'no-print' }, title),
    el('p', { class: 'buttons no-print' }, print, link(`#/runs/${run}`, text('Back to the run'))), slips] };
}

async function namesOf(lines) {
  const names = new Map();
  await askEach(lines.map((line) => line.container), queue, (container, answer) => {
    if (answer.ok) names.set(container, answer.value.name);
  });
  return names;
}

function callSlip(line, name, run, day, wanted) {
  const location = name === undefined ? null : locationIn(line.place, name);
  return el('section', { class: 'call-slip' },
    location === null ? words(line.place, 'p', { class: 'from-where' })
      : [words(location || '-', 'p', { class: 'from-where' }),
        el('p', { class: 'what' }, words(name), el('small', {}, ' ', text('container {number}', { number: line.container })))],
    wanted, codeList(line.container),
    el('p', {}, phrase('{reader}, ticket {ticket}', { reader: readerWords(line.ticket, 'strong'), ticket: line.ticket })),
    el('p', { class: 'quiet' }, phrase('Order {order}, run {run}, {day}', { order: line.order, run, day })),
    el('div', { class: 'codes-of' }, barcode(boxCode(line.container)), barcode(ticketCode(line.ticket))));
}

export async function ticketPage(ticket) {
  const answer = await reader(ticket);
  const title = text('Ticket {ticket}', { ticket });
  if (!answer.ok) return failed(title, answer);
  const { name, until } = answer.value;
  const own = await ownAddress(ticket);
  return toPrint(title, text('Print the ticket'), link(`#/readers/${ticket}`, text('Back to the card')), [
    el('p', {}, phrase('Reader’s ticket {ticket}', { ticket: el('strong', {}, ticket) })), words(name, 'p', { class: 'what' }),
    el('p', { class: 'quiet' }, phrase('Good until {until}', { until })), barcode(ticketCode(ticket)),
    own.ok && el('p', {}, text('Your orders, and new ones:')), own.ok && addressParts(own.value)]);
}

export async function labelPage(container) {
  const answer = await queue(container);
  const title = text('Container {number}', { number: container });
  if (!answer.ok) return failed(title, answer);
  const back = link(`#/counter/${container}`, text('Back to the container'));
  return toPrint(text('Label of container {number}', { number: container }), text('Print the label'), back,
    [words(answer.value.name, 'p', { class: 'what' }), el('p', { class: 'quiet' }, title), barcode(boxCode(container))]);
}

const failed = (title, answer) => ({ title, content: [el('h1', {}, title), problem(answer)] });

function toPrint(title, button, back, content) {
  const print = printButton(button);
  return { title, focus: print, content: [
    el('h1', { class: 'no-print' }, title), el('p', { class: 'buttons no-print' }, print, back),
    el('div', { class: 'call-slips' }, el('section', { class: 'call-slip' }, content))] };
}
