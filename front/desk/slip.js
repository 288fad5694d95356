// The slip of a run as a table with the readers' names and, once the public finding aids are read, the reference codes; the
// program's own text; and what still waits.

import { el, link, printButton, table, words } from '../shared/dom.js';
import { text, textAs } from '../shared/language.js';
import { slip } from '../shared/routes.js';
import { locationIn, readRun } from '../shared/texts.js';
import { codeList, findCodes } from './codes.js';
import { boxLink, containerName, readerLink } from './names.js';
import { problem } from './parts.js';
import { waitingList } from './waiting.js';
import { wantedOf } from './wanted.js';

export async function slipPage(run) {
  const answer = await slip(run);
  const title = text('Run {run}', { run });
  if (!answer.ok) return { title, content: [el('h1', {}, title), problem(answer), back()] };
  const { day, lines } = readRun(answer.value);
  for (const line of lines) line.name = await containerName(line.container);
  const print = printButton(text('Print the slip'));
  return { title, focus: print, content: [
    el('h1', {}, title),
    el('p', { class: 'buttons no-print' }, print, link(`#/runs/${run}/slips`, text('Call slips to cut'))),
    el('p', { class: 'run-of' }, words(day ?? answer.value.split('\n')[0], 'strong')),
    beside(lines),
    el('details', { class: 'no-print' }, el('summary', {}, text('The slip as the program writes it')),
      el('pre', { class: 'slip', tabindex: 0, role: 'region', 'aria-label': text('The slip') }, answer.value)),
    el('div', { class: 'no-print still-waits' }, waitingList()),
    back(),
  ] };
}

const back = () => el('p', { class: 'no-print' }, link('#/runs', text('All runs')));

function beside(lines) {
  const place = el('div', {});
  const told = el('p', { class: 'told no-print', role: 'status' });
  const wanted = wantedOf(lines);
  const show = () => place.replaceChildren(table(text('What to fetch, and for whom'),
    [text('Location'), text('Container'), textAs('noun', 'Order'), text('Reader'), text('Reference code')], lines.map((line) =>
      [words(locationOf(line)), boxLink(line.container), line.order, readerLink(line.ticket), [wanted(line), codeList(line.container)]])));
  show();
  lookForCodes(lines, told, show);
  return el('section', { class: 'beside' }, place, told);
}

/** The location, or the whole beginning of the line where the name of the container is not known. */
const locationOf = (line) => (line.name === null ? null : locationIn(line.place, line.name)) ?? line.place;

async function lookForCodes(lines, told, show) {
  told.textContent = text('Reading the public finding aids …');
  const missing = await findCodes(lines.map((line) => line.container));
  show();
  told.textContent = missing === 0 ? text('A reference code was found for every container.')
    : text('{missing} of {all} without a reference code: what is closed or a draft does not stand in the public finding aids.',
      { missing, all: lines.length });
}
