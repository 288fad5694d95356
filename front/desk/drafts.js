// The new drafts of an import, with their numbers. The office does not tell them: new units are numbered in the order of
// the file, and what the public sees of them must agree.

import { askEach } from '../shared/asking.js';
import { el, table, words } from '../shared/dom.js';
import { commandForm } from '../shared/form.js';
import { counted, text } from '../shared/language.js';
import { deskWords } from '../shared/refusals.js';
import { setStatus, unit as askUnit } from '../shared/routes.js';
import { lookAtUnit } from './looks.js';
import { firstOfNew } from './newest_unit.js';
import { heldContainer, unitLink } from './parts.js';

const SHOWN = 200; // the most drafts that are listed
const CHECKED = 200; // the most units that are checked against what the public sees

/** The list as soon as it is known; null if there are no new drafts. */
export function newDrafts(added, { seen, newest }) {
  const units = (seen?.units ?? []).map(([, , legacy, title, isDraft]) => ({ legacy, title, isDraft }));
  if (added === 0 || !units.some((unit) => unit.isDraft)) return null;
  const place = el('div', {}, el('p', { class: 'waiting' }, text('Looking for the numbers of the new drafts …')));
  listOf(units, added, newest).then((list) => place.replaceChildren(...[list].filter(Boolean)));
  return place;
}

async function listOf(units, added, newest) {
  const first = newest === null ? null : await firstOfNew(newest, added);
  const drafts = first === null ? null : await draftsOf(units, first, added);
  if (drafts === null) return el('p', {}, text('The file has new drafts, but their numbers cannot be told for certain.'));
  return drafts.length === 0 ? null : draftTable(drafts);
}

/** The new drafts as { number, unit }; null if the public sees something else than the file says. */
async function draftsOf(units, first, added) {
  const areAllNew = added === units.length;
  const numbers = Array.from({ length: added }, (_, place) => first + place);
  const rows = numbers.map((number, place) => ({ number, unit: areAllNew ? units[place] : null }));
  const asked = areAllNew ? checkedRows(rows) : rows.slice(0, CHECKED);
  const seen = new Map();
  const whole = await askEach(asked, (row) => askUnit(row.number), (row, answer) => {
    if (answer.ok || answer.kind === 'missing') seen.set(row.number, answer.ok ? answer.value : null);
    return answer.ok || answer.kind === 'missing';
  });
  if (!whole) return null;
  if (!areAllNew) return asked.filter(({ number }) => seen.get(number) === null);
  return asked.every((row) => agrees(row, seen.get(row.number))) ? rows.filter((row) => row.unit.isDraft) : null;
}

/** Some of the rows, spread over all of them. */
function checkedRows(rows) {
  const step = Math.max(1, Math.ceil(rows.length / CHECKED));
  return rows.filter((_, place) => place % step === 0 || place === rows.length - 1);
}

/** How the head line of a unit with this title ends: with the title on one line. */
export const endOfHead = (title) => `] ${title.replace(/\r\n|\r|\n/g, ' ') || '-'}`;

/** A draft must not be seen, and the page of a published unit, if there is one, must have its title. */
function agrees({ unit }, page) {
  return page === null || (!unit.isDraft && page.split('\n')[0].endsWith(endOfHead(unit.title)));
}

function draftTable(drafts) {
  const rest = drafts.slice(SHOWN);
  return el('div', { class: 'drafts' },
    el('p', {}, el('strong', {}, counted(drafts.length, '{number} new unit is a draft.', '{number} new units are drafts.')), ' ',
      text('The public sees a draft when it is published, with all that is above it.')),
    table(text('New drafts, in the order of the file'), [text('Unit'), 'legacyId', text('Title'), text('Publish it')],
      drafts.slice(0, SHOWN).map(draftCells)),
    rest.length > 0
      && el('p', {}, counted(rest.length, 'And {number} more: {first} to {last}.', 'And {number} more: {first} to {last}.',
        { first: rest[0].number, last: rest.at(-1).number })));
}

function draftCells({ number, unit }) {
  const link = el('span', { class: 'whole' }, unitLink(number));
  const forms = [publishForm(number, false), publishForm(number, true)];
  return unit ? [link, words(unit.legacy), words(unit.title || '-'), forms] : [link, '', text('not shown to the public'), forms];
}

function publishForm(number, branch) {
  return commandForm({
    key: `publish ${number} ${branch}`, kind: 'plain small',
    button: [branch ? text('Publish with all below') : text('Publish'), el('span', { class: 'unseen' }, ' ', text('unit {unit}', { unit: number }))],
    send: () => setStatus(number, 'published', branch),
    done: ({ units }) => el('p', {}, counted(units, '{number} unit was set to published.', '{number} units were set to published.')),
    explain: deskWords, help: heldContainer, look: () => lookAtUnit(number),
    focus: (form) => form.querySelector('button').focus(),
  });
}
