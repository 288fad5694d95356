// What a colleague has in hand: a reference code, what a barcode reader sends, a number, a name or words of a title, from the field
// in the head of each page. Units and boxes are found in the copy of the night, readers also among the newest cards.

import { askEach } from '../shared/asking.js';
import { el, link, table, words } from '../shared/dom.js';
import { partsOf } from '../shared/folding.js';
import { note } from '../shared/form.js';
import { counted, phrase, text } from '../shared/language.js';
import { numberOf } from '../shared/numbers.js';
import { go } from '../shared/router.js';
import { boxLink, knownCards, newestTicket, readCard, readerLink } from './names.js';
import { findInCopy } from './night_copy.js';
import { unitState } from './unit_field.js';

const NEWEST = 400; // the most cards that are read because the copy does not have them
const WHOLE = 1; // the rank of a unit whose whole reference code was typed
const CODE = /^\s*([TB])0*([1-9][0-9]{0,9})\s*$/i;
const NONE = { units: [], boxes: [], readers: [], more: { units: 0, boxes: 0, readers: 0 }, last: 0 };
const PROBLEMS = {
  away: text('The service that finds units, boxes and readers is not running. Scanned codes and numbers still lead to their pages.'),
  'no copy': text('Nothing can be found yet: there is no copy of the office. The next backup makes one.'),
  failed: text('The service that finds units, boxes and readers has failed. Tell whoever runs the office: its journal says why.'),
};

/** The field in the head of each page. */
export function startField(form) {
  form.addEventListener('submit', (event) => {
    event.preventDefault();
    const typed = form.elements.what.value.trim();
    if (typed !== '') go(`#/find/${encodeURIComponent(typed)}`);
    form.reset();
  });
}

export async function findPage(address) {
  const typed = decodeURIComponent(address);
  const answer = await findInCopy(typed);
  const found = answer.ok ? answer.value : NONE;
  const named = [...byCode(typed), ...byNumber(typed)];
  const readers = [...found.readers, ...await newReaders(typed, found.last)];
  const only = sole(named, found, readers);
  if (only) { location.replace(only); return { title: '', content: [] }; }
  return { title: text('Found: {typed}', { typed }), content: [
    el('h1', {}, text('Found: {typed}', { typed })),
    answer.ok ? el('p', { class: 'quiet' }, text('As of the copy of {time}.', { time: found.copy })) : note('warns', el('p', {}, PROBLEMS[answer.kind])),
    named.length > 0 && el('ul', { class: 'lower' }, named.map(({ shown }) => el('li', {}, shown))),
    unitTable(found), boxTable(found), readerTable(readers, found),
    answer.ok && named.length + found.units.length + found.boxes.length + readers.length === 0 && el('p', {}, nothing(typed)),
  ] };
}

/** The page of what a barcode reader has sent. */
function byCode(typed) {
  const [, letter, number] = CODE.exec(typed) ?? [];
  if (!letter) return [];
  return letter.toUpperCase() === 'T' ? [{ at: `#/readers/${number}`, shown: readerLink(number) }] : [{ at: `#/counter/${number}`, shown: boxLink(number) }];
}

/** A number may be that of a ticket or of a box, which the office knows; a unit is shown from the copy. */
function byNumber(typed) {
  const number = numberOf(typed);
  return number === null ? [] : [{ at: `#/readers/${number}`, shown: readerLink(number) }, { at: `#/counter/${number}`, shown: boxLink(number) },
    { at: `#/units/${number}`, shown: link(`#/units/${number}`, text('unit {unit}', { unit: number })) }];
}

/** Where to go at once if only one thing can be meant. Who typed a whole reference code means no unit whose code only ends so. */
function sole(named, { units, boxes }, readers) {
  const meant = units[0]?.rank === WHOLE ? units.filter(({ rank }) => rank === WHOLE) : units;
  const all = [...named.map(({ at }) => at), ...meant.map(({ unit }) => `#/units/${unit}`), ...boxes.map(({ container }) => `#/counter/${container}`),
    ...readers.map(({ ticket }) => `#/readers/${ticket}`)];
  return all.length === 1 ? all[0] : null;
}

/** Readers who were registered after the copy was made. */
async function newReaders(typed, last) {
  const newest = numberOf(typed) === null && !CODE.test(typed) && typed.trim() !== '' ? await newestTicket() : null;
  if (newest === null) return [];
  const first = Math.max(last, newest - NEWEST);
  await askEach(Array.from({ length: newest - first }, (_, place) => newest - place), readCard, (ticket, answer) => answer.ok);
  const has = partsOf(typed);
  return [...knownCards()].filter(([ticket, { name }]) => ticket > last && has(name)).map(([ticket, { name, until }]) => ({ ticket, name, until }));
}

function unitTable({ units, more }) {
  return units.length > 0 && [table(text('Units'), [text('Reference code'), text('Title'), text('Date(s)'), text('Level of description'), text('State')],
    units.map((unit) => [link(`#/units/${unit.unit}`, words(unit.code)), words(unit.title), words(unit.dates), words(unit.level), unitState(unit)])),
  andMore(more.units)];
}

function boxTable({ boxes, more }) {
  return boxes.length > 0 && [table(text('Containers'), [text('Container'), text('Location')],
    boxes.map(({ container, name, location }) => [link(`#/counter/${container}`, words(name)), words(location)])), andMore(more.boxes)];
}

function readerTable(readers, { more }) {
  return readers.length > 0 && [table(text('Readers'), [text('Name'), text('Ticket'), text('Good until')], readers.map(({ ticket, name, until }) =>
    [link(`#/readers/${ticket}`, words(name)), String(ticket), el('span', { class: 'whole' }, until)])), andMore(more.readers)];
}

const andMore = (number) => number > 0 && el('p', {}, counted(number, 'And {number} more: type more of it.', 'And {number} more: type more of it.'));

const nothing = (typed) => phrase('Nothing has this code, number or name: {typed}.', { typed: words(typed) });
