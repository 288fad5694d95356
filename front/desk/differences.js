// What the import of a file would change: tried by a service on the copy of the night, and shown as a list that can be
// filtered, printed and kept.

import { el, printButton, table, words } from '../shared/dom.js';
import { selectField, textField } from '../shared/fields.js';
import { note } from '../shared/form.js';
import { counted, named, phrase, text, written } from '../shared/language.js';
import { differencesFrom } from './night_copy.js';
import { unitLink } from './parts.js';

const SHOWN = 500; // the most differences that are listed at once
const LONG = 300; // the most letters of a text that are shown; the CSV file has all

const PROBLEMS = {
  away: [text('Nothing was tried: the service for it is not running.'), text('The file can be imported all the same.')],
  'no copy': [text('Nothing was tried: there is no copy of the office yet.'), text('The next backup makes one.')],
  failed: [text('This file could not be tried.'), text('Tell whoever runs the office: its journal says why.')],
};

const KINDS = {
  language: text('The first row is in another language than the office has'),
  emptied: text('Emptied'), changed: text('Changed'), boxes: text('Other boxes'), new: text('New'),
  status: text('The status in the file is another, and the import does not change it'),
  place: text('The place in the file is another, and the import does not change it'),
  lacking: text('Not in the file; the import leaves it'),
};

const HEADS = [text('Row'), 'legacyId', text('Unit'), text('Title'), text('What'), text('In the office'), text('In the file')];

/** Words of the service itself, beside names of columns and texts of the office. */
const WORDS = { draft: text('draft'), published: text('published') };

/** A button that tries the file of a form, and below it what came of it. `toTry()` promises { source, file }, or null. */
export function differences(toTry) {
  const told = el('div', { role: 'status' });
  const list = el('div', { class: 'differences' });
  const button = el('button', { type: 'button', class: 'plain', click: () => show(toTry, told, list, button) }, text('Show what would change'));
  return el('div', {},
    el('p', {}, text('The file is imported into last night’s copy of the office. The office itself stays as it is.')),
    el('p', { class: 'buttons no-print' }, button), told, list);
}

async function show(toTry, told, list, button) {
  if (button.getAttribute('aria-disabled') === 'true') return;
  button.setAttribute('aria-disabled', 'true');
  list.replaceChildren();
  told.replaceChildren(el('p', { class: 'waiting' }, text('Trying the file …')));
  const given = await toTry();
  const answer = given && await differencesFrom(given.source, given.file);
  button.removeAttribute('aria-disabled');
  showAnswer(given, answer, told, list);
}

function showAnswer(given, answer, told, list) {
  if (given === null) return told.replaceChildren(el('p', {}, text('Choose a file, and name its source, first.')));
  if (!answer.ok) return told.replaceChildren(problem(...PROBLEMS[answer.kind]));
  const { copy, refused } = answer.value;
  if (refused) return told.replaceChildren(problem(text('The office would refuse this file: {answer}.', { answer: answer.value.answer.said }), ''));
  told.replaceChildren(el('p', {}, phrase('As of the copy of {time}.', { time: copy }), ' ', el('strong', {}, sentence(answer.value))));
  return list.replaceChildren(...listParts(answer.value.differences, given.source));
}

const problem = (means, todo) => note('refused', el('p', {}, el('strong', {}, means), ' ', todo));

function sentence({ answer, differences: found }) {
  const rows = text('New units: {added}, changed: {changed}, unchanged: {same}.',
    { added: written(answer.new), changed: written(answer.changed), same: written(answer.same) });
  return `${rows} ${found.length === 0 ? text('Nothing differs.') : counted(found.length, '{number} difference:', '{number} differences:')}`;
}

function listParts(found, source) {
  if (found.length === 0) return [];
  const kind = selectField('kind', text('Which'), [['', text('All ({number})', { number: written(found.length) })], ...kindsOf(found)]);
  const letters = textField('text', text('With these letters'), { required: false, type: 'search' });
  const shown = el('div', { class: 'shown' });
  const view = { found, shown, kind: kind.querySelector('select'), letters: letters.querySelector('input') };
  view.kind.addEventListener('input', () => showRows(view));
  view.letters.addEventListener('input', () => showRows(view));
  showRows(view);
  const keep = el('button', { type: 'button', class: 'plain', click: () => keepAsFile(view, source) }, text('Keep as CSV'));
  return [el('div', { class: 'no-print' }, kind, letters, el('p', { class: 'buttons' }, printButton(text('Print this list')), keep)), shown];
}

function kindsOf(found) {
  const many = new Map();
  for (const [kind] of found) many.set(kind, (many.get(kind) ?? 0) + 1);
  return Object.entries(KINDS).filter(([kind]) => many.has(kind)).map(([kind, told]) => [kind, `${told} (${written(many.get(kind))})`]);
}

function chosen({ found, kind, letters }) {
  const wanted = letters.value.toLowerCase();
  return found.filter((one) => (kind.value === '' || one[0] === kind.value)
    && (wanted === '' || one.some((cell) => String(cell).toLowerCase().includes(wanted))));
}

function showRows(view) {
  const rows = chosen(view);
  const parts = Object.entries(KINDS).map(([kind, told]) => [told, rows.slice(0, SHOWN).filter(([one]) => one === kind)])
    .filter(([, some]) => some.length > 0)
    .map(([told, some]) => table(named(told, written(some.length)), HEADS, some.map(cellsOf)));
  const more = rows.length - SHOWN;
  view.shown.replaceChildren(...parts,
    more > 0 ? el('p', {}, counted(more, 'And {number} more, which the CSV file has.', 'And {number} more, which the CSV file has.')) : '',
    rows.length === 0 ? el('p', {}, text('Nothing of this kind.')) : '');
}

const cellsOf = ([kind, row, legacy, unit, title, what, before, after, codes]) =>
  [String(row), words(legacy), kind === 'new' ? '' : unitLink(unit), short(title), whatOf(what, codes), short(before), short(after)];

/** The name of an element or a column; of an identifier also how many codes below change. */
function whatOf(what, codes) {
  const name = WORDS[what] ?? text(what);
  return codes === 0 ? name : `${name} (${counted(codes, 'and the code of {number} unit below', 'and the codes of {number} units below')})`;
}

/** A text, cut if it is long, with its own line breaks. */
function short(value) {
  return words(value.length > LONG ? `${value.slice(0, LONG)}…` : WORDS[value] ?? value);
}

/** Saves the differences that are chosen. What a spreadsheet would calculate is marked as text. */
function keepAsFile(view, source) {
  const cell = (value) => {
    const safe = /^[=+\-@\t\r]/.test(value) ? `'${value}` : String(value);
    return /[",\r\n]/.test(safe) ? `"${safe.replaceAll('"', '""')}"` : safe;
  };
  const rows = [[text('Kind'), ...HEADS], ...chosen(view).map((one) =>
    [KINDS[one[0]], ...one.slice(1, 5), whatOf(one[5], one[8]), ...one.slice(6, 8)])];
  const file = rows.map((row) => `${row.map(cell).join(',')}\r\n`).join('');
  const address = URL.createObjectURL(new Blob(['\ufeff', file], { type: 'text/csv' }));
  el('a', { href: address, download: `differences-${source}.csv` }).click();
  setTimeout(() => URL.revokeObjectURL(address), 10_000);
}
