// What is to be seen in a file that was chosen for import, before it is sent: why it would be refused, what it would
// empty (to be confirmed), what is odd in it, and how much it has. A service looks at it; while that is away somebody may
// take the file in unseen.

import { el, table } from '../shared/dom.js';
import { selectField } from '../shared/fields.js';
import { note } from '../shared/form.js';
import { counted, quoted, text, written } from '../shared/language.js';
import { LARGEST_FILE } from '../shared/limits.js';
import { CAUSES, DESK, deskWords } from '../shared/refusals.js';
import { lookAt } from './night_copy.js';
import { sameBoxes } from './same_boxes.js';

const LEVELS = { stop: 'refused', ask: 'warns', note: 'quiet-note' };
const COUNTS = {
  rows: text('Rows'), units: text('Units'), drafts: text('Drafts'), translations: text('Translations'),
  tops: text('Top units'), containers: text('Containers'),
};
const ENCODINGS = [
  ['Windows-1252', text('Windows-1252 (Western Europe)')], ['Windows-1250', text('Windows-1250 (Central Europe)')],
  ['Windows-1251', text('Windows-1251 (Cyrillic)')], ['Windows-1253', text('Windows-1253 (Greek)')],
  ['Windows-1254', text('Windows-1254 (Turkish)')],
];
const UNREAD = { ok: false, kind: 'unread here' };
const STOPPED = { ok: false, kind: 'stopped' };
const UNCONFIRMED = { ok: false, kind: 'unconfirmed' };
const UNSEEN = { ok: false, kind: 'unseen' };

const WORDS = {
  'unread here': [text('The file was not sent: it cannot be read here.'), text('Choose it again.')],
  stopped: [text('The file was not sent: the office would refuse it.'), text('Correct what is said above, and choose the file again.')],
  unconfirmed: [text('The file was not sent.'), text('Read what is said above. If it is meant so, tick “Take it in all the same”.')],
  unseen: [text('The file was not sent.'), text('It was not looked at. If it is to come in so, tick “Take it in unseen”.')],
};

const PROBLEMS = {
  away: [text('This file was not looked at: the service for it is not running.'),
    text('It can be imported unseen: fields whose columns it lacks are emptied without a question, and other encodings or separators are refused.')],
  failed: [text('This file could not be looked at.'), text('Tell whoever runs the office: its journal says why.')],
};

/** Has the file of an input looked at whenever one is chosen. */
export function fileReader(input) {
  const reader = {
    panel: el('div', { class: 'seen-in-file', role: 'status' }), reading: Promise.resolve(),
    seen: null, problem: null, newest: null, chosen: null, how: {},
    toSend: (file) => (typeof reader.seen?.text === 'string' ? new File([reader.seen.text], file.name) : file),
    objection: (file) => objectionTo(reader, file),
    words: (answer) => WORDS[answer.kind] ?? refusalOfRow(reader, answer),
    hasDrafts: () => reader.seen?.counts?.drafts > 0,
    focus: (form, answer) => focusAfter(form, answer, reader),
    clear: () => reader.panel.replaceChildren(),
  };
  input.addEventListener('change', () => { reader.reading = read(reader, input.files[0]); });
  return reader;
}

async function read(reader, file, how = {}) {
  Object.assign(reader, { seen: null, problem: null, chosen: file, how });
  reader.panel.replaceChildren();
  if (!file || file.size > LARGEST_FILE) return reader.panel.replaceChildren(...(file ? [tooLarge()] : []));
  reader.panel.replaceChildren(el('p', { class: 'waiting' }, text('Reading the file …')));
  const bytes = await bytesOf(file);
  const answer = bytes && await lookAt(bytes, how);
  if (reader.how !== how) return null; // another one was chosen meanwhile, or another way to read it
  Object.assign(reader, { seen: answer?.ok ? answer.value : null, problem: answer?.ok === false ? answer.kind : null });
  return reader.panel.replaceChildren(...(answer ? panelParts(reader) : []));
}

/** The bytes of a file, or null if it cannot be read. */
async function bytesOf(file) {
  try {
    return await file.arrayBuffer();
  } catch {
    return null;
  }
}

function tooLarge() {
  const [means, todo] = deskWords({ ok: false, kind: 'large' });
  return note('refused', el('p', {}, el('strong', {}, means), ' ', todo));
}

/** A text as the service tells it, in the language of the page: front/look/wording.py says what there is. */
function told(one) {
  if (typeof one !== 'object') return String(one);
  if (one.parts) return one.parts.map(told).join('');
  if (one.list) {
    const list = one.list.map(told).join(', ');
    return one.more > 0 ? text('{list} and {number} more', { list, number: written(one.more) }) : list;
  }
  if ('number' in one) return counted(one.number, one.one, one.other);
  return text(one.text, Object.fromEntries(Object.entries(one.values).map(([place, value]) => [place, told(value)])));
}

const hasLevel = ({ advice }, wanted) => advice.some(([, level]) => level === wanted);

/** What may be read otherwise: the letters of one of Windows' encodings, and dates that stand in two other columns. */
function otherwise(reader) {
  const { seen, how } = reader;
  const again = (change) => { reader.reading = read(reader, reader.chosen, { ...how, ...change }); };
  const encoding = selectField('', text('Encoding'), seen.encoding ? ENCODINGS : [['', text('None of these')], ...ENCODINGS]);
  const select = encoding.querySelector('select');
  select.value = seen.encoding ?? '';
  select.addEventListener('change', () => again({ encoding: select.value }));
  const fill = el('button', { type: 'button', click: () => again({ fillsDates: true }) }, text('Fill in eventDates'));
  return [seen.encoding !== null && encoding, seen.advice.some(([name]) => name === 'undated') && el('p', { class: 'buttons' }, fill),
    how.fillsDates && el('p', { class: 'hint' }, text('In what the office gets, eventDates is filled in from eventStartDates and eventEndDates.'))];
}

function panelParts(reader) {
  const { seen, problem } = reader;
  if (problem) {
    const [means, todo] = PROBLEMS[problem];
    return [note('warns', el('p', { 'data-advice': problem }, el('strong', {}, means), ' ', todo)), confirmation(text('Take it in unseen'))];
  }
  const parts = Object.keys(LEVELS).map((level) => noteOf(level, seen.advice.filter(([, one]) => one === level)));
  return [...parts, ...otherwise(reader), hasLevel(seen, 'ask') && !hasLevel(seen, 'stop') && confirmation(text('Take it in all the same')),
    seen.counts && countTable(seen.counts), seen.boxes.length > 0 && sameBoxes(seen)].flat().filter(Boolean);
}

function noteOf(level, advice) {
  if (advice.length === 0) return null;
  const line = ([name, , says, todo]) => el('p', { 'data-advice': name }, el('strong', {}, told(says)), ' ', told(todo));
  return note(LEVELS[level], advice.map(line));
}

function confirmation(label) {
  return el('p', { class: 'field check' }, el('input', { id: 'confirmed', type: 'checkbox' }), el('label', { for: 'confirmed' }, label));
}

function countTable(counts) {
  const row = Object.keys(COUNTS).map((name) => written(counts[name]));
  return [table(text('What the file has'), Object.values(COUNTS), [row]),
    el('p', { class: 'hint' }, text('Which of its units are new, only the office knows: it tells it after the import.'))];
}

/** Why a file is not sent, as an answer of the form, or null. */
async function objectionTo(reader, file) {
  await reader.reading;
  if (file.size > LARGEST_FILE) return null;
  const { seen, problem, chosen } = reader;
  if (!(seen || problem) || file.name !== chosen?.name || file.size !== chosen.size) return UNREAD;
  if (seen && hasLevel(seen, 'stop')) return STOPPED;
  const box = reader.panel.querySelector('#confirmed');
  if (!box || box.checked) return null;
  return problem ? UNSEEN : UNCONFIRMED;
}

function focusAfter(form, answer, reader) {
  if (answer === null) return;
  const box = ['unconfirmed', 'unseen'].includes(answer.kind) ? reader.panel.querySelector('#confirmed') : null;
  (box ?? form.elements.file).focus();
}

/** The refusal of a file by row and cause: the row of both counts, its unit, and what to do. */
function refusalOfRow({ seen }, answer) {
  if (answer.refused !== 'BadFile') return null;
  const [means] = DESK.BadFile;
  const [cause, todo] = CAUSES[answer.cause] ?? [text('cause {number}', { number: answer.cause }), ''];
  const unit = seen?.units.find(([row]) => row === answer.row);
  if (unit) {
    const [row, sheet, legacy, title] = unit;
    const about = `, legacyId ${legacy}${title && `, ${quoted([...title].slice(0, 60).join(''))}`}`;
    return [`${means} ${text('Row {row} ({sheet} in the spreadsheet){unit}: {cause}.', { row, sheet, unit: about, cause })}`, todo];
  }
  if (answer.row > 0) return [`${means} ${text('Row {row}: {remark}.', { row: answer.row, remark: cause })}`, todo];
  return [`${means} ${cause[0].toUpperCase()}${cause.slice(1)}.`, todo];
}
