// The import of a file of descriptions: it is looked at first, and sent when nothing in it would be refused or lost unseen.

import { el, table } from '../shared/dom.js';
import { fileField, textField } from '../shared/fields.js';
import { commandForm } from '../shared/form.js';
import { counted, phrase, text } from '../shared/language.js';
import { LARGEST_FILE } from '../shared/limits.js';
import { deskWords, remarkWords } from '../shared/refusals.js';
import { importFile } from '../shared/routes.js';
import { differences } from './differences.js';
import { newDrafts } from './drafts.js';
import { onceMore } from './looks.js';
import { newestUnit } from './newest_unit.js';
import { keepLastFile } from './night_copy.js';
import { card, heldContainer } from './parts.js';
import { fileReader } from './seen.js';

const SHOWN = 200; // the most remarks that are listed

const BESIDE = [
  [text('A column that is missing is blank.'),
    text('Every unit in the file loses what the office has there. (AtoM’s own update leaves blank cells alone.)')],
  [text('A known unit keeps its status, its place and its closure.'),
    text('A unit is known by its source and its legacyId. To publish, move or close it, use its page under Units.')],
  [text('Only “Published” publishes.'), text('Without it a new unit is a draft, and the public sees nothing of it.')],
  [text('AtoM’s template and AtoM’s export are two sources.'), text('The export numbers the units anew.')],
  [text('A file of translations alone replaces the texts'), text('of units that the office has in another language.')],
  [text('“007” and “7” are two units.'), text('Keep legacyId as text in the spreadsheet.')],
  [text('The same name, location and kind is one container,'), text('whatever the archive: make names unique first. '
    + 'One that has moved is a new container; cancel the orders for the old one and place them again.')],
];

export function importPage() {
  const { form, reader } = importForm();
  return { title: text('Import'), content: [
    el('h1', {}, text('Import')),
    el('p', {}, text('Imports a CSV file of archival descriptions as AtoM exports it.')),
    el('div', { class: 'beside-form' },
      card(text('Import a file'), form),
      card(text('Good to know'), el('ul', { class: 'known' },
        BESIDE.map(([first, rest]) => el('li', {}, el('strong', {}, first), ` ${rest}`))))),
    card(text('What would change'), differences(() => toTry(form, reader))),
  ] };
}

/** The source and the file that the form has, as it would be sent; null if there is none. */
async function toTry(form, reader) {
  await reader.reading;
  const [file] = form.elements.file.files;
  return file && form.elements.source.checkValidity() ? { source: form.elements.source.value, file: reader.toSend(file) } : null;
}

function importForm() {
  const file = fileField('file', text('File'), {
    accept: '.csv,.txt,.tsv,.zip,text/csv', hint: text('CSV, at most 8 MiB and 20,000 rows. It is looked at before it is imported.'),
  });
  const reader = fileReader(file.querySelector('input'));
  const form = commandForm({
    key: 'import',
    fields: [
      textField('source', text('Source'), {
        value: 'catalogue', maxlength: 64, pattern: '(?!\\.{1,2}$)[A-Za-z0-9._\\-]+',
        title: text('Plain letters, digits, dots, underscores or hyphens'),
        hint: text('Always the same name for files of the same catalogue. Under another name every unit would come in a second time.'),
      }),
      file, reader.panel,
    ],
    button: text('Import the file'),
    before: (values) => reader.objection(values.file),
    send: (values) => send(values, reader),
    done: (value, values) => report(value, values, reader),
    explain: (answer) => reader.words(answer) ?? deskWords(answer, 'import'),
    help: heldContainer,
    focus: (shown, answer) => reader.focus(shown, answer),
    look: onceMore(text('what is in already is told as “unchanged”. Choose the same file and the same source.')),
  });
  form.addEventListener('reset', () => reader.clear());
  return { form, reader };
}

/** The number of the newest unit is looked up first, so that the new ones can be told afterwards. */
async function send({ source, file }, reader) {
  const sent = reader.toSend(file);
  if (sent.size > LARGEST_FILE) return { ok: false, kind: 'large' };
  reader.newest = reader.hasDrafts() ? await newestUnit() : null;
  const answer = await importFile(source, sent);
  if (answer.ok) await keepLastFile(source, sent);
  return answer;
}

function report(value, { source, file }, reader) {
  return [
    el('p', {}, el('strong', {}, phrase('{file} was imported from the source {source}.', { file: el('bdi', {}, file.name), source }))),
    table(text('Rows'), [text('New units'), text('Changed'), text('Unchanged'), text('Translations, passed over')],
      [[value.new, value.changed, value.same, value.translations].map(String)]),
    newDrafts(value.new, reader),
    remarks(value.remarks),
  ];
}

function remarks(list) {
  if (list.length === 0) return el('p', {}, text('There is nothing to look at.'));
  return [
    el('p', {}, el('strong', {}, text('Please look at these rows.')), ' ', text('They were imported all the same.')),
    el('ul', { class: 'remarks' }, list.slice(0, SHOWN).map(({ kind, row }) =>
      el('li', {}, text('Row {row}: {remark}.', { row, remark: remarkWords(kind) })))),
    list.length > SHOWN ? el('p', {}, counted(list.length - SHOWN, 'And {number} more.', 'And {number} more.')) : null,
  ];
}
