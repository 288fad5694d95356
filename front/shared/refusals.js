// The one module that knows what a refusal means at the desk: refusals.json has its texts, by the names of docs/RULES.md, and also
// those for readers, whose service (front/readers/orders.py) reads the same file. Each text is two sentences or more: what the
// answer means, and what to do. `after` has what a refusal means more exactly after one command, `causes` the causes of a refused file.

import { text, written } from './language.js';
import { DEEPEST, LONGEST_NAME, MOST_CONTAINERS, MOST_PERMITS, MOST_UNITS } from './limits.js';

const told = await (await fetch('/shared/refusals.json')).json();

const LIMITS = {
  levels: DEEPEST, letters: LONGEST_NAME, permits: MOST_PERMITS, units: written(MOST_UNITS), containers: written(MOST_CONTAINERS),
};
const inWords = (table) => Object.fromEntries(
  Object.entries(table).map(([name, texts]) => [name, texts.map((one) => text(one, LIMITS))]));

const AGAIN = text('Check the number and type it again.');

export const DESK = inWords(told.desk);

/** The causes of a refused file, by number. */
export const CAUSES = inWords(told.causes);

const AFTER = Object.fromEntries(Object.entries(told.after).map(([command, table]) => [command, inWords(table)]));

const REMARKS = {
  1: text('its level of description normally stands above the level of the unit that it is put below'),
  2: text('it is a top unit and lacks one of the six essentials: reference code, title, creator, dates, extent, level'),
};

const OTHERS = {
  missing: [text('There is nothing with this number.'), AGAIN],
  unread: [text('The office could not read the request. Nothing was changed.'), text('Check what was typed.')],
  large: [text('The file is larger than 8 MiB. Nothing was changed.'), text('Divide it, or have whoever runs the office take it in.')],
  barred: [text('The front server did not let the request through. Nothing was changed.'), text('Load this page again and sign in.')],
  often: [text('Too many requests came from here at once. This one was not passed on.'), text('Wait a moment and try again.')],
  unsent: [text('The office is not running, or too many people are waiting. Your request was not passed on, and nothing was changed.'),
    text('Try again in a minute.')],
  silent: [text('The office did not answer.'), text('Try again in a minute.')],
  uncertain: [text('The office did not say whether it was done.'), text('Look before you repeat it.')],
};

const PARTS = {
  archivist: text('This is for archivists.'),
  all: text('This is for those who have all parts.'),
};

/** What an unsuccessful answer means at the desk, and what to do. `command` is the command, if it matters. */
export function deskWords(answer, command) {
  if (answer.kind === 'part') return [PARTS[answer.needs], text('Nothing was changed. Ask a colleague, or whoever runs the office.')];
  if (answer.kind !== 'refused') return OTHERS[answer.kind];
  const [means, todo] = AFTER[command]?.[answer.refused] ?? DESK[answer.refused]
    ?? [text('The office refused it ({code} {refused}).', answer), text('Tell whoever runs the office.')];
  return [means + detail(answer), todo];
}

export function remarkWords(kind) {
  return REMARKS[kind] ?? text('it has remark {kind}, which these pages do not know', { kind });
}

function detail(answer) {
  if (answer.refused === 'WithReader') return ` ${text('It is container {container}.', answer)}`;
  return answer.refused === 'BadFile' && answer.row > 0 ? ` ${text('It is row {row}.', answer)}` : '';
}
