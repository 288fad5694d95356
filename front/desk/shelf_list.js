// What goes back to its shelf: a list to print, in the order of the shelves, which the copy of the night knows.

import { el, printButton, table, words } from '../shared/dom.js';
import { locale, text } from '../shared/language.js';
import { boxLink } from './names.js';
import { boxesInCopy } from './night_copy.js';

export async function shelfList(containers) {
  const answer = await boxesInCopy(containers);
  const known = new Map(answer.ok ? answer.value.boxes.map((box) => [box.container, box]) : []);
  const order = new Intl.Collator(locale, { numeric: true }).compare; // shelf 9 before shelf 10
  const along = (one, other) => order(known.get(one).location, known.get(other).location) || order(known.get(one).name, known.get(other).name);
  const last = containers.filter((container) => !known.has(container));
  const shelves = [...containers.filter((container) => known.has(container)).sort(along), ...last];
  return el('div', { class: 'shelf-list' },
    table(text('Take these back to their shelves:'), [text('Location'), text('Container')], shelves.map((container) =>
      [known.has(container) ? words(known.get(container).location) : text('not known'), boxLink(container)])),
    last.length > 0 && el('p', { class: 'quiet' }, whyNotKnown(answer)),
    el('p', { class: 'buttons' }, printButton(text('Print this list'))));
}

function whyNotKnown(answer) {
  return answer.ok ? text('The last ones are newer than the copy of {time}, which has the places.', { time: answer.value.copy })
    : text('Where these boxes belong is not known now: there is no copy of the office, or the service for it is not running.');
}
