// Containers of a file that other archives in the office name too. The public finding aids have a container's name alone, so
// whether its location and kind are the same, too, somebody has to see.

import { el, words } from '../shared/dom.js';
import { counted, phrase, text } from '../shared/language.js';
import { aid, fonds } from '../shared/routes.js';
import { namesInAid, readFonds } from '../shared/texts.js';
import { endOfHead } from './drafts.js';

const SHOWN = 20; // the most names that are listed

/** A button that looks through the finding aids for the containers of what is seen in a file, and what it found. */
export function sameBoxes(seen) {
  const told = el('p', { class: 'told', role: 'status' });
  const list = el('ul', { class: 'same-boxes' });
  const ask = el('button', { type: 'button', class: 'plain', click: () => show(seen, told, list, ask) },
    text('Do other archives in the office name these containers?'));
  return el('div', {}, el('p', { class: 'buttons' }, ask), told, list);
}

async function show(seen, told, list, ask) {
  if (ask.getAttribute('aria-disabled') === 'true') return;
  ask.setAttribute('aria-disabled', 'true');
  told.textContent = text('Reading the public finding aids …');
  const found = await otherArchives(seen);
  ask.removeAttribute('aria-disabled');
  told.textContent = found === null ? text('The office did not answer. Try again in a minute.') : sentence(found);
  list.replaceChildren(...(found ?? []).slice(0, SHOWN).map(([name, heads]) =>
    el('li', {}, phrase('{name}: {value}', { name: words(name, 'strong'), value: words(heads.join('; ')) }))));
}

function sentence(found) {
  if (found.length === 0) return text('No other archive that the public sees names one of them.');
  const same = text('With the same location and kind it is the same container: closing one unit in it closes all. Make names unique first.');
  return `${counted(found.length, '{number} name is in other archives too.', '{number} names are in other archives too.')} ${same}`;
}

/** The names of the file's containers that archives not in this file have too, with the archives' head lines. */
async function otherArchives({ units, boxes }) {
  const names = new Set(boxes);
  const own = units.filter(([, , , , , isTop]) => isTop).map(([, , , title]) => endOfHead(title));
  const answer = await fonds();
  if (!answer.ok) return null;
  const found = new Map();
  for (const { number, rest } of readFonds(answer.value)) {
    if (!number || own.some((end) => rest.endsWith(end))) continue;
    const read = await aid(number);
    if (!read.ok && read.kind !== 'missing') return null;
    for (const name of read.ok ? namesInAid(read.value) : []) {
      if (names.has(name)) found.set(name, [...(found.get(name) ?? []), rest]);
    }
  }
  return [...found];
}
