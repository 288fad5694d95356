// Who has signed in, and with which part of the staff. What is not of that part is not shown; nginx refuses it in any case.

import { el, words } from '../shared/dom.js';
import { phrase, text } from '../shared/language.js';

const PARTS = ['counter', 'archivist', 'all']; // each may do what those before it may

const { name, part } = await read(); // what imports this module waits for it

export const may = (needed) => PARTS.indexOf(part) >= PARTS.indexOf(needed);

/** Takes away the links of the frame that lead to what is not of this part. */
export function hideOthers() {
  for (const one of document.querySelectorAll('[data-part]')) if (!may(one.dataset.part)) one.remove();
}

/** A page that is shown to who has this part. */
export const pageFor = (needed, page) => (may(needed) ? page : () => ({ title: text('Not your part'), content: [
  el('h1', {}, text('Not your part')), el('p', {}, text('This is for archivists.'))] }));

/** Who has signed in, if the front tells it. */
export function whoIsHere() {
  if (name === '') return null;
  const said = {
    counter: phrase('{name} has signed in, with the part of the counter.', { name: words(name) }),
    archivist: phrase('{name} has signed in, with the part of an archivist.', { name: words(name) }),
    all: phrase('{name} has signed in, with all parts.', { name: words(name) }),
  };
  return el('p', { class: 'quiet' }, said[part]);
}

async function read() {
  try {
    const answer = await fetch('/signed-in.json', { cache: 'no-store', redirect: 'error' });
    const told = await answer.json();
    return { name: told.name ?? '', part: PARTS.includes(told.part) ? told.part : 'all' }; // empty where nobody has a part
  } catch {
    return { name: '', part: 'all' };
  }
}
