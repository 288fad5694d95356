// What is red on the machine, as record-office-status wrote it last. An office without that command has no such file.

import { el, words } from '../shared/dom.js';
import { phrase, text } from '../shared/language.js';
import { card } from './parts.js';

const OLD = 60 * 60 * 1000; // the status is written every five minutes

/** The card of what is red, or null. The lines are the machine's own words, in English. */
export async function redCard() {
  const status = await read();
  if (status === null) return null;
  const lines = status.lines.filter((line) => line.level > 0);
  const isOld = Date.now() - status.at * 1000 > OLD;
  if (lines.length === 0 && !isOld) return null;
  return card(text('Red on the machine'),
    el('ul', {}, lines.map((line) => el('li', {}, words(`${line.name}: ${line.text}`, 'span', { lang: 'en' })))),
    isOld ? el('p', {}, el('strong', {}, text('Nobody has looked since.'))) : null,
    el('p', { class: 'quiet' }, phrase('As of {time}. Please tell whoever looks after the machine.', { time: status.made })));
}

async function read() {
  try {
    const answer = await fetch('/lists/status.json', { cache: 'no-cache', redirect: 'error' });
    return answer.status === 200 ? await answer.json() : null;
  } catch {
    return null;
  }
}
