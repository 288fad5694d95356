// A head line on the page: its text unchanged, and its parts marked if they are certain. The day at the end of a closed unit's
// head is written out.

import { el, words } from './dom.js';
import { dayInWords, phrase } from './language.js';
import { dayOfClosure, readHead } from './texts.js';

export function headLine(head, tag = 'span') {
  const parts = readHead(head);
  if (!parts) return words(head, tag, { class: 'head' });
  return el(tag, { class: 'head words' },
    el('span', { class: 'code', dir: 'auto', lang: '' }, parts.code),
    el('span', { class: 'level', lang: '' }, ' [', el('bdi', {}, parts.level), '] '),
    dayOfClosure(head) ? el('span', { class: 'title', dir: 'auto' }, closure(head))
      : el('span', { class: 'title', dir: 'auto', lang: '' }, parts.title));
}

function closure(head) {
  const day = dayOfClosure(head);
  return phrase('closed until {day}', { day: el('time', { datetime: day }, dayInWords(day)) });
}
