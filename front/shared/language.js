// The texts of the desk's pages in the language of who reads them. English stands in the code, and is the key of each text. The
// readers' service writes the texts of each language when it starts, and nginx has them as files: without such a file the pages
// are in English.

import { el } from './dom.js';

const KEPT = 'language'; // kept in the browser, for this site
const SOURCE = { code: 'en', direction: 'ltr', languages: {}, texts: {} };

/** What was chosen by `?lang=`, which the address loses again, or before; nothing if it was left to the browser. */
function chosen() {
  const address = new URL(location);
  const wish = address.searchParams.get('lang');
  if (wish === null) return localStorage.getItem(KEPT);
  address.searchParams.delete('lang');
  history.replaceState(history.state, '', address);
  localStorage.setItem(KEPT, wish);
  return wish;
}

/** The first of the wished languages that there is; English without a file for it. */
async function load() {
  const wished = [chosen(), ...navigator.languages.map((one) => one.toLowerCase().split('-')[0]), 'en'];
  for (const one of new Set(wished)) {
    const found = /^[a-z]{2,3}$/.test(one) ? await read(one) : null;
    if (found) return found;
  }
  return SOURCE;
}

async function read(name) {
  try {
    const answer = await fetch(`/texts/${name}.json`, { cache: 'no-cache' });
    return answer.status === 200 ? await answer.json() : null;
  } catch {
    return null;
  }
}

const { code, direction, languages, texts } = await load(); // what imports this module waits for it
const plurals = new Intl.PluralRules(code);

/** For days and numbers: English ones are written as in Britain. */
export const locale = code === 'en' ? 'en-GB' : code;

const DAY = /^\d{4}-\d{2}-\d{2}(, \d{2}:\d{2})?$/;

/** A text in this language, with its places in braces filled. */
export const text = (english, values = {}) => fill(texts[english] ?? english, values).join('');

/** The same as a list for `el`, whose values may be elements. A day stays on one line, with its time. */
export const phrase = (english, values = {}) => fill(texts[english] ?? english, values)
  .map((part) => (DAY.test(part) ? el('span', { class: 'whole' }, part) : part));

/** Words between the language's quotation marks. */
export const quoted = (words) => text('“{words}”', { words });

/** A word that is another one in other places; `context` says which one is meant. */
export const textAs = (context, english) => texts[`${context}\u0004${english}`] ?? english;

/** A name and what it names: before the colon between them some languages have a space. */
export const named = (name, value) => text('{name}: {value}', { name, value });

/** A text by how many there are: `{number}` stands for them. */
export function counted(number, one, many, values = {}) {
  const forms = texts[one] ?? { one, other: many };
  return fill(forms[plurals.select(number)] ?? forms.other, { number: written(number), ...values }).join('');
}

/** A number as people write it. */
export const written = (number) => number.toLocaleString(locale);

/** 2040-01-01 as `1 January 2040`; in French the first of a month is written otherwise. */
export function dayInWords(day) {
  const told = new Date(`${day}T00:00:00Z`).toLocaleDateString(locale, { day: 'numeric', month: 'long', year: 'numeric', timeZone: 'UTC' });
  return code === 'fr' ? told.replace(/^1 /, '1er ') : told;
}

function fill(words, values) {
  return words.split(/\{(\w+)\}/).map((part, place) => (place % 2 ? values[part] ?? `{${part}}` : part)).filter((part) => part !== '');
}

/** The texts that stand in the page itself: those of marked elements, and their labels. */
export function translatePage() {
  Object.assign(document.documentElement, { lang: code, dir: direction });
  for (const one of document.querySelectorAll('[data-text]')) one.textContent = text(one.textContent);
  for (const one of document.querySelectorAll('[data-label]')) one.ariaLabel = text(one.ariaLabel);
}

/** A link for each language, which shows the same page in it. */
export function languageLinks() {
  return Object.entries(languages).map(([other, name]) => {
    const link = document.createElement('a');
    Object.assign(link, { href: `?lang=${other}`, lang: other, hreflang: other, textContent: name });
    if (other === code) link.setAttribute('aria-current', 'true');
    link.addEventListener('click', () => { link.hash = location.hash; });
    return link;
  });
}
