// Shows the page that the address names, and takes care of the title, the focus, the place on the page and the back button.

import { el } from './dom.js';
import { text } from './language.js';

const site = { pages: [], name: '', main: null };
let shown = null; // the page that is shown
let turn = 0;
let later = 0;

/**
 * pages: [pattern, page]; a page gets what the pattern matched and promises { title, content, focus, shown }.
 */
export function start(pages, name) {
  Object.assign(site, { pages, name, main: document.querySelector('main') });
  window.addEventListener('hashchange', showAgain);
  window.addEventListener('scroll', keepPlaceSoon, { passive: true });
  window.addEventListener('pagehide', keepPlace);
  document.addEventListener('click', keepPlace, true); // before a link that was clicked leads away
  document.querySelector('.skip').addEventListener('click', skip);
  history.scrollRestoration = 'manual';
  return showAgain();
}

/** Shows the page of this address, even if it is already shown. */
export async function go(address) {
  if (location.hash === address) await showAgain();
  else location.hash = address; // the browser then calls it
}

async function showAgain() {
  clearTimeout(later);
  const mine = ++turn;
  const kept = history.state;
  shown = null;
  const slow = setTimeout(() => mine === turn && site.main.replaceChildren(waiting()), 400);
  const page = await pageOrFailure(location.hash);
  clearTimeout(slow);
  if (mine !== turn) return;
  shown = page;
  site.main.replaceChildren(...[page.content].flat(Infinity).filter(Boolean));
  document.title = page.title ? `${page.title} – ${site.name}` : site.name;
  markCurrent();
  const target = page.focus ?? (mine > 1 ? heading() : null);
  target?.focus({ preventScroll: true });
  window.scrollTo(0, kept?.place ?? 0);
  page.shown?.();
}

/** A page that fails is a mistake in these pages; the console has it, and the window says what to do. */
async function pageOrFailure(address) {
  try {
    return await pageAt(address);
  } catch (mistake) {
    console.warn(mistake);
    return { title: text('This page failed'), content: [el('h1', {}, text('This page failed')),
      el('p', {}, text('There is a mistake in it, and it cannot be shown. Load it again. If it fails again, tell whoever runs the office:'), ' ',
        el('code', {}, String(mistake)))] };
  }
}

function pageAt(address) {
  for (const [pattern, page] of site.pages) {
    const found = pattern.exec(address);
    if (found) return page(...found.slice(1));
  }
  const title = text('No such page');
  return { title, content: [el('h1', {}, title), el('p', {}, text('Please choose one from the list at the top.'))] };
}

function heading() {
  const first = site.main.querySelector('h1') ?? site.main;
  first.tabIndex = -1;
  return first;
}

function waiting() {
  return el('p', { class: 'waiting', role: 'status' }, text('Waiting for the office …'));
}

const section = (place) => place.hash.split('/')[1] ?? '';

function markCurrent() {
  const here = section(location);
  for (const item of document.querySelectorAll('header nav a')) {
    if (section(item) === here) item.setAttribute('aria-current', 'page');
    else item.removeAttribute('aria-current');
  }
}

/** The place on the page is kept in the history entry, for when the reader comes back. */
function keepPlaceSoon() {
  clearTimeout(later);
  later = setTimeout(keepPlace, 150);
}

function keepPlace() {
  if (shown) history.replaceState({ ...history.state, place: Math.round(window.scrollY) }, '');
}

function skip(event) {
  event.preventDefault();
  heading().focus();
}
