// What a script adds to pages that work without one: printing, a filter at each key, the list of what was collected and
// ordered in this tab, and no second order by a second click. All texts come with the page.

/** Pages had such addresses once. */
function leaveOldAddress() {
  if (location.hash.startsWith('#/')) location.replace(location.hash.slice(1));
}
leaveOldAddress();
window.addEventListener('hashchange', leaveOldAddress);

const KEY = 'list'; // kept until the tab is closed, and nowhere else
const PART = 10; // blocks of a large finding aid that are printed at a time: as a whole it takes longer than anybody waits
const PAUSE = 200; // milliseconds without a key before the office is asked
const REST = 800; // milliseconds before it is asked for what nobody waits for
const FEW = 5; // units that stay open on a small screen
const one = (selector, within = document) => within.querySelector(selector);
const all = (selector, within = document) => [...within.querySelectorAll(selector)];

// Printing

for (const button of all('[data-print]')) {
  button.hidden = false;
  button.addEventListener('click', () => window.print());
}
window.addEventListener('beforeprint', () => {
  for (const folded of all('details.above, details.contents')) folded.open = true; // what is folded would not be printed
});

for (const aid of all('.aid[data-large]')) {
  const blocks = all('.block', aid);
  const firsts = blocks.filter((block, at) => at % PART === 0);
  const button = one('[data-print]');
  const select = document.createElement('select');
  select.setAttribute('aria-label', button.textContent);
  firsts.forEach((block, part) => {
    select.add(new Option(`${part + 1} / ${firsts.length} – ${one('.unit', block).textContent}`, part));
  });
  const choose = () => blocks.forEach((block, at) => block.classList.toggle('printed', Math.floor(at / PART) === +select.value));
  select.addEventListener('change', choose);
  choose();
  aid.classList.add('parts');
  button.before(select);
}

// The contents of a unit

const contents = one('details.contents');
const level = one('details.level');
if (level && !contents && matchMedia('(min-width: 60rem)').matches) { // the column has room
  level.open = true;
  const [list, here] = [one('.units', level), one('[aria-current]', level)];
  list.scrollTop = here.offsetTop - list.offsetTop - list.clientHeight / 2;
}
if (contents && !matchMedia('(min-width: 60rem)').matches && !location.hash && !location.search) {
  contents.open = all('[data-shown] > ul > li', contents).length <= FEW; // else the description is far below them
}
if (location.hash === '#contents' && contents) contents.open = true;
window.addEventListener('hashchange', () => { if (location.hash === '#contents' && contents) contents.open = true; });

/** The page that the form leads to, as a document; a later key gives up what an earlier one asked for. */
function ask(address, show, fail) {
  const asked = new XMLHttpRequest();
  asked.open('GET', address);
  asked.responseType = 'document';
  asked.onload = () => (asked.status === 200 && asked.response ? show(asked.response) : fail());
  asked.onerror = fail;
  asked.send();
  return asked;
}

/** Shows what was found. The line that says how much stays where it is: only then is it read out. */
function showFound(page) {
  const [told, ...before] = one('[data-shown]').children;
  const [now, ...found] = one('[data-shown]', page).children;
  told.textContent = now.textContent;
  for (const shown of before) shown.remove();
  told.after(...found);
  addDates();
}

let rest = 0;
/** The dates of a long list come when the reader rests: for them the office is asked as much as for a search. */
function addDates() {
  clearTimeout(rest);
  for (const place of all('[data-dates]')) {
    place.hidden = true;
    rest = setTimeout(() => ask(one('a', place).href, (page) => {
      for (const facts of all('.facts', page)) {
        one(`[data-shown] a[href="${facts.previousElementSibling.getAttribute('href')}"]`)?.after(facts);
      }
    }, () => { place.hidden = false; }), REST);
  }
}
addDates();

for (const form of all('[data-filter]')) {
  const input = one('input', form);
  let wait = 0;
  let asked = null;
  const fail = () => {
    one('[data-shown] > .told').textContent = form.dataset.away;
    form.action = location.pathname; // to a place of this same address it would load nothing
  };
  const filter = () => {
    const query = new URLSearchParams(input.value.trim() ? { has: input.value } : {});
    history.replaceState(history.state, '', `${location.pathname}${query.size ? `?${query}` : ''}`);
    query.set('only', 'contents');
    asked = ask(`${location.pathname}?${query}`, showFound, fail);
  };
  input.addEventListener('input', () => {
    clearTimeout(wait);
    asked?.abort();
    wait = setTimeout(filter, PAUSE);
  });
}

// Orders

for (const form of all('form[method=post]')) {
  form.addEventListener('submit', (event) => {
    if (form.dataset.sent) event.preventDefault();
    form.dataset.sent = 'yes';
  });
  const forget = () => delete form.dataset.sent;
  window.addEventListener('pageshow', forget); // as it was left
  window.navigation?.addEventListener('navigateerror', forget); // the reader has stopped the browser
}
for (const box of all('details.order')) {
  box.addEventListener('toggle', () => { if (box.open && !one('.outcome')) one('input:not([type=hidden])', box).focus(); });
}

// The list: a container of a unit each, with its order once there is one. It is begun only if the reader wants it, and never where
// the browser refuses to keep anything.

function storeOfTab() {
  try {
    return sessionStorage;
  } catch {
    return null;
  }
}
const store = storeOfTab();
const shows = []; // what is done when the list has changed: on this page, or on another one before this is shown again as it was left
const refresh = () => shows.forEach((show) => show());
window.addEventListener('pageshow', ({ persisted }) => { if (persisted) refresh(); });

const keyOf = ({ unit, box }) => `${unit}-${box}`;
const kept = () => JSON.parse(store?.getItem(KEY) ?? '[]');

/** Keeps the list; one for which there is no room stays as it was. */
function keep(list) {
  try {
    if (list.length) store.setItem(KEY, JSON.stringify(list));
    else store?.removeItem(KEY);
  } catch (full) {
    console.warn(full);
  }
  refresh();
}

function add(entries) {
  const keys = entries.map(keyOf);
  keep([...kept().filter((old) => !keys.includes(keyOf(old))), ...entries]);
}

function showWays() {
  const list = kept();
  for (const link of all('[data-listed]')) {
    link.hidden = !list.length;
    one('span', link).textContent = list.length ? `(${list.length})` : '';
  }
}
shows.push(showWays);

/** Offers to put entries on the list: by a button, and where they are on it there is a way to it. */
function offer(place, entries) {
  const [button, link] = [one('button', place), one('a', place)];
  shows.push(() => {
    const keys = kept().map(keyOf);
    button.hidden = entries.every((entry) => keys.includes(keyOf(entry)));
    link.hidden = !button.hidden;
  });
  button.addEventListener('click', () => { add(entries); link.focus(); });
  place.hidden = false;
}

for (const place of store ? all('[data-collect]') : []) {
  const orders = new Map(all('[data-of]').map(({ dataset }) => [dataset.of, dataset.order]));
  const entries = all('[data-box]').map((line) => ({
    unit: place.dataset.collect, head: place.dataset.head, box: line.dataset.box, name: one('.words', line).textContent,
    cite: one('.citation').textContent, order: orders.get(line.dataset.box) ?? '',
  }));
  const ordered = entries.filter((entry) => entry.order);
  if (kept().length) add(ordered);
  offer(place, entries);
  for (const more of all('[data-keep]')) offer(more, ordered);
}

const done = new Map(all('[data-done]').map(({ dataset, textContent }) => [dataset.done, { order: dataset.number, told: textContent }]));
if (done.size) keep(kept().map((entry) => ({ ...entry, ...done.get(keyOf(entry)) }))); // what My orders has ordered

for (const form of all('[data-list]')) {
  const texts = JSON.parse(form.dataset.texts);
  if (!store) one('[data-none]', form).textContent = texts.refused;
  const told = new Map(all('[data-row]', form).map((row) => [keyOf(row.dataset), {
    order: row.dataset.order, told: one('[data-told]', row).textContent,
  }]));
  keep(kept().map((entry) => ({ ...entry, ...told.get(keyOf(entry)) })));
  const rowOf = (entry) => {
    const row = one('template', form).content.firstElementChild.cloneNode(true);
    one('[data-head]', row).href += entry.unit;
    one('[data-head]', row).textContent = entry.head;
    one('[data-name]', row).textContent = entry.name;
    one('[data-told]', row).textContent = entry.order ? texts.order.replace('#', entry.order) : entry.told;
    one('[data-cite]', row).textContent = entry.cite;
    one('.unseen', row).append(entry.name);
    if (entry.order) one('input', row).remove();
    else one('input', row).value = keyOf(entry);
    one('[data-drop]', row).hidden = false;
    one('[data-drop]', row).addEventListener('click', () => {
      keep(kept().filter((old) => keyOf(old) !== keyOf(entry)));
      location.assign(one('[data-listed] a').href);
    });
    return row;
  };
  shows.push(() => {
    const rows = kept().map(rowOf);
    if (rows.length || !told.size) one('ul', form).replaceChildren(...rows);
    one('[data-none]', form).hidden = Boolean(one('li', form));
    one('[data-open]', form).hidden = !one('ul input', form);
    for (const tools of all('[data-tools]')) tools.hidden = !rows.length;
  });
  one('[data-forget]').addEventListener('click', () => { keep([]); location.assign(one('[data-listed] a').href); });
  one('[data-csv]').addEventListener('click', () => save([texts.csv, ...kept().map(cells)]));
}
refresh();

one('.outcome:focus')?.scrollIntoView({ block: 'nearest' }); // it may have grown since it got the focus

/** A row of the list as it is saved. */
function cells({ unit, head, name, order, cite }) {
  return [cite, head, name, order, `${location.origin}/unit/${unit}`];
}

/** Saves rows as CSV, in which no cell is a formula. */
function save(rows) {
  const cell = (text) => `"${(/^[=+\-@\t\r]/.test(text) ? `'${text}` : text).replaceAll('"', '""')}"`;
  const link = document.createElement('a');
  link.href = URL.createObjectURL(new Blob([`\ufeff${rows.map((row) => row.map(cell).join(',')).join('\r\n')}\r\n`], { type: 'text/csv' }));
  link.download = 'list.csv';
  link.click();
  URL.revokeObjectURL(link.href);
}
