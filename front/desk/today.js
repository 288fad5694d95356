// The day: opening it, and the way through it.

import { el, link } from '../shared/dom.js';
import { dayField } from '../shared/fields.js';
import { commandForm } from '../shared/form.js';
import { counted, phrase, text } from '../shared/language.js';
import { deskWords } from '../shared/refusals.js';
import { issued, openDay } from '../shared/routes.js';
import { onceMore } from './looks.js';
import { asOf, dayOfThisComputer, newestRun } from './days.js';
import { dayThatIsOpen, tellOpenDay } from './open_day.js';
import { card, problem, runLink, said } from './parts.js';
import { redCard } from './red.js';
import { whoIsHere } from './signed_in.js';
import { isSure, STAYED } from './sure.js';

const WEEK = 7;

export async function todayPage() {
  return { title: text('Today'), content: [
    el('h1', {}, text('Today')), whoIsHere(),
    el('div', { class: 'cards' },
      await redCard(),
      card(text('Open a new day'), await whichDay(), dayForm()),
      card(text('Still out'), await stillOut()),
      card(text('The course of a day'), course())),
  ] };
}

function dayForm() {
  return commandForm({
    key: 'day',
    fields: [dayField('day', text('The new day'), { value: dayOfThisComputer(), hint: text('All seats become free. Nothing may be out.') })],
    button: text('Open the day'),
    before: ({ day }) => askFirst(day),
    send: ({ day }) => openDay(day),
    done: opened,
    explain: (answer) => (answer === STAYED ? [text('No day was opened.'), ''] : deskWords(answer)),
    focus: (form, answer) => { if (answer === null) form.elements.day.value = ''; form.elements.day.focus(); },
    look: onceMore(text('“not later than the day that is open” means that it was done.')),
  });
}

/** The opening of a day cannot be undone, so the page asks before it opens a day that is not today by the clock, and once more
 * before one that is over a week later. */
async function askFirst(day) {
  const today = dayOfThisComputer();
  if (day === today) return null;
  const later = (Date.parse(day) - Date.parse(today)) / 86_400_000;
  const title = text('Open {day}?', { day });
  const choice = { stay: text('Open no day'), go: text('Open {day}', { day }) };
  const isMeant = await isSure({ ...choice, title, content: el('p', {}, text('By the clock of this computer today is {today}.', { today }), ' ',
    later > 1 && [el('strong', {}, counted(later, '{day} is {number} day later.', '{day} is {number} days later.', { day })), ' '],
    text('A day that has been opened cannot be taken back: tickets that end before it expire, and what is closed until then opens.')) });
  const content = el('p', {}, text('No day before {day} can be opened then: not today, and none of the days between.', { day }));
  return isMeant && (later <= WEEK || await isSure({ ...choice, title, content })) ? null : STAYED;
}

function opened({ day }) {
  tellOpenDay();
  document.querySelector('.which-day')?.replaceChildren(text('{day} is open.', { day }));
  return said(text('{day} is open.', { day }));
}

/** Where nobody has told the day, the newest run shows that no earlier one is open. */
async function whichDay() {
  return el('p', { class: 'which-day quiet' }, await whichDayWords());
}

async function whichDayWords() {
  const day = await dayThatIsOpen();
  if (day !== null) return text('{day} is open.', { day });
  const newest = await newestRun();
  if (!newest?.day) return text('These pages cannot know which day is open: there has been no run yet.');
  return phrase('The newest is {run} of {day}: this day is open, or a later one.', { run: runLink(newest.run), day: newest.day });
}

async function stillOut() {
  const answer = await issued();
  if (!answer.ok) return problem(answer);
  const number = answer.value.length;
  return [el('p', {}, number === 0 ? text('Nothing is out.')
    : link('#/out', counted(number, '{number} container is out.', '{number} containers are out.'))),
    el('p', { class: 'quiet' }, asOf())];
}

function course() {
  return el('ol', {},
    el('li', {}, text('In the morning, open the day.')),
    el('li', {}, phrase('{runs} what readers are waiting for, and take the slip to the shelves.', { runs: link('#/runs', text('Fetch')) })),
    el('li', {}, phrase('At the {counter}, give each reader a seat, issue containers and take them back.', {
      counter: link('#/counter', text('counter')) })),
    el('li', {}, phrase('{orders} that come in during the day are fetched by further runs.', { orders: link('#/orders', text('Orders')) })),
    el('li', {}, phrase('In the evening, take back what is {out}, and reshelve.', { out: link('#/out', text('out')) })));
}
