// The day that is open, in the head of each page. The front server keeps what the office answered to whoever opened one last.

import { el, link } from '../shared/dom.js';
import { text } from '../shared/language.js';
import { dayOfThisComputer } from './days.js';

/** The day, or null: none was opened since this machine began, or the front server does not answer. */
export async function dayThatIsOpen() {
  try {
    // By its length and the second of its change nginx cannot tell two days that were opened within one: never a kept answer.
    const response = await fetch('/open-day.json', { cache: 'no-store', redirect: 'error' });
    return response.status === 200 ? (await response.json()).day : null;
  } catch {
    return null;
  }
}

/** Tells it. A day that is not today's leads to where one is opened. */
export async function tellOpenDay() {
  const day = await dayThatIsOpen();
  const told = day === dayOfThisComputer() ? el('span', {}, text('{day} is open.', { day }))
    : link('#/', text('{day} is open, which is not today.', { day }));
  document.querySelector('.open-day').replaceChildren(...(day === null ? [] : [told]));
}
