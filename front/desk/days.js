// Days, and questions about days that are probably mistakes. The office itself reads no clock.

import { lastNumber } from '../shared/asking.js';
import { el } from '../shared/dom.js';
import { locale, text } from '../shared/language.js';
import { slip } from '../shared/routes.js';
import { readRun } from '../shared/texts.js';
import { isSure, STAYED } from './sure.js';

/** The day by the clock of this computer, as a suggestion. */
export function dayOfThisComputer() {
  const now = new Date();
  const two = (number) => String(number).padStart(2, '0');
  return `${now.getFullYear()}-${two(now.getMonth() + 1)}-${two(now.getDate())}`;
}

/** When something was read, by the clock of this computer: a time of today, or of another day. */
export function asOf(moment = new Date()) {
  const time = moment.toLocaleTimeString(locale, { hour: '2-digit', minute: '2-digit', hourCycle: 'h23' });
  const isToday = moment.toDateString() === new Date().toDateString();
  return isToday ? text('As of {time}.', { time }) : text('As of {day}, {time}.', { day: moment.toLocaleDateString('sv'), time });
}

/** The newest run as { run, day, lines }; run is 0 if there was none; null if the office does not answer. */
export async function newestRun() {
  const run = await lastNumber(slip);
  if (!run) return run === null ? null : { run: 0, day: null, lines: [] };
  const answer = await slip(run);
  return answer.ok ? { run, ...readRun(answer.value) } : null;
}

/** For a form's `before`: asks about a day that is past; `means` says what a past day means there. */
export async function askIfPast(day, means) {
  const today = dayOfThisComputer();
  if (day >= today) return null;
  return sureOrStayed(text('{day} is past', { day }), text('Go on with {day}', { day }),
    el('p', {}, text('By the clock of this computer today is {today}.', { today }), ' ', means));
}

export async function sureOrStayed(title, go, content) {
  return await isSure({ title, stay: text('Go back'), go, content }) ? null : STAYED;
}
