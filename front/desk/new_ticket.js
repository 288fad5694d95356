// How long a new reader's ticket is good, as the operator has set it in office.json: so many months, or up to a day of the year.

import { dayOfThisComputer } from './days.js';

const MONTHS = 12; // unless the operator has set something else

/** The last day that is suggested for a new ticket; nothing if none is to be. */
export async function suggestedLastDay() {
  return lastDayBy(await setting(), dayOfThisComputer());
}

async function setting() {
  try {
    const response = await fetch('/office.json', { cache: 'no-cache', redirect: 'error' });
    return response.status === 200 ? (await response.json()).ticket ?? MONTHS : MONTHS;
  } catch {
    return MONTHS;
  }
}

/** The last day by a setting: 12 is a year later, '12-31' the next 31 December. */
export function lastDayBy(ticket, today) {
  if (Number.isInteger(ticket) && ticket > 0) return monthsLater(today, ticket);
  if (!/^\d\d-\d\d$/.test(ticket)) return '';
  const year = Number(today.slice(0, 4));
  return today.slice(5) <= ticket ? `${year}-${ticket}` : `${year + 1}-${ticket}`;
}

/** The same day of a later month, or the last of that month if it is shorter. */
function monthsLater(day, months) {
  const [year, month, date] = day.split('-').map(Number);
  const last = new Date(Date.UTC(year, month + months, 0));
  last.setUTCDate(Math.min(date, last.getUTCDate()));
  return last.toISOString().slice(0, 10);
}
