// The number of the newest unit. No question shows drafts, so units are asked for by a command that is always refused and
// changes nothing: to put a unit below itself. `IntoItself` means that there is such a unit, `UnknownUnit` that there is none.

import { LAST_UNIT } from '../shared/limits.js';
import { fonds, move } from '../shared/routes.js';
import { readFonds } from '../shared/texts.js';

/** true, false, or null if the office does not answer. */
async function isUnit(number) {
  const answer = await move(number, number);
  return ['UnknownUnit', 'IntoItself'].includes(answer.refused) ? answer.refused === 'IntoItself' : null;
}

let known = 0; // the newest unit when this page last knew it

/** The highest number that can be reached from what is known; null if the office does not answer. */
export async function newestUnit() {
  const tops = await fonds();
  if (!tops.ok) return null;
  let last = Math.max(known, ...readFonds(tops.value).map(({ number }) => Number(number ?? 0)));
  for (;;) {
    last = await endOfRow(last);
    const beyond = last === null ? null : await nextAfter(last);
    if (beyond === null) return null;
    known = last;
    if (beyond === 0) return last;
    last = beyond;
  }
}

/** The last of the units that follow a number without a gap. */
async function endOfRow(number) {
  let low = number;
  let high;
  for (let step = 1; ; step *= 2) {
    high = low + step;
    const there = await isUnit(high);
    if (there === null) return null;
    if (!there) break;
    low = high;
  }
  while (high - low > 1) {
    const middle = Math.floor((low + high) / 2);
    const there = await isUnit(middle);
    if (there === null) return null;
    if (there) low = middle;
    else high = middle;
  }
  return low;
}

/** A unit after a gap (removed units leave gaps), 0 if there is none at a distance of 1, 2, 4, 8 and so on. */
async function nextAfter(number) {
  for (let step = 1; number + step <= LAST_UNIT; step *= 2) {
    const there = await isUnit(number + step);
    if (there !== false) return there === null ? null : number + step;
  }
  return 0;
}

/**
 * The first of the `added` units that came after `before` was the newest, or null if that is not certain. Numbers only grow,
 * and new units have numbers without a gap. So what is found where nothing was before is new, and the last there is the last.
 */
export async function firstOfNew(before, added) {
  const found = await nextAfter(before);
  const last = found ? await endOfRow(found) : null;
  if (last === null || last - added < before) return null;
  known = last;
  return last - added + 1;
}
