// What a page shows while it asks for many cards.

import { text, written } from '../shared/language.js';

const PAUSE = 500; // milliseconds between two looks at a list that still grows

/** Calls `show` at most twice a second. */
export function paced(show) {
  let last = performance.now();
  return (...values) => {
    if (performance.now() - last < PAUSE) return;
    last = performance.now();
    show(...values);
  };
}

/** How many cards have been read. */
export const progress = (done, all) => text('{done} of {all} cards read …', { done: written(done), all: written(all) });
