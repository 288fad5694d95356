// Runs: fetching what readers wait for, and the way to the slips.

import { el } from '../shared/dom.js';
import { lastNumber } from '../shared/asking.js';
import { numberField } from '../shared/fields.js';
import { commandForm } from '../shared/form.js';
import { phrase, text } from '../shared/language.js';
import { numberOf } from '../shared/numbers.js';
import { deskWords } from '../shared/refusals.js';
import { go } from '../shared/router.js';
import { fetchRun, slip } from '../shared/routes.js';
import { lookAtNewestRun } from './looks.js';
import { card, lookUp, runLink } from './parts.js';
import { forgetWaiting } from './waiting.js';

const LATEST = 8; // the most runs that are listed

export async function runsPage() {
  const newest = await lastNumber(slip);
  return { title: text('Runs'), content: [
    el('h1', {}, text('Runs')),
    el('div', { class: 'cards' },
      card(text('Fetch from the shelves'),
        el('p', {}, text('A run fetches the containers that readers have waited for longest, as many as one run takes. '
          + 'It leaves what is not open to its reader: closed, a draft, or no longer in any unit. Its slip says where they are.')),
        runForm()),
      card(text('Slips'), latest(newest), lookUp(numberField('run', text('Run')), text('Show the slip'), (typed) => go(`#/runs/${numberOf(typed)}`)))),
  ] };
}

function latest(newest) {
  if (newest === null) return el('p', {}, text('The office did not answer.'));
  if (newest === 0) return el('p', { class: 'quiet' }, text('There has been no run yet.'));
  const runs = Array.from({ length: Math.min(newest, LATEST) }, (_, place) => newest - place);
  return el('ul', { class: 'latest', 'aria-label': text('The latest runs') }, runs.map((run) => el('li', {}, runLink(run))));
}

function runForm() {
  return commandForm({
    key: 'run', button: text('Begin a run'),
    send: fetchRun,
    done: ({ run, taken }) => {
      forgetWaiting();
      go(`#/runs/${run}`);
      return el('p', {}, phrase('{run} fetches {taken}.', { run: runLink(run), taken }));
    },
    explain: (answer) => deskWords(answer, 'run'),
    look: lookAtNewestRun,
  });
}
