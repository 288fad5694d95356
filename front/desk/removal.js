// The removal of a unit with all that is below it, after a question that says what goes.

import { el, words } from '../shared/dom.js';
import { commandForm } from '../shared/form.js';
import { counted, text } from '../shared/language.js';
import { deskWords } from '../shared/refusals.js';
import { aid, remove } from '../shared/routes.js';
import { headsOfAid } from '../shared/texts.js';
import { onceMore } from './looks.js';
import { heldContainer, said } from './parts.js';
import { isSure, STAYED } from './sure.js';

const SHOWN = 12; // the most units that are named

export function removeForm(unit, refresh) {
  return commandForm({
    key: `remove ${unit}`,
    fields: [el('p', { class: 'hint' }, text('You are shown first what would go.'))],
    button: text('Remove …'), kind: 'grave',
    before: () => askFirst(unit),
    send: () => remove(unit),
    done: async ({ units }) => {
      await refresh();
      return said(counted(units, 'Unit {unit} is removed: {number} unit in all.', 'Unit {unit} is removed: {number} units in all.', { unit }));
    },
    explain: (answer) => (answer === STAYED ? [text('Nothing was removed.'), ''] : deskWords(answer)),
    help: heldContainer,
    look: onceMore(text('“There is no unit with this number” means that it was removed.')),
  });
}

async function askFirst(unit) {
  const answer = await aid(unit);
  if (!answer.ok && answer.kind !== 'missing') return answer;
  const question = {
    title: text('Remove unit {unit} for good?', { unit }), stay: text('Keep it'), go: text('Remove unit {unit}', { unit }), kind: 'grave',
    content: [whatGoes(answer), el('p', {}, text('Drafts and closed units below it go too, and so do all permits for these units. '
      + 'Orders, runs and containers stay.'))],
  };
  return await isSure(question) ? null : STAYED;
}

function whatGoes(answer) {
  if (!answer.ok) return [el('p', {}, text('The public sees nothing of this unit, so these pages cannot show what goes with it.'))];
  const [own, ...below] = headsOfAid(answer.value);
  return [
    words(own, 'p', { class: 'goes' }),
    below.length === 0 ? el('p', {}, text('The public sees nothing below it.')) : [
      el('p', {}, counted(below.length, 'With it goes everything below it. The public sees {number} unit there:',
        'With it goes everything below it. The public sees {number} units there:')),
      el('ul', { class: 'goes-too' }, below.slice(0, SHOWN).map((head) => words(head, 'li'))),
      below.length > SHOWN && el('p', {}, counted(below.length - SHOWN, 'And {number} more.', 'And {number} more.'))],
  ];
}
