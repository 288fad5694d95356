// For which unit an order is, where a reader or a colleague has said so. It is a hint for whoever fetches a box or hands it over.

import { el, words } from '../shared/dom.js';
import { phrase, text } from '../shared/language.js';
import { unitsWanted } from './night_copy.js';
import { unitLink } from './parts.js';
import { unitState } from './unit_field.js';

/** A function that gives an element for each of these orders, which says so as soon as it is known. show: how a unit is told. */
export function wantedOf(orders, show = onScreen) {
  const places = new Map(orders.map(({ order }) => [Number(order), el('div', { class: 'wanted' })]));
  unitsWanted(orders).then((units) => units.forEach((unit) =>
    places.get(unit.order)?.replaceChildren(...phrase('Wanted: {unit}', { unit: show(unit) }))));
  return ({ order }) => places.get(Number(order)) ?? '';
}

const named = (unit) => words([unit.code, unit.title].filter(Boolean).join(', '));

function onScreen(unit) {
  return unit.code ? el('span', {}, named(unit), ' ', unitState(unit)) : unitLink(unit.unit);
}

/** A call slip may come into a reader's hands: of what is not open to everybody it has the number alone. */
export const onPaper = (unit) => (unit.code && unitState(unit) === '' ? named(unit) : text('unit {unit}', { unit: unit.unit }));
