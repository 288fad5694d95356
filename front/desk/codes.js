// Reference codes of containers, from the public finding aids: an aid names a container below the unit that lies in it.
// Reading all aids of a large office takes a while, so they are kept in this page.

import { el } from '../shared/dom.js';
import { counted } from '../shared/language.js';
import { aid, fonds } from '../shared/routes.js';
import { containersOfAid, readFonds, readHead } from '../shared/texts.js';

const known = new Map();
const SHOWN = 3; // the most codes of a container that are shown

/** The codes of the units that name this container, or whole head lines, if their parts are not certain. */
export function codesOf(container) {
  const heads = known.get(String(container)) ?? [];
  const codes = heads.slice(0, SHOWN).map((head) => readHead(head)?.code ?? head);
  return heads.length > SHOWN ? [...codes, counted(heads.length - SHOWN, 'and {number} more', 'and {number} more')] : codes;
}

/** The same as a list; nothing if none is known. */
export function codeList(container) {
  const codes = codesOf(container);
  return codes.length === 0 ? '' : el('ul', { class: 'codes' }, codes.map((code) => el('li', {}, el('bdi', {}, code))));
}

/** Reads the aids of all fonds if one of these containers is not known yet. Returns how many are still not known. */
export async function findCodes(containers) {
  const missing = () => containers.filter((container) => !known.has(String(container))).length;
  const answer = missing() > 0 ? await fonds() : { ok: false };
  if (!answer.ok) return missing();
  const found = new Map();
  for (const { number } of readFonds(answer.value)) {
    if (number) await readOne(number, found);
  }
  for (const [container, heads] of found) known.set(container, heads);
  return missing();
}

async function readOne(number, found) {
  const answer = await aid(number);
  if (!answer.ok) return;
  for (const [container, heads] of containersOfAid(answer.value)) found.set(container, [...(found.get(container) ?? []), ...heads]);
}
