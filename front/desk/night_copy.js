// The service that finds what somebody has in hand, looks at files, tries imports on the copy of the night, and keeps the last
// file of each source. It may be away: then these pages do without it.

/** { ok: true, value: { advice, counts, units, boxes, encoding, text } } as look_for_page.py says, or { ok: false, kind }: `away` or `failed`.
 * encoding: one of Windows' that was chosen; fillsDates: whether eventDates is filled from the other two columns. */
export async function lookAt(bytes, { encoding, fillsDates }) {
  const response = await post(`look${encoding ? `/${encoding}` : ''}${fillsDates ? '/dates' : ''}`, bytes);
  if (isAway(response)) return { ok: false, kind: 'away' };
  try {
    return response.ok ? { ok: true, value: await response.json() } : { ok: false, kind: 'failed' };
  } catch {
    return { ok: false, kind: 'away' };
  }
}

/** { ok: true, value: { copy, answer, refused, kinds, differences } }, or { ok: false, kind }: `away`, `no copy` or `failed`. */
export const differencesFrom = (source, file) => fromCopy(`differences/${encodeURIComponent(source)}`, file);

/** What may be meant by what was typed: { ok: true, value: { copy, units, boxes, readers, more, last } }, or as differencesFrom. */
export const findInCopy = (typed) => fromCopy('find', typed);

/** Where these boxes belong, and what in them is not open to everybody: { ok: true, value: { copy, boxes } }, or as differencesFrom. */
export const boxesInCopy = (containers) => fromCopy('boxes', JSON.stringify(containers.map(Number)));

/** The units that orders are for, as far as they are known, each order with its ticket and its container. */
export async function unitsWanted(orders) {
  const numbers = orders.map(({ order, ticket, container }) => [order, ticket, container].map(Number));
  const answer = numbers.length > 0 ? await fromCopy('wanted', JSON.stringify(numbers)) : { ok: false };
  return answer.ok ? answer.value.orders : [];
}

/** Tells the service for which unit an order is, or why one was refused. If nobody takes it, the order is as good. */
export const tellOrdered = (taken, refused) => post('ordered', JSON.stringify({ taken, refused }));

async function fromCopy(what, body) {
  const response = await post(what, body);
  if (isAway(response)) return { ok: false, kind: 'away' };
  if (response.status === 409) return { ok: false, kind: 'no copy' };
  return response.ok ? { ok: true, value: await response.json() } : { ok: false, kind: 'failed' };
}

/** Gives the service a file that was imported, which it keeps as the last one of its source. */
export const keepLastFile = (source, file) => post(`imported/${encodeURIComponent(source)}`, file);

const isAway = (response) => response === null || [404, 502, 503].includes(response.status);

async function post(what, file) {
  try {
    return await fetch(`/try/${what}`, { method: 'POST', body: file, cache: 'no-store', redirect: 'error' });
  } catch {
    return null;
  }
}
