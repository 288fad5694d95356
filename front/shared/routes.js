// The one module that knows the program's routes. Each call promises an answer, and none throws:
//   { ok: true, value }                          200
//   { ok: false, kind: 'refused', refused, .. }  409, with the members of the refusal
//   { ok: false, kind: 'missing' }               404: not there, or not shown
//   { ok: false, kind: 'unread' | 'large' }      the request was not taken (400, 405, 411, 501; 413)
//   { ok: false, kind: 'barred' | 'often' }      the front server did not pass it on (401, 403, 421; 429)
//   { ok: false, kind: 'part', needs }           the same: it is for another part of the staff (403)
//   { ok: false, kind: 'unsent' }                the front server could not give it to the program
//   { ok: false, kind: 'silent' }                a question that was not answered
//   { ok: false, kind: 'uncertain' }             a command, and nobody here knows whether it was done

const plain = (body) => body;

// Questions

export const fonds = () => ask('/public/fonds', plain);
export const unit = (number) => ask(`/public/units/${number}`, plain);
export const aid = (number) => ask(`/public/aid/${number}`, plain);
export const slip = (run) => ask(`/desk/runs/${run}`, plain);
export const reader = (ticket) => ask(`/desk/readers/${ticket}`, JSON.parse);
export const permits = (ticket) => ask(`/desk/permits/${ticket}`, JSON.parse);
export const queue = (container) => ask(`/desk/queue/${container}`, JSON.parse);
export const issued = () => ask('/desk/issued', JSON.parse);

/** The address and the code by which a reader sees My orders; not ok where an office has none. */
export const ownAddress = (ticket) => ask(`/my/${ticket}`, JSON.parse);

// Commands

export const order = (ticket, container) => tell('/public/orders', { ticket: +ticket, container: +container });
export const openDay = (day) => tell('/desk/day', { day });
export const register = (name, until) => tell('/desk/register', { name, until });
export const renew = (ticket, until) => tell('/desk/renew', { ticket: +ticket, until });
export const takeSeat = (ticket) => tell('/desk/seat', { ticket: +ticket });
export const leaveSeat = (ticket) => tell('/desk/leave', { ticket: +ticket });
export const cancel = (number) => tell('/desk/cancel', { order: +number });
export const fetchRun = () => tell('/desk/run', {});
export const reshelve = () => tell('/desk/reshelve', {});
export const issue = (container, ticket) => tell('/desk/issue', { container: +container, ticket: +ticket });
export const giveBack = (container) => tell('/desk/return', { container: +container });
export const permit = (ticket, unit, until) => tell('/desk/permit', { ticket: +ticket, unit: +unit, until });
export const revoke = (ticket, unit) => tell('/desk/revoke', { ticket: +ticket, unit: +unit });
export const setStatus = (unit, status, branch) => tell('/desk/status', { unit: +unit, status, branch });
export const setClosure = (unit, until) => tell('/desk/closure', { unit: +unit, until });
export const move = (unit, parent) => tell('/desk/move', { unit: +unit, parent: parent === null ? null : +parent });
export const remove = (unit) => tell('/desk/remove', { unit: +unit });
export const newSecret = (ticket) => tell(`/my/${ticket}`, {});
export const importFile = (source, file) => post(`/desk/import/${encodeURIComponent(source)}`, file);

// How they are sent

const ask = (path, read) => call(path, { method: 'GET' }, read, 'silent');
const tell = (path, members) => post(path, JSON.stringify(members));
const post = (path, body) => call(path, { method: 'POST', body }, JSON.parse, 'uncertain');

async function call(path, options, read, lost) {
  try {
    const response = await fetch(path, { ...options, cache: 'no-store', redirect: 'error' });
    return judge(response.status, await response.text(), read, lost);
  } catch {
    return { ok: false, kind: lost };
  }
}

function judge(status, body, read, lost) {
  if (status === 200) return { ok: true, value: read(body) };
  if (status === 409) return { ...JSON.parse(body), ok: false, kind: 'refused' };
  if (status === 503) return { ok: false, kind: isUnsent(body) ? 'unsent' : lost };
  if (status === 403 && body.includes('"not your part"')) return { ok: false, kind: 'part', needs: JSON.parse(body).needs };
  return { ok: false, kind: KINDS[status] ?? lost };
}

const KINDS = {
  400: 'unread', 401: 'barred', 403: 'barred', 404: 'missing', 405: 'unread',
  411: 'unread', 413: 'large', 421: 'barred', 429: 'often', 501: 'unread',
};

/** The front server's own 503 says that the program never received the request; the program's says {"error":"busy"}. */
const isUnsent = (body) => body.includes('"not reached"');
