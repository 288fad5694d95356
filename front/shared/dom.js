// Builds elements. What comes from the office is only ever set as text, so no value of it can become markup.

export function el(tag, attributes = {}, ...children) {
  const node = document.createElement(tag);
  for (const [name, value] of Object.entries(attributes)) put(node, name, value);
  node.append(...children.flat(Infinity).filter((child) => child !== null && child !== undefined && child !== false));
  return node;
}

function put(node, name, value) {
  if (value === false || value === null || value === undefined) return;
  if (typeof value === 'function') node.addEventListener(name, value);
  else node.setAttribute(name, value === true ? '' : String(value));
}

/** A text of the office, in a language that nobody knows, with its own direction of writing and its own spaces, never shortened. */
export function words(text, tag = 'span', attributes = {}) {
  return el(tag, { dir: 'auto', lang: '', ...attributes, class: `words ${attributes.class ?? ''}`.trim() }, text);
}

export function link(hash, ...children) {
  return el('a', { href: hash }, ...children);
}

/** A table that scrolls by itself if it is too wide; one of many columns becomes a list first, which has their heads in each row. */
export function table(caption, heads, rows) {
  const cells = (row) => row.map((cell, place) => el('td', { 'data-head': heads[place] }, cell));
  return el('div', { class: 'wide', role: 'group', tabindex: 0, 'aria-label': caption }, el('table', { class: heads.length > 2 && 'many' },
    el('caption', {}, caption),
    el('thead', {}, el('tr', {}, heads.map((head) => el('th', { scope: 'col' }, head)))),
    el('tbody', {}, rows.map((row) => el('tr', {}, cells(row))))));
}

export function printButton(text) {
  return el('button', { type: 'button', class: 'plain no-print', click: () => window.print() }, text);
}
