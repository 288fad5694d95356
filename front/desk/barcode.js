// Barcodes in Code 39, which every barcode reader knows: each character is nine bars and spaces, three of them wide.

import { text } from '../shared/language.js';

const SVG = 'http://www.w3.org/2000/svg';
const WIDE = 3;

/** n is narrow, w is wide; the first is a bar. */
const PATTERNS = {
  0: 'nnnwwnwnn', 1: 'wnnwnnnnw', 2: 'nnwwnnnnw', 3: 'wnwwnnnnn', 4: 'nnnwwnnnw', 5: 'wnnwwnnnn', 6: 'nnwwwnnnn',
  7: 'nnnwnnwnw', 8: 'wnnwnnwnn', 9: 'nnwwnnwnn', B: 'nnwnnwnnw', T: 'nnnnwnwwn', '*': 'nwnnwnwnn',
};

/** The widths of a code's bars and spaces in turn, beginning with a bar. */
export function widthsOf(code) {
  return [...`*${code}*`].flatMap((letter) => [...PATTERNS[letter]].map((one) => (one === 'w' ? WIDE : 1)).concat(1));
}

/** A picture of a code; what it says stands below it. */
export function barcode(code) {
  const svg = node('svg', { class: 'barcode', role: 'img', 'aria-label': text('Barcode {code}', { code }), preserveAspectRatio: 'none' });
  let place = 10; // a margin of ten narrow bars
  let bars = '';
  widthsOf(code).forEach((width, turn) => {
    if (turn % 2 === 0) bars += `M${place} 0h${width}v40h-${width}z`;
    place += width;
  });
  svg.setAttribute('viewBox', `0 0 ${place + 9} 40`);
  svg.setAttribute('width', `${(place + 9) * 0.3}mm`);
  svg.append(node('path', { d: bars }));
  return figureOf(svg, code);
}

/** The code of an address, by the path of its dark squares. */
export function addressCode({ address, size, path }) {
  const edge = 4; // as many squares are free around it
  const svg = node('svg', { class: 'address-code', role: 'img', 'aria-label': text('Code of the address'), viewBox: `${-edge} ${-edge} ${size + 2 * edge} ${size + 2 * edge}` });
  svg.append(node('path', { d: path }));
  return figureOf(svg, address);
}

function figureOf(svg, code) {
  const figure = document.createElement('figure');
  figure.className = 'coded';
  const words = document.createElement('figcaption');
  const said = document.createElement('bdi'); // it has no language
  said.textContent = code;
  words.append(said);
  figure.append(svg, words);
  return figure;
}

function node(tag, attributes) {
  const made = document.createElementNS(SVG, tag);
  for (const [name, value] of Object.entries(attributes)) made.setAttribute(name, value);
  return made;
}
