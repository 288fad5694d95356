// Which names count as the same, by the tables of words.json. The readers' service (front/readers/folding.py) reads words by the
// same tables, and acceptance/front/typed.txt has pairs that both must meet.

const tables = await (await fetch('/shared/words.json')).json();

const { letters, other, articles, marks, unseen, joining, zeros, traditional, simplified } = tables;
const simple = new Map([...traditional].map((letter, at) => [letter, [...simplified][at]]));
const WORD = /[\p{L}\p{Nd}\p{Nl}\p{M}\u00ad\u200c-\u200f]+/gu;
const DROPPED = new RegExp(`[${marks}${unseen}]`, 'gu');
const JOINED = new RegExp(`(?<=\\p{L})[${joining}](?=\\p{L})`, 'gu');
const INITIALS = /(?<!\p{L})(\p{L})\. ?(?=\p{L}(?!\p{L}))/gu;
const MAC = /(?<!\p{L})ma?c\s+(?=\p{L})/giu;
const ARTICLE = new RegExp(`(?<!\\p{L})(?:${articles.join('|')})(?=\\p{L}{3})`, 'gu');

/** A word as it is compared. McGregor and MacGregor are one name. */
export function fold(word) {
  return [...word.normalize('NFKD').replace(DROPPED, '').toLowerCase()].map(foldLetter).join('').replace(/^mc(?=\p{L}{2})/u, 'mac');
}

function foldLetter(letter) {
  const code = letter.codePointAt(0);
  if (code >= 0x30a1 && code <= 0x30f6) return String.fromCodePoint(code - 0x60); // katakana
  if (/\p{Nd}/u.test(letter)) return String(code - [...zeros].map((zero) => zero.codePointAt(0)).findLast((zero) => zero <= code));
  return letters[letter] ?? simple.get(letter) ?? letter;
}

/** The ways in which a name is read: as it stands, and with umlauts spelled out; both also with words joined, and parted. */
function readingsOf(name) {
  const spelled = name.normalize('NFC').toLowerCase().replace(/\P{ASCII}/gu, (letter) => other[letter] ?? letter);
  const apart = [folded(name), folded(spelled).replace(ARTICLE, '')];
  const joined = apart.map((one) => one.replace(INITIALS, '$1').replace(JOINED, '').replace(/\.(?=\s|$)/g, '').replace(MAC, 'mac'));
  return new Set([...apart, ...joined, ...apart.map((one) => one.replace(JOINED, ' '))]);
}

const folded = (text) => text.replace(WORD, fold).replace(/[\u2018\u2019\u02bc`\u00b4]/g, "'").replace(/[\u2010-\u2015\u2212]/g, '-');

/** Whether two names are the same in one of their readings. */
export function isSameName(one, another) {
  const readings = readingsOf(another);
  return [...readingsOf(one)].some((reading) => readings.has(reading));
}

/** Returns a function that says whether a name has every part that was typed. */
export function partsOf(typed) {
  const parts = typed.replace(MAC, 'Mac').split(/\s+/).filter(Boolean).map((part) => [...readingsOf(part)]);
  return (name) => {
    const readings = [...readingsOf(name)];
    return parts.every((part) => part.some((one) => readings.some((reading) => reading.includes(one))));
  };
}
