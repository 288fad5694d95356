// Numbers as people and barcode readers type them.

/** What a field takes: digits, with spaces around them and zeros before them, as on many labels. */
export const TYPED = '\\s*0*[1-9][0-9]{0,9}\\s*';

/** The number as the program's routes want it, or null if none was typed. */
export function numberOf(typed) {
  const found = /^\s*0*([1-9][0-9]{0,9})\s*$/.exec(typed);
  return found ? found[1] : null;
}
