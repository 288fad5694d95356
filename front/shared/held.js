// Which forms are held shut because nobody knows whether their command was done. It is kept for this tab, so that
// neither another page nor loading the page again opens the form.

const PREFIX = 'held: ';

export function keepHeld(key, values) {
  const plain = Object.fromEntries(Object.entries(values).filter(([, value]) => typeof value === 'string'));
  sessionStorage.setItem(PREFIX + key, JSON.stringify(plain));
}

/** The values that were sent, or null if the form is not held. */
export function heldValues(key) {
  const kept = sessionStorage.getItem(PREFIX + key);
  return kept === null ? null : JSON.parse(kept);
}

export function releaseHeld(key) {
  sessionStorage.removeItem(PREFIX + key);
}
