// Asks the program for many things of one kind, a few at a time. The program answers one request after the other, and
// other people wait for it too.

const AT_ONCE = 4;

/** The highest number from 1 on that exists, or 0; null if there was no answer. `ask(number)` promises an answer of routes.js. */
export async function lastNumber(ask) {
  let low = 0;
  for (let step = 1; ; step *= 2) {
    const there = await isThere(ask, low + step);
    if (there === null) return null;
    if (there) low += step;
    else return between(ask, low, low + step);
  }
}

/** low exists (or is 0), high does not. */
async function between(ask, low, high) {
  if (high - low === 1) return low;
  const middle = Math.floor((low + high) / 2);
  const there = await isThere(ask, middle);
  if (there === null) return null;
  return there ? between(ask, middle, high) : between(ask, low, middle);
}

async function isThere(ask, number) {
  const answer = await ask(number);
  if (answer.ok) return true;
  return answer.kind === 'missing' ? false : null;
}

/** Asks for each number, and calls `tell` with each answer as it comes. Ends early if `tell` returns false. */
export async function askEach(numbers, ask, tell) {
  let next = 0;
  let goesOn = true;
  const worker = async () => {
    while (goesOn && next < numbers.length) {
      const number = numbers[next++];
      const answer = await ask(number);
      if (goesOn && tell(number, answer) === false) goesOn = false;
    }
  };
  await Promise.all(Array.from({ length: AT_ONCE }, worker));
  return goesOn;
}
