// Reads the program's texts line by line, and never guesses. A line feed always ends a line; a value may hold anything
// else. So a line is recognised by its beginning, and the rest of it is shown as it is.

/** The lines of a text. */
function linesOf(text) {
  const lines = text.split('\n');
  if (lines.at(-1) === '') lines.pop();
  return lines;
}

/** The list of fonds: each line is a unit's number, a space, its head line. */
export function readFonds(text) {
  return linesOf(text).map((line) => numbered(line, '', ' ') ?? { number: null, rest: line });
}

/**
 * A head line in its parts: `CODE [LEVEL] TITLE`. Code, level and title may hold brackets themselves. So it is cut only
 * if one cut is possible: if ` [` and `] ` each occur in it once, in this order.
 */
export function readHead(head) {
  const open = placesOf(' [', head);
  const close = placesOf('] ', head);
  if (open.length !== 1 || close.length !== 1 || close[0] < open[0]) return null;
  return { code: head.slice(0, open[0]), level: head.slice(open[0] + 2, close[0]), title: head.slice(close[0] + 2) };
}

/** A unit's page: its head line, and its lower units. */
export function readPage(text) {
  const [head, ...lines] = linesOf(text);
  return { head, units: lines.map((line) => numbered(line, '  Unit ', ': ')).filter(Boolean) };
}

/** A finding aid: each line, and whether it is a unit's head line. */
function readAid(text) {
  return linesOf(text).map((line) => line.trimStart()).map((line) => ({ text: line, isHead: isHeadLine(line) }));
}

/** Only head lines begin with a country's two capitals: other lines begin with a digit or with `Container`. */
const isHeadLine = (line) => /^[A-Z]{2} /.test(line);

/** The head lines of a finding aid. */
export function headsOfAid(text) {
  return readAid(text).filter((line) => line.isHead).map((line) => line.text);
}

/** Which units of a finding aid name a container: the head lines, by the container's number. */
export function containersOfAid(text) {
  const found = new Map();
  let head = null;
  for (const line of readAid(text)) {
    if (line.isHead) head = line.text;
    const container = line.isHead ? null : numbered(line.text, 'Container ', ': ');
    if (container && head) found.set(container.number, [...(found.get(container.number) ?? []), head]);
  }
  return found;
}

/** The names of the containers of a finding aid. */
export function namesInAid(text) {
  return new Set(readAid(text).filter((line) => !line.isHead)
    .flatMap((line) => numbered(line.text, 'Container ', ': ')?.rest ?? []));
}

/**
 * The day at the end of a head line that ends like that of a closed unit, or null. A title may end like that too, so this
 * proves nothing about the unit.
 */
export function dayOfClosure(head) {
  return /\] closed until (\d{4}-\d\d-\d\d)$/.exec(head)?.[1] ?? null;
}

/**
 * The lines of a slip. Each ends with three numbers, whatever comes before them: the location and the container's name. The
 * head of a slip ends with its day.
 */
function readSlip(text) {
  return linesOf(text).flatMap((line) => {
    const found = / +([0-9]+) +([0-9]+) +([0-9]+)$/.exec(line);
    return found ? [{ place: line.slice(0, found.index), container: found[1], order: found[2], ticket: found[3] }] : [];
  });
}

/** A slip whole: its day, and its lines. */
export function readRun(text) {
  return { day: /^Run [0-9]+ {2}(\S+)/.exec(text)?.[1] ?? null, lines: readSlip(text) };
}

/** The location in a line of a slip, by the name of its container; null if the line does not end with this name. */
export function locationIn(place, name) {
  const printed = name.replace(/\r\n|\r|\n/g, ' ').trimEnd();
  return place.endsWith(printed) ? place.slice(0, place.length - printed.length).trimEnd() : null;
}

function numbered(line, before, after) {
  if (!line.startsWith(before)) return null;
  const end = line.indexOf(after, before.length);
  const number = line.slice(before.length, end);
  return end > 0 && /^[1-9][0-9]{0,9}$/.test(number) ? { number, rest: line.slice(end + after.length) } : null;
}

function placesOf(part, text) {
  const places = [];
  for (let at = text.indexOf(part); at >= 0; at = text.indexOf(part, at + 1)) places.push(at);
  return places;
}
