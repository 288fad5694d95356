// The lists that each night's backup makes, as the desk's site has them.

const CELL = /(?:"([^"]*(?:""[^"]*)*)"|([^",\r\n]*))(,|\r?\n|$)/gy;

/** The rows of a list, each by the names of its columns, and the day on which it was made; null if it is not there. */
export async function nightList(name) {
  try {
    const response = await fetch(`/lists/${name}.csv`, { cache: 'no-cache', redirect: 'error' });
    if (!response.ok) return null;
    const [head, ...rows] = rowsOf((await response.text()).replace(/^\ufeff/, ''));
    const made = new Date(response.headers.get('Last-Modified') ?? Date.now());
    return { made, rows: rows.map((cells) => Object.fromEntries(head.map((column, place) => [column, asTold(cells[place])]))) };
  } catch {
    return null;
  }
}

/** The rows of a CSV file as record-office-lists writes it, each a list of its cells. */
function rowsOf(file) {
  const rows = [];
  let cells = [];
  for (const [whole, quoted, plain, end] of file.matchAll(CELL)) {
    if (whole === '') break;
    cells.push(quoted?.replaceAll('""', '"') ?? plain);
    if (end === ',') continue;
    rows.push(cells);
    cells = [];
  }
  return rows;
}

/** The lists mark as text what a spreadsheet would calculate. */
const asTold = (value = '') => (/^'[=+\-@]/.test(value) ? value.slice(1) : value);
