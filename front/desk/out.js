// What is out, and what goes back to its shelf.

import { el, table } from '../shared/dom.js';
import { commandForm } from '../shared/form.js';
import { text, textAs } from '../shared/language.js';
import { deskWords } from '../shared/refusals.js';
import { issued, reshelve } from '../shared/routes.js';
import { onceMore } from './looks.js';
import { asOf } from './days.js';
import { boxLink, readerLink } from './names.js';
import { card, problem } from './parts.js';
import { shelfList } from './shelf_list.js';

export async function outPage() {
  const answer = await issued();
  return { title: text('Out now'), content: [
    el('h1', {}, text('Out now')),
    el('p', { class: 'quiet' }, asOf()),
    answer.ok ? outTable(answer.value) : problem(answer),
    card(text('Reshelve'),
      el('p', {}, text('Every container at the desk that nobody is waiting for goes back to its shelf. You get a list of them.')),
      reshelveForm()),
  ] };
}

function outTable(rows) {
  if (rows.length === 0) return el('p', {}, text('Nothing is out.'));
  return table(text('With readers'), [text('Container'), textAs('noun', 'Order'), text('Reader')], rows.map(({ container, order, ticket }) =>
    [boxLink(container), String(order), readerLink(ticket)]));
}

function reshelveForm() {
  return commandForm({
    key: 'reshelve', button: text('Reshelve'),
    send: reshelve,
    done: ({ containers }) => shelfList(containers),
    explain: (answer) => deskWords(answer, 'reshelve'),
    look: onceMore(text('“nothing to take back” means that it was done. Its list is lost then: carry back every container at the desk '
      + 'for which the counter shows that nobody is waiting.')),
  });
}
