// The desk's pages, by the address after the #.

import { languageLinks, text, translatePage } from '../shared/language.js';
import { start } from '../shared/router.js';
import { todayPage } from './today.js';
import { counterPage } from './counter.js';
import { containerPage } from './container.js';
import { readersPage } from './readers.js';
import { cardPage } from './card.js';
import { ordersPage } from './orders.js';
import { runsPage } from './runs.js';
import { slipPage } from './slip.js';
import { callSlipsPage, labelPage, ticketPage } from './prints.js';
import { oldPage } from './old.js';
import { outPage } from './out.js';
import { unitsPage } from './units.js';
import { importPage } from './import.js';
import { findPage, startField } from './find.js';
import { forgetReaders } from './kept.js';
import { tellOpenDay } from './open_day.js';
import { hideOthers, pageFor } from './signed_in.js';

hideOthers();
translatePage();
document.querySelector('.languages').append(...languageLinks());

startField(document.querySelector('form.in-hand'));

tellOpenDay();
window.addEventListener('hashchange', tellOpenDay); // somebody at another computer may have opened a day since

const NUMBER = '([1-9][0-9]{0,9})';
const at = (path) => new RegExp(`^#/${path}$`);

start([
  [/^#?\/?$/, todayPage],
  [at('counter'), counterPage],
  [at(`counter/${NUMBER}`), containerPage],
  [at(`counter/${NUMBER}/label`), labelPage],
  [at('readers'), readersPage],
  [at(`readers/${NUMBER}`), cardPage],
  [at(`readers/${NUMBER}/ticket`), ticketPage],
  [at('orders'), ordersPage],
  [at('orders/old'), oldPage],
  [at('runs'), runsPage],
  [at(`runs/${NUMBER}`), slipPage],
  [at(`runs/${NUMBER}/slips`), callSlipsPage],
  [at('out'), outPage],
  [at(`units(?:/${NUMBER})?`), unitsPage],
  [at('import'), pageFor('archivist', importPage)],
  [at('find/(.+)'), findPage],
], text('The desk'));

/** Who signs out leaves no readers in the tab. */
document.querySelector('a[href="/sign-out"]').addEventListener('click', forgetReaders);
