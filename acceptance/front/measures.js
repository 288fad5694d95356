// What access.py measures on a page. Each function gives the parts of the page that break a rule, or what is to be compared.
(() => {
  const all = (selector, within = document) => [...within.querySelectorAll(selector)];
  const told = (node) => node.outerHTML.replace(/\s+/g, ' ').slice(0, 110);
  const isShown = (node) => node.checkVisibility({ visibilityProperty: true }) && node.getClientRects().length > 0;
  const isUnseen = (node) => node.closest('.unseen') !== null || getComputedStyle(node).clipPath === 'inset(50%)'
    || (node.matches('.skip') && node !== document.activeElement);
  const USABLE = 'a[href], button, input, select, textarea, summary, [tabindex="0"]';
  const usable = () => {
    const dialog = document.querySelector('dialog[open]'); // what is behind a modal dialog cannot be used
    return all(USABLE, dialog ?? document).filter((node) => isShown(node) && !isUnseen(node) && !node.disabled);
  };

  // Colours

  const part = (value) => { const c = value / 255; return c <= 0.04045 ? c / 12.92 : ((c + 0.055) / 1.055) ** 2.4; };
  const light = ([r, g, b]) => 0.2126 * part(r) + 0.7152 * part(g) + 0.0722 * part(b);
  const rgb = (text) => text.match(/[\d.]+/g).map(Number);
  const ground = (node) => {
    for (let at = node; at; at = at.parentElement) {
      const colour = rgb(getComputedStyle(at).backgroundColor);
      if (colour.length < 4 || colour[3] > 0) return colour;
    }
    return [255, 255, 255];
  };
  const ratio = (one, other) => {
    const [a, b] = [light(one), light(other)].sort((x, y) => y - x);
    return (a + 0.05) / (b + 0.05);
  };

  /** 1.4.3: each text against its ground, as if none were large. */
  function contrast() {
    return all('body *').filter((node) => {
      const hasText = [...node.childNodes].some((one) => one.nodeType === 3 && one.data.trim());
      const isField = node.matches('input, select') && node.value;
      return (hasText || isField) && !isUnseen(node) && isShown(node) && ratio(rgb(getComputedStyle(node).color), ground(node)) < 4.5;
    }).map(told);
  }

  /** 1.4.11: the edges of fields, and the mark of the page that is shown. */
  function edges() {
    const poor = all('input:not([type=checkbox], [type=radio], [type=file], [type=hidden]), select').filter((node) => isShown(node)
      && ratio(rgb(getComputedStyle(node).borderTopColor), ground(node.parentElement)) < 3);
    return [...poor, ...all('header nav a[aria-current]').filter((node) => ratio(rgb(getComputedStyle(node).borderBottomColor), ground(node)) < 3)].map(told);
  }

  // Sizes

  /** A target with its label, since a press on that does the same. */
  function boxOf(node) {
    const boxes = [node, ...(node.labels ?? [])].map((one) => one.getBoundingClientRect());
    const [left, top] = [Math.min(...boxes.map((box) => box.left)), Math.min(...boxes.map((box) => box.top))];
    const [right, bottom] = [Math.max(...boxes.map((box) => box.right)), Math.max(...boxes.map((box) => box.bottom))];
    return { node, left, top, right, bottom, x: (left + right) / 2, y: (top + bottom) / 2 };
  }

  const isInSentence = (node) => node.matches('a') && getComputedStyle(node).display === 'inline'
    && [...node.parentElement.childNodes].some((one) => one.nodeType === 3 && /\p{L}/u.test(one.data));
  const isSmall = ({ left, right, top, bottom }) => right - left < 23.9 || bottom - top < 23.9;
  const distance = (x, y, box) => Math.hypot(Math.max(box.left - x, 0, x - box.right), Math.max(box.top - y, 0, y - box.bottom));

  /** 2.5.8: targets below 24 px, but those in a sentence, and those with 12 px around their middle for themselves. */
  function targets() {
    const boxes = usable().filter((node) => !node.matches('[tabindex="0"]')).map(boxOf);
    return boxes.filter((box) => isSmall(box) && !isInSentence(box.node) && boxes.some((other) => other !== box
      && (distance(box.x, box.y, other) < 12 || (isSmall(other) && Math.hypot(box.x - other.x, box.y - other.y) < 24))))
      .map((box) => `${Math.round(box.right - box.left)}x${Math.round(box.bottom - box.top)} ${told(box.node)}`);
  }

  /** 1.4.10: how far the page is wider than the window. */
  const over = () => document.documentElement.scrollWidth - innerWidth;

  /** 1.4.12: texts that are cut off once letters, words and lines are wider apart. */
  function spaced() {
    const sheet = new CSSStyleSheet();
    sheet.replaceSync('* { line-height: 1.5 !important; letter-spacing: .12em !important; word-spacing: .16em !important; } p { margin-bottom: 2em !important; }');
    document.adoptedStyleSheets = [sheet];
    const cut = all('body *').filter((node) => isShown(node) && !isUnseen(node) && !node.matches('input, select, .wide, pre, .told')
      && ['hidden', 'clip'].includes(getComputedStyle(node).overflowX) && node.scrollWidth > node.clientWidth + 1).map(told);
    const wider = over();
    document.adoptedStyleSheets = [];
    return wider > 0 ? [...cut, `the page by ${wider}`] : cut;
  }

  // Structure

  /** What a page must have once, and what must hold of its parts. */
  function structure() {
    const heads = all('main :is(h1, h2, h3, h4, h5, h6), dialog[open] h2').filter((node) => !node.closest('dialog')).map((node) => +node.tagName[1]);
    const ids = all('[id]').map((node) => node.id);
    return {
      language: document.documentElement.lang, title: /\S – \S/.test(document.title), zoom: !/user-scalable|maximum-scale/.test(document.querySelector('meta[name=viewport]')?.content ?? ''),
      lacking: ['header', 'nav[aria-label=Pages]', 'main', 'footer', '.skip'].filter((one) => !document.querySelector(one)),
      mains: all('main').length, h1: all('h1').length, headings: heads.every((level, at) => level <= (heads[at - 1] ?? 0) + 1) && all('h1, h2, h3, h4').every((node) => node.textContent.trim()),
      ids: ids.filter((id, at) => ids.indexOf(id) !== at), order: all('[tabindex]').filter((node) => node.tabIndex > 0).map(told),
      // 4.1.3: what is told later has the role of a status, and a fault that of an alert
      silent: all('.told, .outcome, .about, .seen-in-file').filter((node) => node.getAttribute('role') !== 'status')
        .concat(all('.wrong').filter((node) => node.getAttribute('role') !== 'alert')).map(told),
      // 3.3.2: a field has a label (a title alone would count as a name), and a hint is tied to its field
      unlabelled: all('input:not([type=hidden]), select').filter((node) => node.labels.length === 0 && !node.getAttribute('aria-labelledby')).map(told),
      loose: all('.field .hint').filter((node) => !node.parentElement.querySelector('input, select')?.getAttribute('aria-describedby')?.split(' ').includes(node.id)).map(told),
      // 1.3.1: choices that belong together have a name, and tables their heads
      groups: all('fieldset').filter((node) => !node.querySelector('legend')?.textContent.trim()).map(told),
      pictures: all('svg, img').filter((node) => node.getAttribute('role') !== 'img' || !node.ariaLabel).map(told),
      tables: all('table').filter((node) => !node.caption || all('th', node).some((one) => one.scope !== 'col' || !one.textContent.trim())).map(told),
      // 2.5.3: the name of what is pressed begins with what is seen on it
      names: all('button, a[href]').filter((node) => node.ariaLabel && !node.ariaLabel.includes(node.innerText.trim())).map(told),
      // 2.1.1: what scrolls sideways can be scrolled by keys
      fixed: all('.wide, pre.slip').filter((node) => isShown(node) && ['auto', 'scroll'].includes(getComputedStyle(node).overflowX) && node.tabIndex !== 0).map(told),
      // texts of the office have a direction of their own
      directions: all('.words, .aid [data-depth]').filter((node) => isShown(node) && !node.dir && node.tagName !== 'BDI' && ![...node.children].some((one) => one.dir || one.tagName === 'BDI')).map(told),
    };
  }

  // Focus

  /** 2.1.1: what must be a stop of the Tab key; of radio buttons only one is. */
  const stops = () => usable().filter((node) => node.tabIndex === 0 && node.type !== 'radio').map((node) => keyOf(node));
  const keys = new WeakMap();
  let last = 0;
  function keyOf(node) {
    if (!keys.has(node)) keys.set(node, `${++last} ${told(node)}`);
    return keys.get(node);
  }

  /** What has the focus: whether its ring is seen, and whether something lies over it (2.4.7, 2.4.11). */
  function focus() {
    const node = document.activeElement;
    const style = getComputedStyle(node);
    const around = ground(node.parentElement ?? node);
    const hasRing = style.outlineStyle !== 'none' && parseFloat(style.outlineWidth) >= 2 && ratio(rgb(style.outlineColor), around) >= 3;
    const rects = [...node.getClientRects()];
    const places = rects.flatMap(({ left, top, width, height }) => [0.1, 0.5, 0.9].flatMap((x) => [0.15, 0.5, 0.85].map((y) => [left + width * x, top + height * y])))
      .filter(([x, y]) => x >= 0 && y >= 0 && x < innerWidth && y < innerHeight);
    const isFree = places.some(([x, y]) => { const top = document.elementFromPoint(x, y); return top !== null && (node.contains(top) || top.contains(node)); });
    return { key: keyOf(node), isBody: node === document.body, hasRing, isFree };
  }

  // Other ways to see a page

  /** With colours forced: what was told apart by its ground has an edge, and a button that cannot be pressed looks so. */
  function forced() {
    const bare = all('button, .card, .note, details.order summary').filter((node) => isShown(node) && ['Top', 'Right', 'Bottom', 'Left'].some((side) => (
      parseFloat(getComputedStyle(node)[`border${side}Width`]) < 1 || getComputedStyle(node)[`border${side}Style`] === 'none')));
    const gray = document.createElement('span');
    gray.style.color = 'GrayText';
    document.body.append(gray);
    const colour = getComputedStyle(gray).color;
    gray.remove();
    return [...bare, ...all('button[aria-disabled=true]').filter((node) => getComputedStyle(node).color !== colour)].map(told);
  }

  /** On paper: what is of use on a screen alone is gone, texts are black on white, and nothing is cut off. */
  function printed() {
    const kept = all('header.site, footer.site, .skip, form.look, form.find, form.command .field, .buttons, .no-print').filter(isShown);
    const pale = all('main p, main dd, main li, main td').filter((node) => isShown(node) && ratio(rgb(getComputedStyle(node).color), [255, 255, 255]) < 4.5);
    const dark = [document.body, ...all('.card, .note, .aid, mark')].filter((node) => ratio(ground(node), [255, 255, 255]) > 1.3);
    return [...kept, ...pale, ...dark, ...all('.wide').filter((node) => getComputedStyle(node).overflowX !== 'visible')].map(told);
  }

  /** What moves, though the reader's system says that nothing should. */
  const moving = () => all('body *').filter((node) => /[1-9]/.test(getComputedStyle(node).transitionDuration + getComputedStyle(node).animationDuration)).map(told);

  // Texts

  const TEXTS = 'button, summary, label, legend, th, td:not(:has(.words)), h1, h2, nav a, .buttons a, .tools a, .links a';

  /** Words that are broken, or run over the edge of what they stand on, because they are too long. */
  function long() {
    return all(TEXTS).filter((node) => isShown(node) && !isUnseen(node)).flatMap((node) => wordsOf(node)
      .filter((word) => isTooLong(word, node)).map((word) => `${word} in ${told(node)}`));
  }

  /** The words of an element as parts of the page; what is written on both sides of a hyphen or a stroke may be parted. */
  function wordsOf(node) {
    const walker = document.createTreeWalker(node, NodeFilter.SHOW_TEXT);
    const found = [];
    for (let text = walker.nextNode(); text; text = walker.nextNode()) {
      if (text.parentElement.closest('.unseen, .words')) continue;
      for (const { 0: word, index } of text.data.matchAll(/[^\s\-\u2010-\u2015/]+/g)) found.push(rangeOf(text, index, word.length));
    }
    return found;
  }

  function rangeOf(text, index, length) {
    const range = document.createRange();
    range.setStart(text, index);
    range.setEnd(text, index + length);
    return range;
  }

  const linesOf = (range) => new Set([...range.getClientRects()].filter(({ width }) => width > 0).map(({ top }) => Math.round(top))).size;

  function isTooLong(word, node) {
    const box = node.getBoundingClientRect();
    const rects = [...word.getClientRects()].filter(({ width }) => width > 0);
    const end = node.closest('.wide') ? box.right : Math.min(box.right, innerWidth);
    return linesOf(word) > 1 || rects.some(({ left, right }) => left < box.left - 1 || right > end + 1);
  }

  /** The texts of the pages, without what the archive or a program has written. */
  function ownTexts() {
    const walker = document.createTreeWalker(document.body, NodeFilter.SHOW_TEXT);
    const found = [];
    for (let text = walker.nextNode(); text; text = walker.nextNode()) {
      const isOwn = text.parentElement.closest('[lang]').lang !== '' && !text.parentElement.closest('pre, bdi, code, script, style, template, noscript, .languages');
      if (isOwn) found.push(text);
    }
    return found;
  }

  /** Marks that do not have beside them the space that French has there, at which no line ends. Times have none. */
  const unspaced = () => ownTexts().map(({ data }) => data)
    .filter((data) => /(?<![\u00a0\u202f])[:;?!»]|«(?![\u00a0\u202f])/.test(data.replace(/\d:\d/g, '')));

  /** Marks that stand twice, as after an abbreviation at the end of a sentence. */
  const doubled = () => ownTexts().map(({ data }) => data).filter((data) => /([.,:;?!])\1/.test(data));

  /** Days that go on in the next line. */
  const parted = () => ownTexts().filter((text) => [...text.data.matchAll(/\d{4}-\d{2}-\d{2}/g)]
    .some(({ 0: day, index }) => linesOf(rangeOf(text, index, day.length)) > 1)).map(({ data }) => data);

  /** Tables that have to be scrolled sideways. */
  const scrolled = () => all('.wide').filter((node) => isShown(node) && node.scrollWidth > node.clientWidth).map((node) => node.ariaLabel);

  const OWN = '[lang=""], pre, bdi, code, script, style, template, noscript, .languages';

  /** Texts without a key, on a page in which each text that has one is in brackets. The archive's own have no language. */
  function unkeyed() {
    const walker = document.createTreeWalker(document.body, NodeFilter.SHOW_TEXT);
    const texts = [''];
    for (let text = walker.nextNode(); text; text = walker.nextNode()) {
      if (!text.parentElement.closest(OWN)) texts.push(text.data);
    }
    const named = all('[aria-label], [title], [placeholder], [alt]').filter((node) => !node.closest(OWN))
      .flatMap((node) => ['aria-label', 'title', 'placeholder', 'alt'].map((name) => node.getAttribute(name) ?? ''));
    return [texts.join(' '), ...named].flatMap(withoutBrackets);
  }

  /** The words outside of all brackets, which may stand in one another. */
  function withoutBrackets(text) {
    const rest = text.replace(/⟦[^⟦⟧]*⟧|\blegacyId\b/g, ' '); // names of columns have no other languages
    return rest === text ? text.match(/\p{L}{2,}[^⟦⟧]*/gu) ?? [] : withoutBrackets(rest);
  }

  return { contrast, edges, targets, over, spaced, long, unspaced, doubled, parted, scrolled, unkeyed, structure, stops, focus, forced, printed, moving };
})()
