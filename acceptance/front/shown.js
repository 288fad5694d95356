// What a page shows, as lines that somebody can read: # heads, [links](to), (buttons), fields with their labels, rows of tables
// with | between cells, and what only a screen reader says in <>.
(() => {
  const squeeze = (text) => text.replace(/[ \n\t]+/g, ' ').trim();
  const isBlock = (node) => !/^(inline|contents)/.test(getComputedStyle(node).display);
  const isGone = (node) => getComputedStyle(node).display === 'none' || /^(SCRIPT|STYLE|TEMPLATE|NOSCRIPT|OPTION|SVG)$/i.test(node.tagName);
  const said = (node) => (node.ariaLabel ? `<${node.ariaLabel}>` : '');

  /** What stands in a line: texts, links, buttons and fields. */
  function inline(node) {
    if (node.nodeType === Node.TEXT_NODE) return node.data;
    if (node.nodeType !== Node.ELEMENT_NODE) return '';
    if (/^svg$/i.test(node.tagName)) return said(node);
    if (isGone(node)) return '';
    const text = squeeze([...node.childNodes].map(inline).join(''));
    if (node.matches('a')) return ` [${text}](${node.getAttribute('href')})${node.ariaCurrent ? '*' : ''} `;
    if (node.matches('button')) return ` (${text})${said(node)} `;
    if (node.matches('select')) return ` {${[...node.options].map((one) => one.text).join(' / ')}} `;
    if (node.matches('input')) return ` {${/^(text|search)$/.test(node.type) ? node.value : node.type}${node.checked ? ' x' : ''}} `;
    if (node.closest('.unseen')) return ` <${text}> `;
    return isBlock(node) ? ` ${text} ` : [...node.childNodes].map(inline).join('');
  }

  /** The lines of an element, of which those of blocks stand by themselves. */
  function lines(node) {
    if (isGone(node)) return [];
    if (node.matches('pre')) return node.textContent.split('\n').map((line) => `    ${line}`);
    if (node.matches('tr')) return [[...node.cells].map((cell) => squeeze(inline(cell))).join(' | ')];
    if (node.matches('.field')) {
      const own = [...node.children].filter((one) => one.matches('label, input, select'));
      return [squeeze(own.map(inline).join(' ')), ...[...node.children].filter((one) => !own.includes(one)).flatMap(lines)];
    }
    const blocks = [...node.children].filter((one) => isBlock(one) && !one.matches('button, input, select, svg'));
    if (blocks.length === 0) {
      const mark = { H1: '# ', H2: '## ', H3: '### ', LI: '- ', SUMMARY: '> ', LEGEND: '= ', CAPTION: '= ' }[node.tagName] ?? '';
      return [`${mark}${squeeze(inline(node))}`];
    }
    const found = [said(node)];
    for (const child of node.childNodes) {
      if (blocks.includes(child)) found.push(...lines(child), '');
      else found[found.length - 1] += inline(child);
    }
    return found.map((line) => (line.startsWith('    ') ? line : squeeze(line)));
  }

  return (selector) => lines(document.querySelector(selector)).filter((line) => line.trim() !== '').join('\n');
})()
