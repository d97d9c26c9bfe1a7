// The card of lines, records and replies (docs/CARD.md), shown as it is written: tables, sentences and points.
import { element } from './dom.js';

export function showCard(box, text) {
    for (const block of text.trim().split(/\n\n+/)) box.append(blockOf(block.split('\n')));
}

function blockOf(lines) {
    if (lines[0].startsWith('# ')) return element('h2', '', lines[0].slice(2));
    if (lines[0].startsWith('|')) return tableOf(lines);
    if (lines[0].startsWith('- ')) return element('ul', '', ...lines.map(line => element('li', '', ...inline(line.replace(/^- /, '')))));
    return element('p', '', ...inline(lines.join(' ')));
}

function tableOf(lines) {
    const cells = line => line.slice(1, -1).split('|').map(cell => cell.trim());
    const row = (line, tag) => element('tr', '', ...cells(line).map(cell => element(tag, '', ...inline(cell))));
    return element('table', '', element('thead', '', row(lines[0], 'th')), element('tbody', '', ...lines.slice(2).map(line => row(line, 'td'))));
}

// Text in which `code` stands.
function inline(text) {
    return text.split('`').map((part, i) => (i % 2 ? element('code', '', part) : part));
}
