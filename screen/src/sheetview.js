// The sheet as it is shown: an axis, values in mm or as speeds, and a chain of distances, converted by the proved conversions.
import { byId, element } from './dom.js';

// The fields of the form: id, label, value at first.
const AXIS_FIELDS = [
    ['lead', 'Lead, mm of travel for one turn', '5'],
    ['turn', 'Steps for one turn', '400'],
    ['gear', 'Gear, 1 if there is none', '1'],
];

export function showSheet(sheet) {
    const values = textArea('values', 'Values, one to a line: 10, -2.5 mm, 600 mm/min, 10 mm/s, 900 steps/s', '10\n-2.5\n600 mm/min');
    const chain = textArea('chain', 'A chain of distances that follow each other: 0.333, or 30 x 0.333', '0.333\n0.333\n0.333');
    const out = element('div', 'result');
    out.id = 'sheet-result';
    out.setAttribute('aria-live', 'polite');
    const each = sheetButton('convert', 'Convert each');
    const all = sheetButton('convert-chain', 'Convert the chain');
    const form = element('form', '', ...AXIS_FIELDS.map(axisField), values, each, chain, all);
    byId('panel-sheet').append(element('h2', '', 'Millimetres into steps'), form, out);
    form.addEventListener('submit', event => event.preventDefault());
    byId('convert').addEventListener('click', () => showLines(out, linesIn('values').map(line => sheet.convert(...axisTexts(), line).text)));
    byId('convert-chain').addEventListener('click', () => {
        const { rows, total } = sheet.chain(...axisTexts(), linesIn('chain'));
        showLines(out, total ? [...rows, total] : rows);
    });
}

function axisField([id, words, value]) {
    const input = element('input');
    Object.assign(input, { id, type: 'text', inputMode: 'decimal', size: 8, value, autocomplete: 'off' });
    return element('p', 'row', labelFor(id, words), input);
}

function textArea(id, words, value) {
    const input = element('textarea');
    Object.assign(input, { id, rows: 4, value, spellcheck: false });
    return element('div', '', labelFor(id, words), input);
}

function labelFor(id, words) {
    const made = element('label', '', words);
    made.htmlFor = id;
    return made;
}

function sheetButton(id, words) {
    const made = element('button', 'main', words);
    Object.assign(made, { id, type: 'submit' });
    return made;
}

function axisTexts() {
    return AXIS_FIELDS.map(([id]) => byId(id).value.trim());
}

function linesIn(id) {
    return byId(id).value.split('\n').filter(line => line.trim() !== '' && !line.startsWith('#'));
}

function showLines(out, lines) {
    out.replaceChildren(...lines.map(line => element('div', '', line)));
}
