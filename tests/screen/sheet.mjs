// The sheet of the classroom screen under node: values and chains as a person writes them, right and wrong, compared line by line with what
// tools/steps prints for them, and with the stored vectors of sheet_vectors and ask.
import { fileURLToPath } from 'node:url';
import { spawnSync } from 'node:child_process';
import { readFileSync } from 'node:fs';
import { Board } from '../../screen/src/board.js';
import { Sheet, sheetProgram } from '../../screen/src/sheet.js';

const root = fileURLToPath(new URL('../..', import.meta.url));
const moduleOf = name => new WebAssembly.Module(readFileSync(`${root}target/screen/${name}.wasm`));
const sheet = new Sheet(moduleOf('sheet_vectors'), await Board.make(moduleOf('board')));
const count = { values: 0, 'refused values': 0, chains: 0, 'refused chains': 0, vectors: 0 };

function is(what, got, wanted) {
    if (got === wanted) return;
    console.log(`screen: sheet: ${what}:\n    ${got}\nnot ${wanted}`);
    process.exit(1);
}

// What tools/steps prints, and what it says on standard error.
function steps(axis, words, lines) {
    const env = { ...process.env, SHEET: root + 'tools/sheet_vectors', ASK: root + 'tools/ask' };
    const options = { env, input: lines.join('\n') + '\n', encoding: 'utf8' };
    const { status, stdout, stderr } = spawnSync(root + 'tools/steps', [...axis, ...words], options);
    const rows = text => text.split('\n').slice(0, -1);
    const plain = row => row.replace(/^steps: /, '').replace(/; see: tools\/steps --help$/, '');
    return { status, printed: rows(stdout), said: rows(stderr).map(plain) };
}

function sameValues(axis, texts) {
    const { status, printed, said } = steps(axis, [], texts);
    const what = `axis ${axis.join(' ')}: `;
    const got = texts.map(text => sheet.convert(...axis, text));
    const given = got.filter(one => one.text !== 'no value is given');
    const failed = given.filter(one => !one.ok).length;
    count.values += given.length - failed;
    count['refused values'] += failed;
    if (status === 2) {
        for (const one of got) is(what, `${one.ok} ${one.text}`, `false ${said[0]}`);
        return;
    }
    is(what + 'lines', given.length, printed.length);
    const converted = line => / = -?[0-9]+ steps/.test(line);
    given.forEach((one, i) => is(`${what}value ${i + 1}`, `${one.text} ${one.ok}`, `${printed[i]} ${converted(printed[i])}`));
    is(what + 'refused', failed ? `${failed} of ${given.length} values could not be converted` : '', said.join());
}

function sameChain(axis, lines) {
    const { status, printed, said } = steps(axis, ['--chain'], lines);
    const { ok, rows, total } = sheet.chain(...axis, lines);
    const what = `chain ${lines.join(' | ')} of ${axis.join(' ')}`;
    count[ok ? 'chains' : 'refused chains']++;
    is(what, [ok, ...rows, ...(ok ? [total] : [])].join('\n'), [status === 0, ...(status === 0 ? printed : said)].join('\n'));
    is(`${what}: total`, total === '', !ok);
}

// ---- texts, the same in every run

let seed = 20260817;
function random(below) { // a number from 0 on
    seed = (Math.imul(seed, 1664525) + 1013904223) >>> 0;
    return Math.floor(seed / 4294967296 * below);
}
const oneOf = things => things[random(things.length)];
const digits = most => Array.from({ length: 1 + random(most) }, () => random(10)).join('');

function number(whole, decimals) {
    const form = oneOf(['n', 'n.d', 'n.d', 'n.d', 'n.', '.d']);
    return oneOf(['', '', '', '-', '-', '+']) + form.replace('n', digits(whole)).replace('d', digits(decimals));
}

const value = () => oneOf(['', '  ', '\t']) + number(6, 5) + oneOf(['', '', ' mm', 'mm', '\tmm', ' mm/s', 'mm/s', ' mm/min', '  mm/min ']);
const rate = () => oneOf(['', '', '-', '+', '0']) + digits(oneOf([4, 5, 8, 25])) + oneOf([' steps/s', 'steps/s']);
const SPOILERS = [',', 'e', ' ', '.', '-', 'x', '/', 'm', 's', '\u0663', '\uFF15', '_', '0x', '\u00A0'];
const spoilt = () => {
    const text = value();
    const at = random(text.length + 1);
    return text.slice(0, at) + oneOf(SPOILERS) + text.slice(at);
};
const small = () => number(3, 4) + oneOf(['', ' mm']);
const distance = () => oneOf(['', '', '', `${1 + random(12)} x `, `${1 + random(30)}x`]) + number(3, 3) + oneOf(['', '', ' mm', 'mm']);

const AXES_TRIED = [['5', '400', '1'], ['1', '100', '1'], ['4', '2', '1'], ['2.54', '200', '.5'], ['1', '1000', '1'],
    ['+3', '007', '1.'], ['.001', '1000000', '1'], ['1000000', '0.001', '1']];
const AXES_WRONG = [['0', '400', '1'], ['-5', '400', '1'], ['5', '1000000.001', '1'], ['5', '400', '0.0009'], ['5,0', '400', '1'],
    ['5', '', '1'], ['5', '4e2', '1'], ['5', '400', '1:2'], [' 5', '400', '1'], ['NaN', 'Infinity', '0x1'], ['9'.repeat(400), '400', '1']];

// The ends of ranges, halves, numbers that no float holds, and what only looks like a value; parted by bars.
const VALUES = [
    '10|-2.5|0|-0|+.5|010.|1|-1|0.9|838860.7|838860.8|-838860.8|-838860.9|1000000|1000000.0000000001|1000000.00000000001|-1000001',
    '9007199254740993|0.3749999999999999999999|0.125|-0.375|0.375 mm/s|0.37 mm/s|-0 mm/s|-0.1 mm/min|125 mm/s|125.01 mm/s|1000001 mm/min',
    '30 steps/s|29 steps/s|10000 steps/s|10001 steps/s|-0 steps/s|+30steps/s|9007199254740993 steps/s|18446744073709551646 steps/s',
    '-18446744073709551586 steps/s|900.5 steps/s|900. steps/s|2,5|1e3|1.2.3|10 cm|-|.|+|--5|- 5|5-|x|30 x 0.333|30x|NaN|Infinity|0x10',
    '1_000|1 000|mm|mm/s|5 mm mm|5 MM|5mm /s|5 constructor|5 toString|5 __proto__|\u0665|5\u00A0mm|# 5|| |\t#|5 #',
    '9'.repeat(400), '-' + '9'.repeat(400), '0.' + '0'.repeat(330) + '1',
].join('|').split('|');

// The distances of a chain are parted by bars.
const CHAINS = ['0.333|0.333|0.333', '3 x 0.333', '2 x 0.333|2 x -0.333|0', '+.5|010.|0.3330 mm|-00.0050000mm|-0', '1|1|-3|-1',
    '1000 x 0.333', '999 x 0.333|2 x 0.1', '1001 x 1', '99999999999999999999999999 x 0.333', '30 x 50000', '0|-1000000.001|1000000',
    '1000000|0|0.001', '1000000|-2000000|999999.999', '1|999999999999999.999', '-9223372036854775.808|1', '0.333|18446744073709551616',
    '0.333|-18446744073709551616', '9000|1000000', '8388|0.607|0.001|-5', '-8388.609|5', '-8388.608|8388.608|1', '5|8383.607|-16777.215',
    '999999999998|1', '-99999999999.999|1', '-999999999999.999|1', '0.3335|2 x 0.0001 mm|0,333|600 mm/min|10mm/s|900 steps/s|1',
    '1e3|1.2.3|10 cm|-|.|0 x 0.333|2.5 x 0.333|-3x0.333|3 x|3 x x 1|1', '1|0 x 1|2 mm/s', '3 x 5 constructor', '', '# teeth', ' |\t',
    '\uFEFF# teeth|0.333 mm||  2 x 0.333\t', '\uFEFF0.333', '1|\uFEFF0.333'];

// ---- the stored vectors: bits of floats, as texts

function floatText(pattern) {
    const view = new DataView(new ArrayBuffer(8));
    view.setBigUint64(0, BigInt('0x' + pattern));
    const float = view.getFloat64(0);
    if (Number.isNaN(float)) return null;
    const [, sign, whole, decimals = '', power = '0'] = String(Object.is(float, -0) ? '-0' : float).replace('Infinity', '1e400')
        .match(/^(-?)([0-9]+)[.]?([0-9]*)(?:e([-+][0-9]+|[0-9]+))?$/);
    const shift = Number(power);
    const all = shift < 0 ? '0'.repeat(-shift) + whole + decimals : whole + decimals + '0'.repeat(Math.max(0, shift - decimals.length));
    const point = whole.length + Math.max(0, shift);
    return sign + all.slice(0, point) + (point < all.length ? '.' + all.slice(point) : '');
}

const rowsOf = file => readFileSync(root + file, 'utf8').split('\n');

function sheetVectors() {
    const answers = rowsOf('crates/sheet_vectors/stdout');
    rowsOf('crates/sheet_vectors/stdin').forEach((row, i) => {
        if (answers[i].startsWith('?') || row === '') return;
        const [kind, ...patterns] = row.trim().split(' ');
        const [lead, turn, gear] = patterns.map(floatText);
        const text = kind === 'N' ? String(BigInt.asIntN(64, BigInt('0x' + patterns[3]))) : floatText(patterns[3]);
        if ([lead, turn, gear, text].includes(null)) return;
        const got = sheet.convert(lead, turn, gear, text + { D: ' mm', S: ' mm/s', M: ' mm/min', N: ' steps/s' }[kind]).text;
        const [, refusal, steps] = got.match(/(?:refused ([0-9]+)|= (-?[0-9]+) steps)/);
        is(`vector ${i + 1} of the sheet, ${row}`, `${refusal ?? 0} ${steps ?? 0}`, answers[i]);
        count.vectors++;
    });
}

// All right lines at once, and so often that they come to the program in several pieces.
function allVectors() {
    const answers = rowsOf('crates/sheet_vectors/stdout');
    const rows = rowsOf('crates/sheet_vectors/stdin').map((row, i) => [row, answers[i]]);
    const right = rows.filter(([row, answer]) => row !== '' && !answer.startsWith('?'));
    const often = Array.from({ length: 8 }, () => right).flat();
    const printed = sheetProgram(moduleOf('sheet_vectors'))(often.map(([row]) => row + '\n').join(''));
    is('all vectors at once', printed, often.map(([, answer]) => answer + '\n').join(''));
}

function mmText(thousandths) {
    const size = thousandths.replace('-', '').padStart(4, '0');
    return `${thousandths.startsWith('-') ? '-' : ''}${size.slice(0, -3)}.${size.slice(-3)}`;
}

function chainVectors() {
    const answers = rowsOf('crates/ask/stdout');
    rowsOf('crates/ask/stdin').forEach((row, i) => {
        const [word, lead, turn, gear, room, ...distances] = row.trim().split(' ');
        if (word !== 'chain' || answers[i] === '?' || Number(room) !== distances.length || distances.length === 0) return;
        const axis = [lead, turn, gear].map(floatText);
        if (axis.includes(null)) return;
        const { ok, rows } = sheet.chain(...axis, distances.map(mmText));
        const numbers = rows.map(one => (ok ? one.match(/= (-?[0-9]+) steps$/) : one.match(/^refused ([0-9]+):/))[1]);
        is(`vector ${i + 1} of ask, ${row}`, [...(ok ? ['0'] : []), ...numbers].join(' '), answers[i]);
        count.vectors++;
    });
}

const made = (many, make) => Array.from({ length: many }, make);
const texts = () => [...VALUES, ...made(60, value), ...made(40, small), ...made(15, rate), ...made(40, spoilt)];
for (const axis of AXES_TRIED) sameValues(axis, texts());
for (const axis of AXES_WRONG) sameValues(axis, ['10', '2,5', '600 mm/min']);
for (const chain of CHAINS) for (const axis of [['1', '1000', '1'], ['1000', '1', '1']]) sameChain(axis, chain.split('|'));
for (const axis of AXES_TRIED) for (const many of [1, 3, 5, 8, 20]) sameChain(axis, made(many, distance));
for (const axis of AXES_WRONG) for (const chain of ['0.333', '1001 x 1']) sameChain(axis, [chain]);
for (const chain of ['0,3', '']) sameChain(AXES_WRONG[0], [chain]);
sheetVectors();
allVectors();
chainVectors();
const told = Object.entries(count).map(([what, many]) => `${many} ${what}`).join(', ');
console.log(`screen: the sheet is that of tools/steps and of the vectors: ${told}`);
