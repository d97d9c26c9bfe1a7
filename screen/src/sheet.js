// The sheet: distances in mm and speeds, as a person writes them, into steps by the proved conversions, with the sentences of tools/steps.
// What is a number is decided here; what is too large, and how it is rounded, by the proved program and the board alone.

// A proved program that reads its input and prints its output by two functions of its host: what it prints for a text.
export function sheetProgram(module) {
    let input, output, memory;
    const read = (from, at, room) => {
        const piece = input.subarray(0, Number(room));
        input = input.subarray(piece.length);
        new Uint8Array(memory.buffer).set(piece, at);
        return from === 0 ? BigInt(piece.length) : -1n;
    };
    const write = (to, at, count) => {
        output.push(new TextDecoder().decode(new Uint8Array(memory.buffer, at, Number(count))));
        return to === 1 ? count : -1n;
    };
    const { exports } = new WebAssembly.Instance(module, { env: { read, write } });
    memory = exports.memory;
    return text => {
        input = new TextEncoder().encode(text);
        output = [];
        exports.main();
        return output.join('');
    };
}

const SHEET_UNITS = { 'mm': 'D', 'mm/s': 'S', 'mm/min': 'M', 'steps/s': 'N' };

// The entries of the arrays that the board's module lends for a chain.
const CHAIN_ROOM = 1000;

// `board` is one whose chain call is asked; its state is not looked at.
export class Sheet {
    constructor(sheetModule, board) {
        this.program = sheetProgram(sheetModule);
        this.calls = board.calls;
    }

    // One value for an axis, all four as texts: whether it was converted, and the sentence for it.
    convert(lead, steps, gear, text) {
        const wrong = axisFault(lead, steps, gear);
        if (wrong) return { ok: false, text: wrong };
        const axis = [lead, steps, gear].map(floatDigits).join(' ');
        const [refusal] = this.asked(`D ${axis} ${floatDigits('0')}`);
        if (refusal === '201') return { ok: false, text: axisRefused(lead, steps, gear) };
        const value = sheetValue(trimmedValue(text, true));
        if (value.fault) return { ok: false, text: value.fault };
        const digits = value.kind === 'N' ? wholeDigits(value.number) : floatDigits(value.number);
        return answeredValue(value, this.asked(`${value.kind} ${axis} ${digits}`));
    }

    // What the proved program answers to a line: the refusal and the value, as it prints them.
    asked(line) {
        return this.program(line + '\n').trim().split(' ');
    }

    // Distances that follow each other, one or several of the same to a line: a row for each and the total. If they cannot be converted,
    // the rows say why, and there is no total.
    chain(lead, steps, gear, lines) {
        const wrong = axisFault(lead, steps, gear);
        if (wrong) return refusedChain([wrong]);
        const { distances, faults, values } = chainOf(lines);
        if (values === 0) return refusedChain(['no value is given']);
        const untaken = `${faults.length} of ${values} values could not be taken, so nothing is converted`;
        if (faults.length) return refusedChain([...faults, untaken]);
        const axis = [lead, steps, gear].map(text => parseFloat(text));
        const { refusal, made } = this.chained(axis, distances.map(distance => distance.thousandths));
        if (refusal === 201) return refusedChain([axisRefused(lead, steps, gear)]);
        if (refusal) return refusedChain([`refused ${refusal}: ${this.chainFault(refusal, axis, distances)}`]);
        const rows = distances.map((distance, i) => `${distance.mm} mm = ${made[i]} steps`);
        const whole = made.reduce((sum, one) => sum + one, 0);
        return { ok: true, rows, total: `total ${inMm(sumOf(distances))} mm = ${whole} steps` };
    }

    // The board's own chain call: its refusal, and the movements in steps.
    chained(axis, thousandths) {
        const { calls } = this;
        const given = new BigInt64Array(calls.memory.buffer, calls.thousandths.value, CHAIN_ROOM);
        given.set(thousandths.slice(0, CHAIN_ROOM));
        const count = BigInt(thousandths.length);
        const refusal = calls.board_chain_in(...axis, calls.thousandths.value, count, calls.distances.value, count) & 0xFFFF;
        const length = Math.min(thousandths.length, CHAIN_ROOM);
        return { refusal, made: refusal ? [] : [...new Int32Array(calls.memory.buffer, calls.distances.value, length)] };
    }

    // Why a chain was refused, and for which distance: the first one with which the board refuses those before it.
    chainFault(refusal, axis, distances) {
        if (refusal === 105) return 'a chain has at most 1,000 distances';
        const thousandths = distances.map(distance => distance.thousandths);
        let i = 0;
        while (this.chained(axis, thousandths.slice(0, i + 1)).refusal !== refusal) i++;
        const which = `distance ${i + 1}, ${distances[i].mm} mm,`;
        const sums = [sumOf(distances.slice(0, i)), sumOf(distances.slice(0, i + 1))];
        if (refusal === 202) {
            const to = String(thousandths[i]).length > 15 ? '' : `to ${inMm(sums[1])} mm, `; // a longer number may have been cut
            return `${which} takes the sum ${to}beyond 1,000,000 mm`;
        }
        const [here, there] = sums.map(sum => this.chained(axis, [sum]));
        if (there.refusal) return `${which} takes the sum to ${inMm(sums[1])} mm, which is not from -8,388,608 to 8,388,607 steps`;
        return `${which} is ${there.made[0] - here.made[0]} steps, which is not from -8,388,608 to 8,388,607`;
    }
}

function refusedChain(rows) {
    return { ok: false, rows, total: '' };
}

function isDecimal(text) {
    return /^[-+]?([0-9]+[.]?[0-9]*|[.][0-9]+)$/.test(text);
}

// What is wrong with the numbers of an axis as they are written, or nothing.
function axisFault(lead, steps, gear) {
    const wrong = [['LEAD', lead], ['STEPS', steps], ['GEAR', gear]].find(([name, text]) => !isDecimal(text));
    if (!wrong) return '';
    return `${wrong.join(' ')} is no number; write it as 5 or 0.5${wrong[1].includes(',') ? ', with a decimal point and no comma' : ''}`;
}

function axisRefused(lead, steps, gear) {
    return `refused 201: lead ${lead}, steps ${steps} and gear ${gear} must each be from 0.001 to 1,000,000`;
}

// The value of a line, without the byte order mark of a first line and without spaces around it; a comment has none.
function trimmedValue(text, first) {
    const value = (first ? text.replace(/^\uFEFF/, '') : text).replace(/^[ \t]+|[ \t]+$/g, '');
    return value.startsWith('#') ? '' : value;
}

// A number and what stands behind it.
function numberAndUnit(text) {
    const [number] = text.match(/^[-+]?[0-9.]*/);
    return { number, unit: text.slice(number.length).replace(/^[ \t]+/, '') };
}

// A value taken apart, or a sentence that says why it is none.
function sheetValue(text) {
    const { number, unit: written } = numberAndUnit(text);
    const unit = written === '' ? 'mm' : written;
    const kind = Object.hasOwn(SHEET_UNITS, unit) ? SHEET_UNITS[unit] : '';
    const fault = text === '' ? 'no value is given' : sheetFault(text, number, kind);
    return { number, unit, kind, fault };
}

function sheetFault(text, number, kind) {
    const none = why => `${text}: no value; ${why}`;
    if (text.includes(',')) return none('write a decimal point and no comma, as in 2.5');
    if (/^[0-9]+[ \t]*x/.test(text)) return none('distances are repeated in a chain, as in --chain 30 x 0.333');
    if (kind === '' || !isDecimal(number)) {
        return none('a value is a distance, as 10 or -2.5 mm, or a speed, as 600 mm/min, 10 mm/s or 900 steps/s');
    }
    return kind === 'N' && number.includes('.') ? none('steps per second are a whole number') : '';
}

function answeredValue({ number, unit, kind }, [refusal, value]) {
    if (refusal === '0') return { ok: true, text: `${number} ${unit} = ${value} ${kind === 'D' ? 'steps' : 'steps/s'}` };
    return { ok: false, text: `${number} ${unit}: refused ${refusal}, ${whyRefused(refusal, number, unit, kind)}` };
}

function whyRefused(refusal, number, unit, kind) {
    if (refusal === '202' && kind === 'D') return 'the distance is beyond 1,000,000 mm';
    if (refusal === '202') return number.startsWith('-') ? 'a speed is not negative' : `the speed is beyond 1,000,000 ${unit}`;
    return kind === 'D' ? 'the result is not from -8,388,608 to 8,388,607 steps' : 'the result is not from 30 to 10,000 steps/s';
}

// The bits of the float that is nearest to a number, in sixteen digits.
function floatDigits(text) {
    const view = new DataView(new ArrayBuffer(8));
    view.setFloat64(0, parseFloat(text));
    return view.getBigUint64(0).toString(16).padStart(16, '0');
}

// A whole number in two's complement of 64 bits. One of more than 18 digits becomes 18 nines: the sheet refuses both alike.
function wholeDigits(text) {
    return BigInt.asUintN(64, signedDigits(text)).toString(16).padStart(16, '0');
}

function signedDigits(text) {
    const digits = text.replace(/^[-+]?0*/, '');
    const size = BigInt(digits.length > 18 ? '9'.repeat(18) : digits);
    return text.startsWith('-') ? -size : size;
}

// The thousandths of a number; nothing if a part of a thousandth is left.
function thousandthsOf(text) {
    const [whole, decimals = ''] = text.split('.');
    const parts = decimals.replace(/0+$/, '');
    return parts.length > 3 ? null : signedDigits(whole + parts.padEnd(3, '0'));
}

// The distances of a chain, how many values they were, and what is wrong with them.
function chainOf(lines) {
    const values = lines.map((line, i) => trimmedValue(line, i === 0)).filter(value => value !== '');
    const distances = [];
    const faults = [];
    for (const value of values) {
        const { many, mm, fault } = chainValue(value);
        if (fault) faults.push(`${value}: no distance of a chain; ${fault}`);
        // one more than there is room for is enough: the board refuses that
        for (let i = 0; !fault && i < many && distances.length <= CHAIN_ROOM; i++) distances.push({ mm, thousandths: thousandthsOf(mm) });
    }
    return { distances, faults, values: values.length };
}

// A distance of a chain, or several of the same.
function chainValue(text) {
    const repeated = text.match(/^([0-9]+)[ \t]*x[ \t]*/);
    const many = repeated ? Number(repeated[1]) : 1;
    const { number: mm, unit } = numberAndUnit(repeated ? text.slice(repeated[0].length) : text);
    return { many, mm, fault: chainValueFault(text, many, mm, unit) };
}

function chainValueFault(text, many, mm, unit) {
    if (text.includes(',')) return 'write a decimal point and no comma, as in 2.5';
    if (unit !== 'mm' && Object.hasOwn(SHEET_UNITS, unit)) return 'a speed is converted without --chain';
    if (many === 0 || !isDecimal(mm) || (unit !== '' && unit !== 'mm')) return 'write 0.333 or -2.5 mm, or 30 x 0.333 for thirty of them';
    if (thousandthsOf(mm) === null) return 'a chain is summed in thousandths of a mm, so a distance has at most three decimals';
    return '';
}

function sumOf(distances) {
    return distances.reduce((sum, distance) => sum + distance.thousandths, 0n);
}

// Thousandths in mm, without needless zeros.
function inMm(sum) {
    const digits = String(sum < 0n ? -sum : sum).padStart(4, '0');
    return (sum < 0n ? '-' : '') + `${digits.slice(0, -3)}.${digits.slice(-3)}`.replace(/[.]?0+$/, '');
}
