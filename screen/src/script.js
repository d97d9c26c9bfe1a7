// A program as a person writes it, line by line: lines for the board, and words between them (docs/MANUAL.md, "Words in a file"). An item is a
// line of the text that is done, with its number; what it does is a row of steps.
import { BREAK, RESET, STOP } from './board.js';
import { LIMIT } from './session.js';

const CONTROL = { stop: STOP, reset: RESET, break: BREAK };

// The lines of a text, as any editor writes them, as items; a word that is wrong has a `fault` in its place.
export function itemsOf(text) {
    const items = [];
    text.replace(/^\uFEFF/, '').split(/\r\n|\r|\n/).forEach((line, i) => {
        if (line !== '' && !line.startsWith('#')) items.push({ number: i + 1, text: line, ...itemOf(line) });
    });
    return items;
}

// What a line is: text for the board, one byte, counted clock calls, input ports, or a listing.
export function itemOf(line) {
    const rest = line.replace(/[ \t]+$/, '');
    const word = rest.replace(/ .*/, '');
    if (rest === 'start' || rest === 'go on') return { kind: 'text', value: '@0S' };
    if (Object.hasOwn(CONTROL, rest)) return { kind: 'byte', value: CONTROL[rest] };
    if (rest === 'list') return { kind: 'list' };
    if (/^key [\x20-\x7E]$/.test(line)) return { kind: 'byte', value: line.charCodeAt(4) };
    if (word === 'byte') return numbers(rest, 'byte', 1, 255);
    if (word === 'ports') return numbers(rest, 'ports', 4, 255);
    if (word === 'clock') return numbers(rest, 'clock', 1, 1000000);
    if (word === 'key') return { kind: 'wrong', fault: 'key takes one character behind one space' };
    return { kind: 'text', value: line };
}

function numbers(text, word, count, most) {
    const fields = text.split(' ').slice(1);
    const fits = fields.length === count && fields.every(field => /^[0-9]{1,7}$/.test(field) && Number(field) <= most);
    if (!fits) return { kind: 'wrong', fault: `${word} takes ${count === 1 ? 'a whole number' : count + ' whole numbers'} from 0 to ${most}` };
    const values = fields.map(Number);
    return { kind: word, value: count === 1 ? values[0] : values };
}

// The bytes of a line: characters beyond ASCII as an editor would save them, and the return at its end.
export function bytesOf(line) {
    return [...new TextEncoder().encode(line), 13];
}

// What an item does, step by step: { byte }, { run: most clock calls, until there is nothing to do }, { count: clock calls }, { list } or
// { ports }. Behind each byte the board runs until it has nothing more to do; but where clock calls are counted, in front of the item or
// behind it, a line is sent at once.
export function stepsOf(item, before, behind) {
    const run = { run: LIMIT };
    if (item.kind === 'clock') return [{ count: item.value }];
    if (item.kind === 'list') return [{ list: true }];
    if (item.kind === 'ports') return [{ ports: item.value }];
    const bytes = item.kind === 'byte' ? [item.value] : bytesOf(item.value);
    return bytes.flatMap((byte, i) => {
        const other = i === bytes.length - 1 ? behind : before;
        return other && other.kind === 'clock' ? [{ byte }] : [{ byte }, run];
    });
}
