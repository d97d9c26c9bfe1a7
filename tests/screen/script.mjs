// The lines of a script for `calls`, taken apart (trial/README.md).

const BYTE = 255, HALF = 65535, WORD = 4294967295, STORE = 16383, ENTRY = 999, BUFFER = 65536, TABLE = 2000;

// The largest number of each field behind a letter; of H only how many fields it has.
const FIELDS = {
    B: [BYTE], C: [WORD], E: [], F: [], I: [BYTE, BYTE, BYTE, BYTE], K: [HALF, HALF, BYTE], L: [], M: [BUFFER], N: [WORD], Q: [WORD],
    R: [BUFFER], S: [], T: [ENTRY, HALF], U: [TABLE], V: [ENTRY], W: [STORE, BYTE],
};

// The lines of a script, each as { letter, numbers, name }; the letter of a wrong one is ''.
export function rowsOf(script) {
    const lines = script.split('\n');
    if (lines[lines.length - 1] === '') lines.pop();
    return lines.map(rowOf);
}

function rowOf(line) {
    const [letter, ...fields] = line.split(' ');
    const numbers = fields.map(numberOf);
    const wrong = { letter: '', numbers, name: '' };
    if (line.length > 64) return wrong;
    if (letter === 'H') return fields.length === 2 ? { letter, numbers: [numbers[1]], name: fields[0] } : wrong;
    const most = Object.hasOwn(FIELDS, letter) ? FIELDS[letter] : null;
    const right = most && most.length === numbers.length && numbers.every((n, i) => n >= 0 && n <= most[i]);
    return right ? { letter, numbers, name: '' } : wrong;
}

// A minus or none, and 1 to 10 digits; NaN for anything else.
function numberOf(field) {
    return /^-?[0-9]{1,10}$/.test(field) ? Number(field) : NaN;
}
