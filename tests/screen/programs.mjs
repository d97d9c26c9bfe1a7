// A proved program as WebAssembly, run as a process is: each time from the start, with what it reads and what it writes as bytes.

// Standard input and standard output, as the programs number them.
const INPUT = 0, OUTPUT = 1;

// The functions that a program asks its host for. Lengths have 64 bits; what is asked of another file fails.
function hostOf(input, pieces, memory) {
    let at = 0;
    const read = (from, to, room) => {
        if (from !== INPUT) return -1n;
        const piece = input.subarray(at, at + Number(room));
        new Uint8Array(memory()).set(piece, to);
        at += piece.length;
        return BigInt(piece.length);
    };
    const write = (to, from, count) => {
        if (to !== OUTPUT) return -1n;
        pieces.push(new Uint8Array(memory()).slice(from, from + Number(count)));
        return count;
    };
    return { env: { read, write } };
}

// What a program writes on this input.
export function runProgram(module, input) {
    const pieces = [];
    const instance = new WebAssembly.Instance(module, hostOf(input, pieces, () => instance.exports.memory.buffer));
    const status = instance.exports.main(0, 0);
    if (status !== 0) throw new Error(`it ends with status ${status}`);
    return Buffer.concat(pieces);
}
