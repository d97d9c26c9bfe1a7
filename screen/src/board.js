// One proved board: an instance of the WebAssembly module with a memory of its own, and the calls of firmware/board.h over it. Nothing here
// decides anything: a call's answer is what the board has left in its memory.

// What is under way, and what a clock call answers: the numbers of firmware/board.h.
export const IDLE = 0, STORING = 1, DIRECT = 2, READY = 3, MOVING = 4, DELAY = 5, WAIT = 6;
export const PULSE = 1, PAUSE = 2, SEND = 3, DONE = 4, NOTHING = 5;

export const STOP = 253, RESET = 254, BREAK = 255;

export const AXES = ['x', 'y', 'z', 'a'];

export class Board {
    // A fresh board of a compiled module.
    static async make(module) {
        return new Board(await WebAssembly.instantiate(module, {}));
    }

    constructor(instance) {
        this.calls = instance.exports;
        this.bytes = new Uint8Array(this.calls.memory.buffer);
        this.view = new DataView(this.calls.memory.buffer);
        this.fields = this.namedFields();
        this.here = this.calls.here.value;
        this.size = this.fields.get('state').size;
        this.zero = this.view.getUint32(this.calls.zero.value, true);
        this.fresh();
    }

    // The fields that the module names, each with its place and its bytes.
    namedFields() {
        const fields = new Map();
        for (let at = this.calls.fields.value; this.bytes[at]; at += 24) {
            const end = this.bytes.indexOf(0, at);
            const name = String.fromCharCode(...this.bytes.subarray(at, Math.min(end, at + 16)));
            fields.set(name, { at: this.calls.here.value + this.view.getUint32(at + 16, true), size: this.view.getInt32(at + 20, true) });
        }
        return fields;
    }

    // A field's number.
    get(name) {
        const { at, size } = this.fields.get(name);
        switch (size) {
        case 1: return this.view.getUint8(at);
        case -1: return this.view.getInt8(at);
        case 2: return this.view.getUint16(at, true);
        case 4: return this.view.getUint32(at, true);
        case -4: return this.view.getInt32(at, true);
        default: return Number(this.view.getBigUint64(at, true));
        }
    }

    set(name, value) {
        const { at, size } = this.fields.get(name);
        if (size === 1) this.view.setUint8(at, value);
        else if (size === 2) this.view.setUint16(at, value, true);
        else this.view.setUint32(at, value, true);
    }

    // A switched-off board switched on for the first time: no axes, an empty store.
    fresh() {
        this.store().fill(0);
        this.table().fill(0);
        this.calls.board_fresh_in(this.here);
    }

    // A byte comes in: the reply, or nothing, and what refused the call.
    receive(byte, ports = 0) {
        const c = this.calls;
        c.board_receive_in(this.here, byte, ports, c.reply.value, 32n, c.store.value, 16384n, c.table.value, 1000n);
        return { reply: this.text(c.reply.value, this.get('heard len')), refusal: this.get('heard refusal') };
    }

    // One clock call; its answer stands in the fields until the next call.
    clock() {
        const c = this.calls;
        c.board_clock_in(this.here, c.store.value, 16384n, c.table.value, 1000n);
        return this.get('answer');
    }

    // The stored program as the board writes it out, a line to a record.
    list() {
        const c = this.calls;
        c.board_list_in(this.here, c.store.value, 16384n, c.text.value, 32768n);
        return { text: this.text(c.text.value, this.get('written len')), refusal: this.get('list refusal') };
    }

    // Positions and origins as numbers, and whether the next clock call has something to do.
    show() {
        this.calls.board_show_in(this.here);
        return {
            position: AXES.map(axis => this.get('position ' + axis)),
            origin: AXES.map(axis => this.get('origin ' + axis)),
            runs: this.get('runs') === 1,
            refusal: this.get('show refusal'),
        };
    }

    // The open loops, the one opened first in front: the place of each, and how often it still goes back.
    loops() {
        const { at, size } = this.fields.get('loop');
        const loops = [];
        for (let i = 0; i < this.get('depth'); i++) {
            loops.push({ place: this.view.getUint16(at + i * size, true), left: this.view.getUint16(at + i * size + 2, true) });
        }
        return loops;
    }

    // Where the table stands: x, y, z and a, put into `to` from an index on.
    position(to, from) {
        const at = this.fields.get('count').at;
        for (let i = 0; i < 4; i++) to[from + i] = this.view.getUint32(at + 4 * i, true) - this.zero;
    }

    origin() {
        const at = this.fields.get('home').at;
        return AXES.map((axis, i) => this.view.getUint32(at + 4 * i, true) - this.zero);
    }

    text(at, len) {
        let text = '';
        for (let i = 0; i < len; i++) text += String.fromCharCode(this.bytes[at + i]);
        return text;
    }

    // The whole state, and the store and table beside it, as plain bytes.
    state() {
        return this.bytes.subarray(this.here, this.here + this.size);
    }

    store() {
        return this.bytes.subarray(this.calls.store.value, this.calls.store.value + 16384);
    }

    table() {
        return this.bytes.subarray(this.calls.table.value, this.calls.table.value + 2000);
    }

    memory() {
        return { store: this.store().slice(), table: this.table().slice() };
    }

    isMemory(memory) {
        return same(memory.store, this.store()) && same(memory.table, this.table());
    }

    // The board becomes what was kept of one.
    load(state, memory) {
        this.state().set(state);
        this.store().set(memory.store);
        this.table().set(memory.table);
    }
}

// Whether two rows of bytes are the same, word by word; their lengths are multiples of four.
function same(a, b) {
    const left = new Int32Array(a.buffer, a.byteOffset, a.length / 4);
    const right = new Int32Array(b.buffer, b.byteOffset, b.length / 4);
    for (let i = 0; i < left.length; i++) if (left[i] !== right[i]) return false;
    return true;
}
