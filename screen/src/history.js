// All that has happened to a board since it was switched on: every byte that came in, every clock call with its answer, and enough of the
// states in between that the board can be had again as it was before any clock call.
import { DIRECT, MOVING, PAUSE, PULSE } from './board.js';

// A state is kept at every so many clock calls; those between are made again by the board.
const EVERY = 128;

export class History {
    // `board` is the one that is driven, `spare` one to look back with.
    constructor(board, spare) {
        this.board = board;
        this.spare = spare;
        this.begin();
    }

    // Switched off, emptied and on again.
    begin() {
        this.board.fresh();
        this.calls = 0;
        this.room(1024, true);
        this.memories = [this.board.memory()];
        this.kept = [];
        this.keep();
    }

    // Room for so many clock calls.
    room(calls, empty = false) {
        const grown = (Kind, old, each) => {
            const to = new Kind(calls * each);
            if (!empty) to.set(old);
            return to;
        };
        this.size = calls;
        this.answer = grown(Uint8Array, this.answer, 1); // PULSE to NOTHING
        this.signs = grown(Int8Array, this.signs, 4); // of a pulse
        this.value = grown(Uint16Array, this.value, 1); // a pulse's speed, or the byte that is sent
        this.refusal = grown(Uint16Array, this.refusal, 1);
        this.job = grown(Uint8Array, this.job, 1); // after the call
        this.from = grown(Uint16Array, this.from, 1); // the place of the next record before the call
        this.to = grown(Uint16Array, this.to, 1); // and after it
        this.first = grown(Uint8Array, this.first, 1); // 1 for the first pulse of a phase or an arc
        this.record = grown(Int32Array, this.record, 1); // the record that the call worked at; -1 outside a program
        this.moved = grown(Uint8Array, this.moved, 1); // 1 if the call moved the origin
        this.position = grown(Int32Array, this.position, 4); // x, y, z and a after the call
    }

    // A byte comes in now.
    receive(byte, ports) {
        const heard = this.board.receive(byte, ports);
        this.keep();
        return heard;
    }

    // One clock call is made now: its index.
    clock() {
        const { board, calls: k } = this;
        if (k === this.size) this.room(2 * k);
        this.from[k] = board.get('place');
        const before = board.get('job');
        this.answer[k] = board.clock();
        this.note(k, before);
        this.calls = k + 1;
        if (this.calls % EVERY === 0) this.keep();
        return k;
    }

    // What the board has left in its fields is written down.
    note(k, before) {
        const { board } = this;
        this.refusal[k] = board.get('clock refusal');
        this.job[k] = board.get('job');
        this.to[k] = board.get('place');
        board.position(this.position, 4 * k);
        this.value[k] = board.get('value');
        this.first[k] = this.moved[k] = 0;
        if (this.answer[k] === PULSE) this.notePulse(k);
        else this.noteOrigin(k);
        this.record[k] = before === DIRECT ? -1 : this.recordOf(k);
    }

    notePulse(k) {
        const { board } = this;
        ['sign x', 'sign y', 'sign z', 'sign a'].forEach((name, i) => { this.signs[4 * k + i] = board.get(name); });
        const moves = this.job[k] === DIRECT || this.job[k] === MOVING;
        this.first[k] = moves && board.get(board.get('kind') === 0 ? 'straight made' : 'round made') === 1 ? 1 : 0;
    }

    // The record that a call of a program worked at. A pulse that leaves the place as it was belongs to the record before; the pauses of a
    // delay stand one place behind it; every other call comes to the record at the place before it.
    recordOf(k) {
        if (this.answer[k] === PAUSE) return this.to[k] - 1;
        if (this.answer[k] === PULSE && this.from[k] === this.to[k] && k > 0) return this.record[k - 1];
        return this.from[k];
    }

    noteOrigin(k) {
        const origin = this.board.origin();
        this.moved[k] = origin.some((n, i) => n !== this.origin[i]) ? 1 : 0;
        this.origin = origin;
    }

    // The present state is kept. What came in since the last clock call is in it.
    keep() {
        this.origin = this.board.origin();
        const last = this.memories[this.memories.length - 1];
        if (!this.board.isMemory(last)) this.memories.push(this.board.memory());
        const kept = { at: this.calls, state: this.board.state().slice(), memory: this.memories.length - 1 };
        if (this.kept.length && this.kept[this.kept.length - 1].at === this.calls) this.kept.pop();
        this.kept.push(kept);
    }

    // The board as it was before the clock call of this index, or as it is now: not to be changed, and good until the next call of this.
    at(call) {
        if (call >= this.calls) return this.board;
        this.load(this.spare, call);
        return this.spare;
    }

    // The state that was kept last up to this clock call.
    keptAt(call) {
        let low = 0;
        let high = this.kept.length - 1;
        while (low < high) {
            const middle = (low + high + 1) >> 1;
            if (this.kept[middle].at <= call) low = middle;
            else high = middle - 1;
        }
        return this.kept[low];
    }

    load(board, call) {
        const kept = this.keptAt(call);
        board.load(kept.state, this.memories[kept.memory]);
        for (let k = kept.at; k < call; k++) board.clock();
    }

    // Goes on from before the clock call of this index: what came after it is forgotten.
    back(call) {
        if (call >= this.calls) return;
        this.load(this.board, call);
        this.calls = call;
        while (this.kept[this.kept.length - 1].at > call) this.kept.pop();
        this.memories.length = this.kept[this.kept.length - 1].memory + 1;
        this.keep();
    }
}
