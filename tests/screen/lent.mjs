// The page's board with buffers of any length lent to a call: a reply, a store and a table that stand behind what the page lends.
import { Board } from '../../screen/src/board.js';

// The lengths that the page lends, and the most that a script lends.
export const USUAL = { reply: 32, store: 16384, table: 1000 };
const MOST = 65536;
const PAGES = 3; // of 65,536 bytes: for a reply, a store and a table

// A board of the page whose memory has room for buffers behind its own.
export async function roomyBoard(module) {
    const instance = await WebAssembly.instantiate(module, {});
    instance.exports.memory.grow(PAGES);
    return new Board(instance);
}

export class Lent {
    constructor(board, lengths) {
        const behind = board.bytes.length - PAGES * MOST;
        this.board = board;
        this.lengths = lengths;
        this.reply = behind;
        this.store = lengths.store === USUAL.store ? board.calls.store.value : this.copy(behind + MOST, board.store());
        this.table = lengths.table === USUAL.table ? board.calls.table.value : this.copy(behind + 2 * MOST, board.table());
    }

    // The bytes of a buffer in one of another length: its first ones, and 0 behind them.
    copy(at, bytes) {
        this.board.bytes.fill(0, at, at + MOST).set(bytes, at);
        return at;
    }

    storeWords() {
        return [this.store, BigInt(this.lengths.store)];
    }

    tableWords() {
        return [this.table, BigInt(this.lengths.table)];
    }

    receive(byte, ports) {
        const { board } = this;
        const replyWords = [this.reply, BigInt(this.lengths.reply)];
        board.calls.board_receive_in(board.here, byte, ports, ...replyWords, ...this.storeWords(), ...this.tableWords());
        return { reply: board.text(this.reply, board.get('heard len')), refusal: board.get('heard refusal') };
    }

    clock() {
        this.board.calls.board_clock_in(this.board.here, ...this.storeWords(), ...this.tableWords());
    }

    list() {
        const { board } = this;
        board.calls.board_list_in(board.here, ...this.storeWords(), board.calls.text.value, 32768n);
        return { text: board.text(board.calls.text.value, board.get('written len')), refusal: board.get('list refusal') };
    }

    fill() {
        const { board } = this;
        const held = [board.get('used'), board.get('records'), board.get('store axes')];
        return board.calls.board_fill_in(...held, ...this.storeWords(), ...this.tableWords());
    }
}
