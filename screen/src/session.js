// What a person does with a board: lines, words and buttons, in order, each an entry with all that came of it. Written one below the other
// the entries are a program file that `./exercise` takes, and does the same with.
import { STORING } from './board.js';
import { History } from './history.js';

// The clock calls that a run is given before it counts as one without an end.
export const LIMIT = 100000;

export class Session {
    // `board` is driven, with `spare` one looks back.
    constructor(board, spare) {
        this.history = new History(board, spare);
        this.begin();
    }

    // A fresh board, and nothing done.
    begin() {
        this.history.begin();
        this.entries = [];
        this.ports = [0, 0, 0, 0];
    }

    get board() {
        return this.history.board;
    }

    get entry() {
        return this.entries[this.entries.length - 1];
    }

    // Whether the next clock call has something to do.
    runs() {
        return this.board.show().runs;
    }

    // An item (script.js) is begun: what comes from now on goes to its entry, until the next one is begun.
    start(item) {
        this.count(item.kind === 'clock');
        this.open(item);
    }

    // An entry: the item, its events, the clock calls made before it (`began`) and before its last byte (`sent`), its bytes, and the board
    // after it.
    open(item) {
        if (this.entry) this.entry.after = this.entry.after ?? this.summary();
        const { calls } = this.history;
        this.entries.push({ ...item, events: [], began: calls, sent: calls, bytes: [], after: null });
    }

    // A byte comes in. Its events are a reply, or what refused the call; beside a reply that names a record stands the program as it was before.
    receive(byte) {
        const [a, b, c, d] = this.ports;
        const isLine = byte === 13 && this.board.get('job') === STORING;
        const stored = isLine ? { state: this.board.state().slice(), memory: this.board.memory() } : null;
        const { entry, history } = this;
        entry.bytes.push({ byte, at: history.calls, events: entry.events.length, before: this.summary() });
        const { reply, refusal } = history.receive(byte, (a | b << 8 | c << 16 | d << 24) >>> 0);
        entry.sent = history.calls;
        if (!refusal && reply === '') return;
        entry.events.push({ at: history.calls, reply, refusal, stored: reply.length === 6 ? stored : null });
    }

    // Clock calls are made, so many at most, as long as there is something to do: how many it were. Their event is a range of the history.
    clock(most) {
        const { history } = this;
        const from = history.calls;
        while (history.calls < from + most && this.runs()) history.clock();
        this.span(from, history.calls);
        return history.calls - from;
    }

    // A range that goes on is made longer, unless a byte has come in between.
    span(from, to) {
        const { events, sent } = this.entry;
        const last = events[events.length - 1];
        if (from === to) return;
        if (last && last.to === from && last.from >= sent) last.to = to;
        else events.push({ at: from, from, to });
    }

    list() {
        const { text, refusal } = this.board.list();
        this.entry.events.push({ at: this.history.calls, list: text, refusal });
    }

    // If something runs while the next thing is begun, the person has counted the clock calls behind the last byte: they become an entry. So
    // they do before clock calls that are counted (`isCounted`), which would else stand for them.
    count(isCounted = false) {
        const { entry, history } = this;
        if (!entry || entry.kind === 'clock' || !this.runs() && !(isCounted && history.calls > entry.sent)) return;
        const { sent } = entry;
        entry.events = entry.events.filter(event => event.to === undefined || event.from < sent);
        entry.after = this.summary(history.at(sent));
        this.open(counted(history.calls - sent));
        this.entry.began = this.entry.sent = sent;
        this.span(sent, history.calls);
    }

    // Clock calls that a person counts; those counted just before are put together with them. `least` are counted also if nothing runs.
    clockCounted(most, least = 0) {
        this.count(true);
        if (!this.entry || this.entry.kind !== 'clock') this.open(counted(0));
        const made = this.clock(most);
        Object.assign(this.entry, counted(this.entry.value + Math.max(made, least)));
        return made;
    }

    // The line under way is given up before its last byte: each byte that was sent becomes an entry.
    breakLine() {
        const line = this.entries.pop();
        line.bytes.forEach(({ byte, at, events }, i) => {
            const next = line.bytes[i + 1];
            const text = byte > 32 && byte < 127 ? 'key ' + String.fromCharCode(byte) : 'byte ' + byte;
            const own = line.events.slice(events, next ? next.events : undefined);
            const number = i === 0 ? line.number : null;
            const entry = { number, text, kind: 'byte', value: byte, events: own, began: at, sent: at, bytes: [], after: next ? next.before : null };
            this.entries.push(entry);
        });
    }

    // What is told of a board behind an entry.
    summary(board = this.board) {
        const { position, origin, runs } = board.show();
        const [job, standing, axes, storeAxes, records, plane, direction] =
            ['job', 'standing', 'axes', 'store axes', 'records', 'plane', 'direction'].map(name => board.get(name));
        return { position, origin, runs, job, standing, axes, storeAxes, records, plane, direction };
    }

    // The board behind an entry; behind the last one it is the present board.
    after(index) {
        return this.entries[index].after ?? this.summary();
    }

    // Goes on from before the clock call of this index: the entries and events that came later are forgotten.
    back(call) {
        if (call >= this.history.calls) return;
        this.history.back(call);
        while (this.entry && this.entry.began > call) this.entries.pop();
        this.ports = this.entries.findLast(one => one.kind === 'ports')?.value ?? [0, 0, 0, 0];
        const { entry } = this;
        if (!entry) return;
        entry.events = entry.events.filter(event => event.at <= call && event.from !== call);
        for (const event of entry.events) if (event.to > call) event.to = call;
        entry.sent = Math.min(entry.sent, call);
        entry.after = null;
        if (entry.kind === 'clock') Object.assign(entry, counted(call - entry.began));
        const { bytes } = entry;
        entry.bytes = bytes.filter(({ at }) => at <= call);
        if (entry.bytes.length < bytes.length) this.breakLine();
    }

    // The program that the check refused last, unless something was stored since: its bytes, and the place that the reply names.
    refusedProgram() {
        const { entry } = this;
        const event = entry && entry.events.find(one => one.stored);
        return event ? { ...event.stored, place: Number(event.reply.slice(2)) } : null;
    }

    // All that was done, as lines of a program file. Where something still runs, its clock calls are counted.
    file() {
        const { entry, history } = this;
        const lines = this.entries.map(one => one.text);
        if (entry && entry.kind !== 'clock' && this.runs()) lines.push(counted(history.calls - entry.sent).text);
        return lines.map(line => line + '\n').join('');
    }
}

function counted(calls) {
    return { number: null, kind: 'clock', value: calls, text: 'clock ' + calls };
}
