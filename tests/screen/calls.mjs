// What the proved program `calls` does, by the page's board and its history: drives a board call by call from a script (trial/README.md),
// and prints what each call answers. Calls that are lent other lengths than the page lends are made past the page.
import { AXES, DIRECT, MOVING, NOTHING, PULSE } from '../../screen/src/board.js';
import { History } from '../../screen/src/history.js';
import { Lent, USUAL } from './lent.mjs';
import { ALWAYS, ROUND, STRAIGHT, setNamed } from './named.mjs';
import { rowsOf } from './script.mjs';
import { signText, signsOf } from './walk.mjs';

const JOBS = ['Idle', 'Storing', 'Direct', 'Ready', 'Moving', 'Delay', 'Wait'];
const ANSWERS = ['', 'Pulse', 'Pause', 'Send', 'Done', 'Nothing'];
const UNREADABLE = 'G'.charCodeAt(0);

const refusalText = refusal => (refusal === UNREADABLE ? 'G' : String(refusal));

export class Calls {
    // Over a board with room (lent.mjs) and a spare one; `types` are the structs of firmware/board.h.
    constructor(board, spare, types) {
        this.board = board;
        this.history = new History(board, spare);
        this.types = types;
    }

    // The text that `calls` prints on this script, with a fresh board.
    run(script) {
        this.history.begin();
        this.printed = [];
        this.ports = 0;
        this.over = this.more = true;
        this.lend = { ...USUAL };
        const rows = rowsOf(script);
        for (let i = 0; i < rows.length && this.more; i++) {
            if (!this.make(rows[i]) && !this.prepare(rows[i])) this.say(`? ${i + 1}`);
        }
        return this.printed.join('');
    }

    say(line) {
        this.printed.push(line, '\n');
    }

    // What the next call is lent, if that is not what the page lends; the call behind it is lent what is usual again.
    lent() {
        const lengths = this.lend;
        this.lend = { ...USUAL };
        return Object.keys(USUAL).every(name => lengths[name] === USUAL[name]) ? null : new Lent(this.board, lengths);
    }

    // A line that makes calls: whether it is one.
    make({ letter, numbers: [n] }) {
        switch (letter) {
        case 'B': this.receive(n); return true;
        case 'C': this.clockMany(n); return true;
        case 'F': this.fill(); return true;
        case 'L': this.list(); return true;
        case 'Q': this.runUntil(n); return true;
        case 'S': this.show(); return true;
        default: return false;
        }
    }

    // A line that makes none: false if it is wrong.
    prepare({ letter, numbers, name }) {
        const [n, v] = numbers;
        const { board } = this;
        switch (letter) {
        case 'E': this.more = this.over; return true;
        case 'H': return this.setField(name, n);
        case 'I': this.ports = numbers.reduce((ports, port, i) => ports + port * 256 ** i, 0); return true;
        case 'K': this.setHeld(numbers); return true;
        case 'M': this.lend.store = n; return true;
        case 'N': this.say(`N ${n}`); return true;
        case 'R': this.lend.reply = n; return true;
        case 'T': board.view.setUint16(board.calls.table.value + 2 * n, v, true); return true;
        case 'U': this.lend.table = n; return true;
        case 'V': this.say(`V ${board.view.getUint16(board.calls.table.value + 2 * n, true)}`); return true;
        case 'W': board.store()[n] = v; return true;
        default: return false;
        }
    }

    receive(byte) {
        const lent = this.lent();
        const { reply, refusal } = lent ? lent.receive(byte, this.ports) : this.history.receive(byte, this.ports);
        this.say(`B ${refusal || reply || '-'}`);
    }

    // A clock call, and what is told of it. That of a call of the page stands in its history.
    clock() {
        const lent = this.lent();
        return lent ? this.clockPast(lent) : this.clockNoted(this.history.clock());
    }

    clockNoted(call) {
        const { history } = this;
        return {
            answer: history.answer[call], refusal: history.refusal[call], signs: signsOf(history, call, 4), value: history.value[call],
            job: history.job[call], from: history.from[call], to: history.to[call], first: history.first[call] === 1,
        };
    }

    clockPast(lent) {
        const { board } = this;
        const from = board.get('place');
        lent.clock();
        const job = board.get('job');
        const made = board.get(board.get('kind') === 0 ? 'straight made' : 'round made');
        return {
            answer: board.get('answer'), refusal: board.get('clock refusal'), value: board.get('value'),
            signs: AXES.map(axis => signText(board.get('sign ' + axis))).join(''),
            job, from, to: board.get('place'), first: made === 1 && (job === DIRECT || job === MOVING),
        };
    }

    tellClocked({ answer, refusal, signs, value }) {
        if (refusal) this.say(`C ${refusal}`);
        else if (answer === PULSE) this.say(`C Pulse ${signs} ${value}`);
        else this.say(`C ${ANSWERS[answer]}${ANSWERS[answer] === 'Send' ? ' ' + value : ''}`);
    }

    clockMany(calls) {
        for (let i = 0; i < calls; i++) this.tellClocked(this.clock());
    }

    // A call of a run, and what is printed of it: whether it ended the run.
    step() {
        const clocked = this.clock();
        const nothing = clocked.answer === NOTHING;
        if (clocked.refusal || !nothing) this.tellClocked(clocked);
        if (nothing) return true;
        if (clocked.answer !== PULSE || clocked.first) {
            this.say(`T job ${JOBS[clocked.job]} from ${clocked.from} place ${clocked.to} origin ${this.board.origin().join(' ')}`);
        }
        return false;
    }

    // Whether a run that was not over in its calls is over now: one more call, whose state is not kept.
    look() {
        const { board } = this;
        const lent = this.lent();
        const kept = board.state().slice();
        if (lent) lent.clock();
        else board.clock();
        const nothing = board.get('answer') === NOTHING;
        board.state().set(kept);
        return nothing;
    }

    runUntil(calls) {
        this.over = false;
        for (let i = 0; i < calls && !this.over; i++) this.over = this.step();
        if (!this.over) this.over = this.look();
        this.say(this.over ? 'Q over' : 'Q more');
    }

    list() {
        const { text, refusal } = (this.lent() ?? this.board).list();
        if (refusal) this.say(`L ${refusalText(refusal)}`);
        for (const line of text.split('\r').slice(0, -1)) this.say(`L ${line}`);
    }

    fill() {
        const lent = this.lent() ?? new Lent(this.board, USUAL);
        this.say(`F ${refusalText(lent.fill())}`);
    }

    setHeld([used, records, axes]) {
        const held = { used, records, 'store axes': axes };
        for (const [name, number] of Object.entries(held)) this.board.set(name, number);
    }

    setField(name, number) {
        const { board, types } = this;
        const job = board.get('job');
        if (setNamed(board, types, ALWAYS, name, number)) return true;
        if (job !== DIRECT && job !== MOVING) return false;
        return setNamed(board, types, board.get('kind') === 0 ? STRAIGHT : ROUND, name, number);
    }

    // The state as one line. Of one that the calls refuse the counts are told, also those of more than 24 bits.
    show() {
        const { board } = this;
        const get = name => board.get(name);
        const shown = board.show();
        const counts = [];
        board.position(counts, 0);
        const [position, origin] = shown.refusal ? [counts, board.origin()] : [shown.position, shown.origin];
        this.say(`S axes ${get('axes')} position ${position.join(' ')} origin ${origin.join(' ')} three ${get('three')}` +
            ` output ${get('output')} used ${get('used')} records ${get('records')} store_axes ${get('store axes')}` +
            ` job ${JOBS[get('job')]} standing ${get('standing')} loops ${get('depth')} plane ${get('plane')}` +
            ` direction ${get('direction') ? -1 : 0}`);
    }
}
