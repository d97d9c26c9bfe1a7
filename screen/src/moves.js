// The pulses and pauses of an entry put together to lines for a person: movements by their phases, equal passes as one line. What may still
// grow is held back.
import { AXES } from './board.js';
import { arcWords } from './words.js';

// Of a movement: none is told at present, one is, or one was told as far as it came under an earlier entry and may go on.
const CLOSED = 0, OPEN = 1, HELD = 2;

export class Moves {
    constructor() {
        this.under = []; // the lines
        this.isHeaded = false; // whether anything of the entry is told
        this.goOn({ open: CLOSED });
    }

    // The movement under way goes on from an entry before.
    goOn({ open, what, pass, arc, pauseRecord }) {
        Object.assign(this, { open, what, pass, arc, pauseRecord }); // `what` is the place of a record, or 'direct'
        Object.assign(this, { made: 0, way: [0, 0, 0, 0], speed: 0, phases: '', kept: null, pauses: 0 });
    }

    // The same, to be settled on trial: its lines are only those that come from now on.
    copy() {
        const copy = Object.assign(Object.create(Object.getPrototypeOf(this)), this);
        copy.under = [];
        copy.way = [...this.way];
        copy.kept = this.kept && { ...this.kept };
        return copy;
    }

    put(words) {
        this.isHeaded = true;
        this.under.push(words);
    }

    // Something that happened; what happened before it is put first.
    say(words) {
        this.settle();
        this.put(words);
    }

    get isOpen() {
        return this.open !== CLOSED;
    }

    begin(what, pass, arc) {
        this.closeMovement();
        this.showPause();
        this.open = OPEN;
        this.what = what;
        this.pass = pass;
        this.arc = arc;
    }

    // A pulse is made: `signs` has its signs from an index on. A movement that was held goes on with it.
    step(signs, from, speed) {
        if (this.open === HELD) this.open = OPEN;
        for (let i = 0; i < 4; i++) this.way[i] += signs[from + i];
        this.made++;
        this.speed = speed;
    }

    // A phase of the movement is over, or as much of it as was made under this entry. A circle is one phase.
    phase() {
        if (this.made === 0) return;
        const { arc, made, speed } = this;
        const way = this.takeWay();
        const words = way === '' ? 'back where it began' : way;
        if (arc) this.phases = `${arcWords(arc, made, way === '', speed)}: ${words}`;
        else this.phases += `${this.phases === '' ? '' : '; '}${words} at ${speed}`;
        this.made = 0;
    }

    // The way that was made, axis by axis; it is counted from 0 again.
    takeWay() {
        let words = '';
        for (let i = 0; i < 4; i++) {
            const n = this.way[i];
            this.way[i] = 0;
            if (n !== 0) words += `${words === '' ? '' : ', '}${AXES[i]} ${n > 0 ? '+' : ''}${n}`;
        }
        return words;
    }

    // The movement is over, or as far as it shows under this entry. Equal passes that follow each other become one line.
    closeMovement() {
        if (this.open === OPEN) {
            this.phase();
            const { kept, pass, phases, what } = this;
            if (kept && what !== 'direct' && kept.what === what && kept.phases === phases && kept.last + 1 === pass) kept.last = pass;
            else {
                this.showKept();
                this.kept = { what, phases, first: pass, last: pass };
            }
            this.phases = '';
        }
        this.open = CLOSED;
    }

    showKept() {
        if (!this.kept) return;
        const { what, phases, first, last } = this.kept;
        const passes = first === last ? `pass ${first}` : `passes ${first} to ${last}`;
        this.put(`${what === 'direct' ? 'moves' : `record ${what}, ${passes}`}: ${phases}`);
        this.kept = null;
    }

    // A tenth of a second of the delay of a record.
    pause(record) {
        this.showKept();
        if (this.pauseRecord !== record) this.showPause();
        this.pauseRecord = record;
        this.pauses++;
    }

    showPause() {
        if (this.pauses) this.put(`record ${this.pauseRecord}: a pause of ${this.pauses / 10} s`);
        this.pauses = 0;
    }

    // Whatever was held back is put now. A movement under way may go on later.
    settle() {
        const { isOpen } = this;
        this.closeMovement();
        this.showKept();
        this.showPause();
        if (isOpen) this.open = HELD;
    }

    // What was under way is over for good.
    end() {
        this.settle();
        this.open = CLOSED;
    }
}
