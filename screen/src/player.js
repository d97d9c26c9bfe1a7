// Does items one after the other, in pieces, so that a page can show what happens and stays answering.
import { stepsOf } from './script.js';
import { LIMIT } from './session.js';

export class Player {
    constructor(session) {
        this.session = session;
        this.clear();
    }

    // Nothing more is to be done.
    clear() {
        this.items = []; // those that are not begun
        this.behind = null; // the item behind the last of them
        this.steps = []; // of the item that is begun
        this.left = 0; // clock calls that the run under way may still take
        this.isCounted = false; // whether a word of the program has counted them
        this.endless = false; // the last run was not over when its clock calls were
        this.follows = false; // the next item follows the last one, with nothing that a person did in between
    }

    // More items are to be done behind those that wait, and in front of another one that is not.
    add(items, behind = null) {
        this.items.push(...items);
        this.behind = behind;
        this.endless = false;
    }

    get busy() {
        return this.items.length > 0 || this.steps.length > 0 || this.left > 0;
    }

    // What stands still in the midst of a run goes on.
    runOn() {
        this.left = LIMIT;
        this.isCounted = false;
        this.endless = false;
    }

    // What is begun is left as it stands; the items that wait stay. Of a line that is sent in part the rest becomes the first of them.
    hold() {
        const rest = this.steps.filter(step => step.byte !== undefined).map(step => step.byte);
        this.steps = [];
        this.left = 0;
        this.follows = false;
        if (rest.length === 0) return;
        const { number } = this.session.entry;
        this.session.breakLine();
        if (rest.length > 1) this.items.unshift(restOf(rest, number));
        else this.items.unshift({ number, text: 'byte 13', kind: 'byte', value: 13 });
    }

    // Goes on by so many clock calls at most, and up to the end of an item: whether anything is left to do. Bytes need no clock calls.
    go(calls) {
        if (this.left === 0 && this.steps.length === 0 && this.items.length > 0) this.beginItem();
        while (this.left > 0 || this.steps.length > 0) {
            if (this.left === 0) this.step(this.steps.shift());
            else if (calls <= 0 && this.session.runs()) break;
            else calls -= this.run(Math.min(Math.max(calls, 1), this.left));
        }
        return this.busy;
    }

    // An item is begun. If a person has counted clock calls before it, they are the entry in front of it.
    beginItem() {
        const item = this.items.shift();
        if (this.follows) this.session.open(item);
        else this.session.start(item);
        this.follows = true;
        this.steps = stepsOf(item, this.session.entries.at(-2), this.items[0] ?? this.behind);
    }

    // An item is done but for its clock calls: a person makes them.
    send(item) {
        this.clear();
        this.session.start(item);
        for (const step of stepsOf(item, this.session.entries.at(-2), { kind: 'clock' })) {
            this.step(step);
            while (this.left > 0) this.run(this.left);
        }
    }

    step(step) {
        const { session } = this;
        if (step.byte !== undefined) session.receive(step.byte);
        else if (step.list) session.list();
        else if (step.ports) session.ports = step.ports;
        else this.left = step.run ?? step.count;
        this.isCounted = step.count !== undefined;
    }

    // Clock calls of the run under way. One without an end takes all that would follow with it.
    run(most) {
        const { session } = this;
        const isOwn = this.isCounted || session.entry.kind === 'text' || session.entry.kind === 'byte';
        const made = isOwn ? session.clock(most) : session.clockCounted(most); // behind other words a file makes no clock calls
        this.left -= made;
        if (made < most) this.left = 0;
        else if (this.left === 0 && !this.isCounted && session.runs()) {
            this.clear();
            this.endless = true;
        }
        return made;
    }
}

// The rest of a line, whose last byte is its return, as a line of its own.
function restOf(bytes, number) {
    const text = new TextDecoder().decode(Uint8Array.from(bytes.slice(0, -1)));
    return { number, text, kind: 'text', value: text };
}
