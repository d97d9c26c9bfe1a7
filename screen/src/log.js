// What the board answered and did, under each line that was sent, in the words of told.js.
import { element } from './dom.js';
import { Teller } from './told.js';

export class Log {
    constructor(box, session) {
        this.box = box;
        this.session = session;
        this.teller = new Teller(session);
        this.parts = [];
        this.shown = []; // what each entry's part says
    }

    // Everything from an entry on is told anew.
    forget(index) {
        this.teller.forget(index);
        this.shown.length = Math.min(this.shown.length, index);
        for (const part of this.parts.splice(index)) part.remove();
    }

    // Entries that came, or that have grown since.
    show() {
        const { entries } = this.session;
        const from = Math.max(0, Math.min(this.shown.length, entries.length) - 2); // an entry may become two when clock calls are counted
        const wasAtEnd = this.box.scrollTop + this.box.clientHeight > this.box.scrollHeight - 40;
        for (let i = from; i < entries.length; i++) this.put(i);
        for (const part of this.parts.splice(entries.length)) part.remove();
        this.shown.length = entries.length;
        if (wasAtEnd) this.box.scrollTop = this.box.scrollHeight;
    }

    put(index) {
        const entry = this.session.entries[index];
        const told = this.teller.entry(index);
        const key = JSON.stringify([entry.number, entry.text, told]);
        if (this.shown[index] === key) return;
        this.shown[index] = key;
        const part = this.partOf(entry, told);
        if (this.parts[index]) this.parts[index].replaceWith(part);
        else this.box.append(part);
        this.parts[index] = part;
    }

    partOf(entry, { words, under }) {
        const head = element('div', 'head', element('span', 'number', String(entry.number ?? '')), element('span', 'line', entry.text));
        if (words !== '') head.append(element('span', 'words ' + toneOf(words), words));
        return element('div', 'entry', head, ...under.map(line => element('div', 'under ' + toneOf(line), line)));
    }

    // Entries that were begun after a clock call are grey while one looks back.
    grey(call) {
        this.parts.forEach((part, i) => part.classList.toggle('later', call !== null && this.session.entries[i].began > call));
    }
}

// Whether words are those of a refusal, or of what is held.
function toneOf(words) {
    if (/^F {2}/.test(words)) return 'held';
    return /^([1-9DGW]|G[a-e]\d{4}) {2}/.test(words) || /^dropped/.test(words) ? 'refused' : '';
}
