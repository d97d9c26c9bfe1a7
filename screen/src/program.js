// The program that is sent: an exercise or one's own, line by line, with the line that comes next and the reply to each that was sent.
import { SEND } from './board.js';
import { byId, element, reveal, setText } from './dom.js';
import { itemsOf } from './script.js';

const OWN = 'my own program';

export class Program {
    // `exercises` are { name, text }; `changed` is called when another program is taken.
    constructor(exercises, changed) {
        this.exercises = exercises;
        this.changed = changed;
        this.name = '';
        this.fillChoice();
        byId('exercise').addEventListener('change', () => this.take(byId('exercise').value));
        byId('edit').addEventListener('click', () => this.edit(byId('writing').hidden));
        byId('rewind').addEventListener('click', () => this.rewind());
    }

    fillChoice() {
        for (const { name, text } of this.exercises) {
            const option = element('option', '', name);
            option.value = name;
            option.title = titleOf(text);
            byId('exercise').append(option);
        }
        const own = element('option', '', OWN);
        own.value = OWN;
        byId('exercise').append(own);
    }

    // An exercise, or an empty sheet for one's own program.
    take(name) {
        const found = this.exercises.find(exercise => exercise.name === name);
        byId('exercise').value = found ? name : OWN;
        this.name = found ? name : OWN;
        this.write(found ? found.text : '');
        this.edit(!found);
        this.changed();
    }

    write(text) {
        this.text = text;
        this.items = itemsOf(text);
        this.next = 0;
        this.shown = 0; // entries whose replies stand beside the lines
        this.waiting = 0; // of those before the next one, how many are not begun yet
        this.replies = new Map();
        byId('source').value = text;
        this.render();
    }

    // Between the lines to look at and the text to write in. A text that was changed is a program of one's own.
    edit(on) {
        byId('writing').hidden = !on;
        byId('lines').hidden = on;
        byId('edit').setAttribute('aria-pressed', String(on));
        setText(byId('edit'), on ? 'Use it' : 'Edit');
        if (on) {
            byId('source').focus();
            return;
        }
        if (byId('source').value === this.text) return;
        this.name = OWN;
        byId('exercise').value = OWN;
        this.write(byId('source').value);
        this.changed();
    }

    // What is written but not taken over yet is taken over.
    settle() {
        if (!byId('writing').hidden) this.edit(false);
    }

    // From the top again: on a fresh board, since that is what the program was written for.
    rewind() {
        this.settle();
        this.changed();
    }

    rewindLines() {
        this.next = this.shown = this.waiting = 0;
        this.replies.clear();
        this.render();
    }

    // The next line is the one behind the last of these entries that was a line of the program.
    continueBehind(entries) {
        const last = entries.findLast(entry => entry.number !== null);
        this.next = last ? this.items.findIndex(item => item.number === last.number) + 1 : 0;
        this.shown = 0;
        this.replies.clear();
        this.mark();
    }

    // Beside each line the characters that it was answered. Items that wait to be begun are still to come.
    showReplies(session, waiting) {
        const { history } = session;
        this.waiting = waiting.filter(item => this.items.includes(item)).length;
        for (const entry of session.entries.slice(Math.max(0, this.shown - 2))) {
            if (entry.number !== null) this.replies.set(entry.number, repliesOf(entry.events, history));
        }
        this.shown = session.entries.length;
        this.mark();
    }

    // The first word of the text that is wrong, as a sentence; nothing if there is none.
    fault() {
        const wrong = this.items.find(item => item.kind === 'wrong');
        if (wrong) return `Line ${wrong.number}: ${wrong.fault}.`;
        return this.items.length ? '' : 'There is no line to send: choose an exercise or write a program.';
    }

    // The items that come next, so many at most. The last one of all is followed by nothing.
    takeItems(most) {
        const items = this.items.slice(this.next, this.next + most);
        this.next += items.length;
        return items;
    }

    get isOver() {
        return this.next >= this.items.length;
    }

    // Items that were not begun after all. Some may be none of this program.
    giveBack(items) {
        this.next -= items.filter(item => this.items.includes(item)).length;
        this.waiting = 0;
        this.mark();
    }

    render() {
        const notes = this.text.split(/\r\n|\r|\n/).filter(line => line.startsWith('#'));
        byId('notes').replaceChildren(...notes.map(line => element('p', '', line.replace(/^# ?/, ''))));
        this.rows = this.items.map(item => {
            const parts = [element('span', 'number', String(item.number)), element('span', 'text', item.text), element('span', 'reply')];
            const row = element('li', item.kind === 'wrong' ? 'wrong' : '', ...parts);
            if (item.fault) row.title = item.fault;
            return row;
        });
        byId('lines').replaceChildren(...this.rows);
        this.mark();
    }

    mark() {
        const next = this.next - this.waiting;
        this.rows.forEach((row, i) => {
            row.classList.toggle('next', i === next);
            setText(row.lastChild, this.replies.get(this.items[i].number) ?? '');
        });
        const row = this.rows[Math.min(next, this.rows.length - 1)];
        if (row) reveal(byId('lines'), row);
    }

}

// All that was sent back under an entry; of many characters the last.
function repliesOf(events, history) {
    let text = '';
    for (const { reply, from, to } of events) {
        if (reply) text += ' ' + reply;
        for (let k = from; k < to; k++) if (history.answer[k] === SEND) text += ' ' + String.fromCharCode(history.value[k]);
    }
    return text.length > 28 ? '..' + text.slice(-26) : text.slice(1);
}

function titleOf(text) {
    return text.split('\n')[0].replace(/^# ?/, '');
}
