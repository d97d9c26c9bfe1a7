// What the board did, for a person, under each entry of a session: the text that `./exercise` prints of a program file. All of it is read
// from replies, from answers of clock calls and from states of the board.
import { DIRECT, DONE, IDLE, PAUSE, PULSE, SEND, STORING, WAIT } from './board.js';
import { Moves } from './moves.js';
import { bytesOf } from './script.js';
import { LIMIT } from './session.js';
import { axesWords, endingWords, isRefusal, meaningOf, namesFault, placeWords, planeWords } from './words.js';
import { positionWords, radiusWords, turnWords, unfinishedWords } from './words.js';

// The board before the first entry.
const FRESH = { runs: false, job: IDLE, standing: 0, axes: 0, storeAxes: 0, records: 0 };

// What is counted from the start of a run to its end. The lines of the program and its arcs are kept so that they are asked once.
function freshRun() {
    return { passes: new Map(), settings: new Set(), setBy: { e: -1, f: -1 }, lines: null, arcs: new Map() };
}

function copyRun(run) {
    return { ...run, passes: new Map(run.passes), settings: new Set(run.settings), setBy: { ...run.setBy } };
}

// A board as a clock call has left it, before any byte came in behind it.
function boardBehind(history, call) {
    const board = history.at(call);
    board.clock();
    return board;
}

// The arc that a board has under way, or null.
function arcOf(board) {
    if (board.get('kind') === 0) return null;
    const { at } = board.fields.get('round start');
    return {
        radius: radiusWords([0, 4].map(more => board.view.getUint32(at + more, true) - board.zero)),
        length: board.get('round length'),
        plane: board.get('round plane'),
        direction: board.get('round direction'),
    };
}

// What is told of one entry so far.
class Telling extends Moves {
    constructor(session, index, earlier) {
        super();
        this.session = session;
        this.index = index;
        this.earlier = earlier; // the telling of the entry before
        this.entry = session.entries[index];
        this.before = earlier ? session.after(index - 1) : FRESH;
        this.stored = -1; // the place of the record that the entry has stored
        this.event = 0; // the event that is told next, or may have grown
        this.call = 0; // and the clock call
        this.words = ''; // behind the entry's line
        this.run = earlier ? copyRun(earlier.closed.run) : freshRun();
        if (earlier) this.goOn(earlier.closed);
        if (this.before.runs && (this.entry.kind === 'text' || /^key /.test(this.entry.text))) this.head('dropped: something runs');
    }

    // Whether what is told here can still be so: the same entry, not cut off since.
    fits(entry) {
        if (this.entry !== entry) return false;
        if (this.closed) return this.after === entry.after;
        const calls = entry.events.reduce((most, { to }) => Math.max(most, to ?? 0), 0);
        return this.event <= entry.events.length && this.call <= calls;
    }

    // The text as it is if nothing more comes. What came since the last time is told before.
    text() {
        if (this.closed) return this.last;
        this.advance();
        const end = this.copy();
        end.run = copyRun(this.run);
        end.close(this.session.after(this.index));
        this.last = { words: end.words, under: this.under.concat(end.under) };
        if (this.entry.after) {
            this.closed = end;
            this.after = this.entry.after;
        }
        return this.last;
    }

    advance() {
        const { events } = this.entry;
        for (; this.event < events.length; this.event++) {
            const event = events[this.event];
            if (event.to === undefined) this.heard(event);
            else {
                for (this.call = Math.max(this.call, event.from); this.call < event.to; this.call++) this.clocked(this.call);
                if (this.event === events.length - 1) return; // more calls may come
            }
        }
    }

    // The board behind the entry.
    close(after) {
        const isClock = this.entry.kind === 'clock';
        this.settle();
        if (isClock && !this.isHeaded) this.say('nothing to do');
        if (after.job === WAIT) this.say('it waits for a character');
        if (isClock && after.runs) this.say('it is still running');
        if (after.job === IDLE && !after.standing) this.idle();
    }

    // Nothing runs: the passes of the next run are counted anew.
    idle() {
        this.end();
        this.run = freshRun();
    }

    head(words) {
        this.words = words;
        this.isHeaded = true;
    }

    heard({ reply, refusal, list }) {
        if (list !== undefined) this.listed(list, refusal);
        else if (refusal) this.say(String(refusal));
        else this.replied(reply);
    }

    listed(list, refusal) {
        if (refusal) this.say('  refused ' + (refusal === 71 ? 'G' : refusal));
        else for (const line of list.split('\r').slice(0, -1)) this.say('  ' + line);
    }

    replied(reply) {
        this.settle();
        const more = this.behind(reply);
        const words = more === '' ? reply : reply + '  ' + more;
        if (this.isHeaded) this.say(words);
        else this.head(words);
        if (namesFault(reply)) this.say('the store is empty now: mend the program and send all of it again');
    }

    // What is said behind a reply.
    behind(reply) {
        if (reply.length === 19 || reply.length === 25) return positionWords(reply, this.before.axes);
        if (isRefusal(reply)) return this.reason(reply);
        if (reply !== '0' || this.before.job !== STORING || this.session.after(this.index).job !== STORING) return '';
        this.stored = this.before.records;
        return 'record ' + this.stored;
    }

    reason(reply) {
        const { axes, job, storeAxes } = this.before;
        if (reply === 'F') return unfinishedWords(this.entry.value);
        const words = meaningOf(reply, job === STORING, place => this.lineOf(place));
        if (reply !== 'G') return words;
        if (job === STORING) return words + ', and the store is empty now';
        if (axes < 8 && storeAxes < 8) return words;
        return `${words}: ${axesWords(storeAxes)} (${storeAxes}) then, ${axesWords(axes)} (${axes}) now`;
    }

    // The number of the line that has stored the record at a place last, or null.
    lineOf(place) {
        let telling = this.earlier;
        while (telling && telling.stored !== place) telling = telling.earlier;
        return telling ? telling.entry.number : null;
    }

    clocked(k) {
        const { history } = this.session;
        const answer = history.answer[k];
        if (answer === PULSE) this.pulsed(k);
        else this.closeMovement();
        if (answer === PAUSE) this.pause(history.record[k]);
        else if (answer === SEND) this.sent(k);
        else if (answer === DONE) this.done(k);
        if (history.job[k] === IDLE) this.idle();
    }

    // The first pulse of a phase begins a movement if the next record's place is another behind it, or if none was under way.
    pulsed(k) {
        const { first, from, to, signs, value } = this.session.history;
        if (first[k] && this.isOpen && from[k] === to[k]) this.phase();
        else if (first[k]) this.beginAt(k);
        this.step(signs, 4 * k, value[k]);
    }

    beginAt(k) {
        const { from, job } = this.session.history;
        const what = job[k] === DIRECT ? 'direct' : from[k];
        this.begin(what, this.countPass(what), this.arcAt(k, what));
    }

    countPass(what) {
        const { passes } = this.run;
        const pass = (passes.get(what) ?? 0) + 1;
        passes.set(what, pass);
        return pass;
    }

    // The arc that a call begins, or null. An arc of a program is asked for once behind the same settings of plane and direction.
    arcAt(k, what) {
        const { history } = this.session;
        if (what === 'direct') return arcOf(boardBehind(history, k));
        if (this.lineAt(k)[0] !== 'y') return null;
        const { arcs, setBy } = this.run;
        const key = [what, setBy.e, setBy.f].join();
        if (!arcs.has(key)) arcs.set(key, arcOf(boardBehind(history, k)));
        return arcs.get(key);
    }

    // The line of the record that a call comes to, as the board lists it.
    lineAt(k) {
        const { history } = this.session;
        this.run.lines = this.run.lines ?? history.at(k).list().text.split('\r');
        return this.run.lines[history.from[k]] ?? '';
    }

    sent(k) {
        const { from, job, record, value } = this.session.history;
        const sent = String.fromCharCode(value[k]);
        this.say(job[k] === IDLE ? `${sent}  ${endingWords(sent, record[k] < 0)}` : `record ${from[k]} sends ${sent}`);
    }

    // A movement without a step is a pass of its record too.
    done(k) {
        const { from, moved } = this.session.history;
        this.countPass(from[k]);
        this.showPause();
        if (moved[k]) this.say(`record ${from[k]}: the origin is moved here`);
        this.setting(k);
    }

    // A record that sets the plane or the direction of the circles behind it. In a loop it is told once.
    setting(k) {
        const letter = this.lineAt(k)[0];
        if (letter !== 'e' && letter !== 'f') return;
        const { history } = this.session;
        const { settings, setBy } = this.run;
        const place = history.from[k];
        setBy[letter] = place;
        if (settings.has(place)) return;
        settings.add(place);
        const board = boardBehind(history, k);
        this.say(`record ${place}: ${letter === 'e' ? `plane ${planeWords(board.get('plane'))}` : turnWords(board.get('direction'))}`);
    }
}

export class Teller {
    constructor(session) {
        this.session = session;
        this.tellings = [];
    }

    // Everything from an entry on is told anew.
    forget(index) {
        this.tellings.length = Math.min(this.tellings.length, index);
    }

    // What is told of an entry: the words behind its line, and the lines under it. It may have grown or been cut off since the last time.
    entry(index) {
        const { entries } = this.session;
        const other = this.tellings.findIndex((telling, i) => !telling.fits(entries[i]));
        if (other >= 0) this.forget(other);
        for (let i = 0; i < index; i++) this.telling(i).text();
        return this.telling(index).text();
    }

    telling(index) {
        if (index === this.tellings.length) this.tellings.push(new Telling(this.session, index, this.tellings[index - 1]));
        return this.tellings[index];
    }
}

function bytesIn(text) {
    return bytesOf(text).length - 1;
}

// The column that lines of a program are given.
export function widthOf(items) {
    return Math.min(40, items.reduce((width, { text }) => Math.max(width, bytesIn(text)), 0));
}

// All that is told, as `./exercise` prints it. `isEndless` if the last run was not over when its clock calls were.
export function toldText(session, teller, isEndless = false, width = widthOf(session.entries)) {
    const lines = [];
    session.entries.forEach(({ number, text }, i) => {
        const { words, under } = teller.entry(i);
        const head = String(number ?? '').padStart(4) + '  ' + text;
        const gap = ' '.repeat(Math.max(0, width - bytesIn(text)) + 2);
        lines.push(words === '' ? head : head + gap + words);
        for (const line of under) lines.push('        ' + line);
    });
    if (isEndless) lines.push(`not over after ${LIMIT.toLocaleString('en')} clock calls: no more is sent`);
    const { position, axes } = session.summary();
    lines.push('end: ' + placeWords(position, axes >= 8));
    return lines.join('\n') + '\n';
}
