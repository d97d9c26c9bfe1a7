// The page: one board that a person drives by lines, words and buttons, and everything that is shown of it.
import { Board } from './board.js';
import { byId } from './dom.js';
import { Listing } from './listing.js';
import { Log } from './log.js';
import { Plate } from './plate.js';
import { Player } from './player.js';
import { Program } from './program.js';
import { itemOf } from './script.js';
import { Session } from './session.js';
import { View } from './view.js';

const FRAME = 12; // ms of a frame for clock calls at full pace
const PIECE = 500; // clock calls between two looks at the time
const TELL = 150; // ms between two tellings of a run under way

export class App {
    // Boards of the compiled module: the one that is driven, one to look back with, one to ask where records lead.
    static async make(module, exercises) {
        const boards = await Promise.all([0, 1, 2].map(() => Board.make(module)));
        return new App(boards, exercises);
    }

    constructor([board, spare, probe], exercises) {
        this.probe = probe;
        this.session = new Session(board, spare);
        this.player = new Player(this.session);
        this.program = new Program(exercises, () => this.switchOn());
        this.log = new Log(byId('log'), this.session);
        this.listing = new Listing(byId('listing'));
        this.plate = new Plate(byId('plate'), this.session.history);
        this.view = new View(this);
        this.plateTitle = ''; // in front of the words below the plate
        this.paused = false; // a person makes the clock calls
        this.look = null; // the clock call that one looks back to
        this.lastFrame = 0;
        this.lastTold = 0;
        this.credit = 0; // clock calls that the pace allows now
        this.whenFresh = () => {}; // called before each fresh board
        this.whenIdle = null; // called once when nothing is left to do, or when it was given up
    }

    // A fresh board: nothing set, nothing stored, nothing done.
    switchOn() {
        this.breakOff();
        this.whenFresh();
        this.session.begin();
        this.log.forget(0);
        this.plate.begin();
        this.program.rewindLines();
        this.paused = false;
        this.look = null;
        this.refresh();
    }

    // What a person does by a button or a typed line: it comes at once, whatever runs. `text` is a line or a word of a program. What
    // cannot be done is answered with a sentence.
    act(text) {
        if (this.look !== null) return 'This looks back: go back to now first, or go on from here.';
        if (text.startsWith('#')) return 'What begins with # is a note, and is not sent.';
        const item = { number: null, text, ...itemOf(text) };
        if (item.kind === 'wrong') return `${text}: ${item.fault}.`;
        this.breakOff();
        if (this.paused) this.player.send(item);
        else {
            this.player.add([item]);
            this.player.go(0);
            if (!this.player.busy && this.session.runs()) this.player.runOn();
        }
        this.refresh();
        this.wake();
        return '';
    }

    // What waits to be done is given up; lines of the program become the next ones again.
    breakOff() {
        this.player.hold();
        this.program.giveBack(this.player.items);
        this.player.clear();
        const then = this.whenIdle;
        this.whenIdle = null;
        if (then) then(false);
    }

    // Items are done one after the other, behind what runs and in front of another one (`behind`); then `whenIdle` is told whether all of it
    // was done.
    play(items, whenIdle = null, behind = null) {
        this.breakOff();
        this.paused = false;
        this.whenIdle = whenIdle;
        if (this.session.runs()) this.player.runOn();
        this.player.add(items, behind);
        this.refresh();
        this.wake();
    }

    // A line of the program while a person makes the clock calls.
    send(item) {
        this.player.send(item);
        this.refresh();
    }

    // The height of the plate's surface.
    surface() {
        return Math.trunc(Number(byId('surface').value)) || 0;
    }

    // Goes on, or holds the clock. Holding it is no stop: the board does not know of it.
    toggleRun() {
        this.paused = this.isRunning;
        if (!this.paused && this.player.left === 0 && this.session.runs()) this.player.runOn();
        this.refresh();
        this.wake();
    }

    get isRunning() {
        return this.player.busy && !this.paused;
    }

    clockOnce() {
        this.player.hold();
        this.paused = true;
        this.session.clockCounted(1, 1);
        this.refresh();
    }

    // The board as it was before a clock call; null is now.
    lookAt(call) {
        if (call !== null && this.isRunning) this.toggleRun();
        this.look = call;
        this.refresh();
    }

    // Goes on from where one looks: what came later is forgotten.
    goOnFromHere() {
        this.breakOff();
        this.session.back(this.look);
        this.log.forget(Math.max(0, this.session.entries.length - 1));
        this.plate.begin();
        this.program.continueBehind(this.session.entries);
        this.paused = true;
        this.look = null;
        this.refresh();
    }

    wake() {
        if (this.awake || this.paused || !this.player.busy) return;
        this.awake = true;
        this.lastFrame = performance.now();
        requestAnimationFrame(time => this.frame(time));
    }

    // One frame: as many clock calls as the pace or the time allows, and all that is shown of them.
    frame(time) {
        this.awake = false;
        if (this.paused || !this.player.busy) return;
        this.work(Math.max(0, time - this.lastFrame));
        this.lastFrame = time;
        this.refresh();
        if (this.player.busy) this.wake();
        else this.idle();
    }

    work(milliseconds) {
        const pace = Number(byId('pace').value);
        const end = performance.now() + FRAME;
        this.credit = pace ? Math.min(Math.max(this.credit, 0) + milliseconds * pace / 1000, pace) : Infinity;
        do {
            const most = Math.min(PIECE, Math.floor(this.credit));
            const { calls } = this.session.history;
            this.player.go(most);
            this.credit -= this.session.history.calls - calls;
            if (most === 0 && this.player.left > 0) break;
        } while (this.player.busy && performance.now() < end);
    }

    // Nothing is left to do.
    idle() {
        this.paused = this.player.endless;
        const then = this.whenIdle;
        this.whenIdle = null;
        this.refresh();
        if (then) then(!this.paused);
    }

    refresh() {
        const now = performance.now();
        if (!this.isRunning || now - this.lastTold > TELL) {
            this.log.show();
            this.program.showReplies(this.session, this.player.items);
            this.lastTold = now;
        }
        this.view.show();
    }
}
