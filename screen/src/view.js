// What is shown of the board at a moment, the present one or one that is looked back to: status, plate, positions, listing, slider, buttons.
import { AXES, STORING, WAIT } from './board.js';
import { byId, element, grouped, setText } from './dom.js';
import { standOf } from './listing.js';
import { programOf } from './records.js';
import { LIMIT } from './session.js';
import { axesWords, isRefusal, jobWords, planeWords, sentenceOf, turnWords, unfinishedSentence } from './words.js';

const ACTIONS = ['send-all', 'send-line', 'clock', 'run', 'stop', 'start', 'break', 'reset', 'edit', 'rewind'];

export class View {
    constructor(app) {
        this.app = app;
        this.programKey = null;
        this.program = null;
        const row = axis => element('tr', '', element('th', '', axis), element('td'), element('td'), element('td'));
        byId('positions').tBodies[0].append(...AXES.map(row));
    }

    show() {
        const { session, look } = this.app;
        const call = look ?? session.history.calls;
        const board = session.history.at(call);
        const shown = board.show();
        this.showStatus(board, shown);
        this.showPositions(board, shown);
        this.showFacts(board);
        this.showListing(board, call);
        this.app.plate.draw(call, { position: shown.position, origin: shown.origin, surface: this.app.surface() });
        setText(byId('plate-words'), this.app.plateTitle + this.app.plate.words());
        this.showTime(call);
        this.showButtons(shown);
    }

    // The large words: what runs, waits or stands.
    showStatus(board, shown) {
        const [kind, big, small] = this.statusOf(board, shown);
        byId('status').className = kind;
        setText(byId('status-big'), big);
        setText(byId('status-small'), small);
    }

    statusOf(board, shown) {
        const { look, player, paused } = this.app;
        const job = board.get('job');
        if (board.get('standing')) return ['stands', 'Stopped, not finished', 'It stands. Start goes on with the rest; Break gives the rest up.'];
        if (look !== null) return ['past', 'Looking back', `Before clock call ${grouped(look + 1)}: ${jobWords(job)}.`];
        if (job === WAIT) return ['waits', 'Waiting for a character', 'Send it below: the next character is the answer, whatever it is.'];
        if (player.endless) return ['runs', 'Not over', `Not over after ${grouped(LIMIT)} clock calls: no more lines are sent. Run goes on.`];
        if (shown.runs && paused) return ['runs', 'Under way', `${jobWords(job)}; Clock makes the next step, Run goes on.`];
        if (shown.runs) return ['runs', 'Running', `${jobWords(job)}.`];
        const stored = `${board.get('records')} stored; the line 9 ends it, with a check.`;
        if (job === STORING) return ['', 'Storing a program', this.refusalWords() || stored];
        return ['', 'Nothing runs', this.lastWords()];
    }

    // The end of what was said last.
    lastWords() {
        const { session, log } = this.app;
        const { entries, entry } = session;
        if (!entry) return 'Send a line, or choose an exercise and send all of it.';
        const refused = this.refusalWords();
        if (refused) return refused;
        const { words, under } = log.teller.entry(entries.length - 1);
        const last = words !== '' || under.length === 0 ? words : under[under.length - 1];
        return last === '' ? '' : `${entry.text}: ${last}`;
    }

    // The last thing's refusal at length, or nothing. While a program is stored a reply means something else.
    refusalWords() {
        const { entries, entry } = this.app.session;
        const reply = entry?.events.findLast(event => event.reply)?.reply ?? '';
        if (!isRefusal(reply)) return '';
        const isStoring = entries[entries.length - 2]?.after?.job === STORING;
        return `${entry.text}: ${reply}. ${reply === 'F' ? unfinishedSentence(entry.value) : sentenceOf(reply, isStoring)}`;
    }

    showPositions(board, { position, origin }) {
        const axes = board.get('axes');
        [...byId('positions').tBodies[0].rows].forEach((row, i) => {
            row.hidden = i === 3 && !(axes & 8);
            setText(row.cells[1], String(position[i]));
            setText(row.cells[2], String(position[i] - origin[i]));
            setText(row.cells[3], String(origin[i]));
        });
    }

    showFacts(board) {
        const circles = `circles in ${planeWords(board.get('plane'), ' and ')}, ${turnWords(board.get('direction'))}`;
        setText(byId('facts'), [axesWords(board.get('axes')), board.get('three') ? '3D' : '2.5D', `output ${board.get('output')}`, circles].join('; '));
    }

    showListing(board, call) {
        const { session, look, probe, listing } = this.app;
        const refused = look === null ? session.refusedProgram() : null;
        const key = refused ? `refused ${session.entries.length}` : this.keyOf(board, call);
        if (key !== this.programKey) {
            if (refused) probe.load(refused.state, refused.memory);
            this.program = programOf(refused ? probe : board, probe);
            this.programKey = key;
        }
        listing.show(this.program, key, standOf(board, session.history, call), refused ? refused.place : -1);
        setText(byId('listing-words'), this.listingWords(board, refused));
    }

    keyOf(board, call) {
        const { history } = this.app.session;
        return [history.keptAt(call).memory, board.get('used'), board.get('records'), board.get('store axes')].join(' ');
    }

    listingWords(board, refused) {
        if (refused) return `The program that was refused. The check names record ${refused.place}; the store is empty now.`;
        const records = board.get('records');
        if (!this.program.readable) return 'The store cannot be read.';
        if (records === 0) return 'The store is empty.';
        const many = `${records} ${records === 1 ? 'record' : 'records'}`;
        return `${many}, ${grouped(board.get('used'))} of 16,384 bytes, stored under ${axesWords(board.get('store axes'))}.`;
    }

    showTime(call) {
        const { calls } = this.app.session.history;
        byId('time').max = calls;
        byId('time').value = call;
        setText(byId('time-now'), grouped(call));
        setText(byId('time-all'), grouped(calls));
        byId('looking').hidden = this.app.look === null;
        this.app.log.grey(this.app.look);
    }

    showButtons(shown) {
        const { look, isRunning: isBusy, program } = this.app;
        for (const id of ACTIONS) byId(id).disabled = look !== null;
        setText(byId('run'), isBusy ? 'Pause' : 'Run');
        byId('run').disabled = look !== null || !isBusy && !shown.runs;
        byId('send-line').disabled = look !== null || isBusy || shown.runs || program.isOver;
        byId('send-all').disabled = look !== null || isBusy || program.isOver;
        byId('answering').classList.toggle('wanted', this.app.session.board.get('job') === WAIT);
        byId('save').disabled = this.app.session.entries.length === 0;
    }
}
