// Looking back and going back: over long runs the board before a clock call, had again from the history, is the one that really stood
// there, and what is done once more from there is answered in the same way.
import fs from 'node:fs';
import { BREAK, Board, PULSE, RESET, STOP } from '../../screen/src/board.js';
import { History } from '../../screen/src/history.js';
import { Player } from '../../screen/src/player.js';
import { itemsOf } from '../../screen/src/script.js';
import { Session } from '../../screen/src/session.js';
import { layoutOf, usedBytes } from './layout.mjs';
import { ROOT, moduleOf, readFile } from './root.mjs';

const LOOKS = 200, RETURNS = 4, LONGEST = 20000;
const NOTED = ['answer', 'signs', 'value', 'refusal', 'job', 'from', 'to', 'first', 'record', 'moved', 'position'];
const used = usedBytes(layoutOf(readFile('firmware/board.h').toString()), 'board_state');

// Loops in a loop, with everything that takes clock calls; stopped in mid-movement, looked at and gone on with.
const LONG = `@07
@0i
0 40,900,25,900,-6,400,6,400
y 80,700,0,0,10,1,-1
5 20
n 3
m 5,800,5,800,0,300,0,300
1 65
3 30,-6
3 2,-7
9
@0S
clock 7001
stop
@0P
go on
clock 15
break
start
`;

// A store that is full, and a table that is.
const FULL = {
    'a full store': '@03\r@0i\r' + '0 1,800,2,900\r'.repeat(819) + '9\r@0S\r@0S\r',
    'a full table': '@01\r@0i\r' + '1 65\r'.repeat(1000) + '9\r@0S\r@0S\r',
};

// Numbers from a seed, the same each time.
function randomFrom(seed) {
    let state = seed;
    return below => {
        state = (Math.imul(state, 1664525) + 1013904223) >>> 0;
        return Math.floor(state / 4294967296 * below);
    };
}

// A history that keeps by itself what stood before every clock call, and everything that came in.
class Watched extends History {
    begin() {
        this.boards = [];
        this.inputs = [];
        super.begin();
    }

    clock() {
        this.boards[this.calls] = copyOf(this.board, this.boards[this.calls - 1]);
        return super.clock();
    }

    receive(byte, ports) {
        const heard = super.receive(byte, ports);
        this.inputs.push({ at: this.calls, byte, ports, reply: heard.reply, refusal: heard.refusal });
        return heard;
    }
}

// A board as bytes; a store and a table that are those of another copy are not copied once more.
function copyOf(board, last) {
    const memory = last && isMemory(board, last.memory) ? last.memory : board.memory();
    return { state: board.state().slice(), memory };
}

function isMemory(board, { store, table }) {
    return Buffer.compare(board.store(), store) === 0 && Buffer.compare(board.table(), table) === 0;
}

// Whether a board is what a copy says, in every field of its state, its store and its table.
function isCopy(board, copy) {
    return board.state().every((byte, i) => !used[i] || byte === copy.state[i]) && isMemory(board, copy.memory);
}

class Trial {
    constructor(board, spare) {
        this.history = new Watched(board, spare);
        this.session = new Session(board, spare);
        this.session.history = this.history;
        this.looks = this.returns = this.calls = 0;
    }

    // A run as the page does it, item by item.
    play(text) {
        const player = new Player(this.session);
        this.session.begin();
        player.add(itemsOf(text));
        while (this.history.calls < LONGEST && player.go(LONGEST));
    }

    // Bytes, and behind each as many clock calls as comes: mostly until nothing runs, but also none and a few, and now and then one while
    // nothing runs. With controls a control code comes too.
    hurry(bytes, random, controls) {
        const { history } = this;
        history.begin();
        for (const byte of bytes) {
            if (history.calls >= LONGEST) return;
            history.receive(byte, random(256));
            this.clocks(random(20) ? 3000 : random(40));
            if (random(50) === 0) history.clock();
            if (controls && random(200) === 0) history.receive([STOP, BREAK, RESET][random(3)], 0);
        }
    }

    clocks(most) {
        for (let i = 0; i < most && this.session.runs(); i++) this.history.clock();
    }

    // Random clock calls of the run, and those at its ends and at the kept states.
    judge(name, random) {
        const { history } = this;
        const end = copyOf(history.board);
        const noted = this.noted();
        const inputs = history.inputs.slice();
        this.calls += history.calls;
        this.look(name, random);
        for (let i = 0; i < RETURNS; i++) {
            this.goBack(name, random, noted.calls);
            this.again(name, inputs, noted);
            if (!isCopy(history.board, end)) throw new Error(`${name}: the end is another one`);
            this.look(name, random);
        }
    }

    // What the history has of its clock calls; signs only those of pulses have.
    noted() {
        const { history } = this;
        const noted = { calls: history.calls };
        for (const row of NOTED) noted[row] = history[row].slice(0, history.calls * history[row].length / history.size);
        noted.signs = noted.signs.map((sign, i) => (noted.answer[i >> 2] === PULSE ? sign : 0));
        return noted;
    }

    look(name, random) {
        const { history } = this;
        const now = copyOf(history.board);
        for (let i = 0; i < LOOKS; i++) {
            const call = [0, history.calls - 1, Math.min(128, history.calls - 1)][i] ?? random(history.calls);
            if (!isCopy(history.at(call), history.boards[call])) throw new Error(`${name}: before call ${call} stood another board`);
        }
        if (history.at(history.calls) !== history.board || !isCopy(history.board, now)) throw new Error(`${name}: looking back changed it`);
        this.looks += LOOKS;
    }

    // Back to a call, on in another way, and back to a call before it, since what has come in now stands before the call itself.
    goBack(name, random, calls) {
        const { history } = this;
        const from = 1 + random(calls - 1);
        const boards = history.boards.slice();
        history.back(from);
        if (history.calls !== from || !isCopy(history.board, boards[from])) throw new Error(`${name}: not gone back to call ${from}`);
        for (const byte of [STOP, BREAK, ...Buffer.from('@07\r@0k\r@0A5,500,-3,500,2,300,0,300\r')]) history.receive(byte, 0);
        this.clocks(50);
        history.back(random(from));
        history.boards = boards;
        this.returns++;
    }

    // What came in from here on comes in again; the answers and all that is noted of them are the same.
    again(name, inputs, noted) {
        const { history } = this;
        const from = history.calls;
        if (!isCopy(history.board, history.boards[from])) throw new Error(`${name}: not gone back to call ${from}`);
        const rest = inputs.filter(input => input.at > from);
        while (history.calls < noted.calls || rest.length) {
            if (rest.length && rest[0].at === history.calls) this.hearAgain(name, rest.shift());
            else history.clock();
        }
        const now = this.noted();
        for (const row of NOTED) {
            if (!now[row].every((n, i) => n === noted[row][i])) throw new Error(`${name}: done again, ${row} is another one`);
        }
    }

    hearAgain(name, { at, byte, ports, reply, refusal }) {
        const heard = this.history.receive(byte, ports);
        if (heard.reply !== reply || heard.refusal !== refusal) throw new Error(`${name}: behind call ${at} it answers ${heard.reply}`);
    }
}

function filesIn(folder, end) {
    return fs.readdirSync(new URL(folder, ROOT)).filter(file => file.endsWith(end)).sort().map(file => `${folder}/${file}`);
}

// All runs: how many it were.
function tryAll(trial) {
    const random = randomFrom(29);
    const texts = { 'a long run': LONG };
    const streams = { ...FULL };
    for (const file of filesIn('exercises', '.txt')) texts[file] = readFile(file).toString();
    for (const file of filesIn('trial/vectors', '.in').filter(file => file.includes('/walk_'))) streams[file] = readFile(file);
    let runs = 0;
    for (const name of [...Object.keys(texts), ...Object.keys(streams)]) {
        if (Object.hasOwn(texts, name)) trial.play(texts[name]);
        else trial.hurry(Buffer.from(streams[name]), random, !Object.hasOwn(FULL, name));
        if (trial.history.calls < 2) continue; // all that it sends is refused
        trial.judge(name, random);
        runs++;
    }
    return runs;
}

const module = moduleOf('board');
const trial = new Trial(await Board.make(module), await Board.make(module));
try {
    const runs = tryAll(trial);
    console.log(`screen: ${runs} runs with ${trial.calls} clock calls: ${trial.looks} looks back and ${trial.returns} ways back, the same`);
} catch (error) {
    console.log(`screen: ${error.message}`);
    process.exitCode = 1;
}
