// The plate of the classroom page beside the table of measures of `./exercise`: node tests/screen/plate.mjs, from anywhere, with
// target/screen/board.wasm and target/bin/calls made. For every exercise and for the tables of the manual the holes, the cuts, the number
// of pulses and the sentence under the plate are those of ./exercise, for random programs the holes and the cuts; and followed in pieces,
// back and forth, behind a history that went back or began anew, the plate is the same as followed at once.
import { execFileSync } from 'node:child_process';
import fs from 'node:fs';
import { fileURLToPath } from 'node:url';
import { Board } from '../../screen/src/board.js';
import { describe } from '../../screen/src/plate.js';
import { Player } from '../../screen/src/player.js';
import { itemsOf } from '../../screen/src/script.js';
import { Session } from '../../screen/src/session.js';
import { Trace } from '../../screen/src/trace.js';
import { ROOT, moduleOf, readFile } from './root.mjs';

const RANDOM = 20;

class Difference extends Error {}

function same(name, wanted, got) {
    if (JSON.stringify(wanted) !== JSON.stringify(got)) {
        throw new Difference(`${name}:\n    wanted ${JSON.stringify(wanted)}\n    got    ${JSON.stringify(got)}`);
    }
}

function sameRows(name, wanted, got) {
    const at = wanted.findIndex((row, i) => JSON.stringify(row) !== JSON.stringify(got[i]));
    if (at >= 0) same(`${name}, row ${at + 1}`, wanted[at], got[at] ?? 'nothing');
    same(`${name}, rows`, wanted.length, got.length);
}

// What ./exercise prints of a program.
function exercise(text, ...options) {
    const cwd = fileURLToPath(ROOT);
    const env = { ...process.env, LC_ALL: 'C', CALLS: fileURLToPath(new URL('target/bin/calls', ROOT)) };
    return execFileSync('./exercise', ['-', '--no-picture', ...options], { cwd, env, input: text, encoding: 'utf8', maxBuffer: 1 << 28 });
}

// The rows of the table of measures: what, both ends, depth and record.
function tableOf(text, surface) {
    const [head, ...lines] = exercise(text, '--csv', '--surface', String(surface)).trimEnd().split('\n');
    const names = head.split(',');
    return lines.map(line => {
        const cells = line.split(',');
        const cell = name => cells[names.indexOf(name)] ?? '0';
        const end = side => [...'xyza'].map(axis => Number(cell(`${side}_${axis}`)));
        return { what: cell('what'), ends: [...end('from'), ...end('to')], depth: cell('depth'), record: cell('record') };
    });
}

const recordText = record => (record < 0 ? '' : String(record));

function holeRow(what, { x, y, top, bottom, a, record }, surface) {
    return { what, ends: [x, y, top, a, x, y, bottom, a], depth: String(surface - bottom), record: recordText(record) };
}

// The ways of a trace that go aside, each with the pieces of one phase put together.
function waysOf(trace) {
    const ways = [];
    for (let i = 0; i < trace.count; i++) {
        const piece = trace.way(i);
        const ends = [piece.x1, piece.y1, piece.z1, piece.a1, piece.x2, piece.y2, piece.z2, piece.a2];
        if (piece.begins) ways.push({ cut: piece.cut, ends, lowest: piece.z1, aside: false, record: piece.record });
        const way = ways[ways.length - 1];
        same('where a piece begins', way.ends.slice(4), piece.begins ? ends.slice(4) : ends.slice(0, 4));
        way.ends = [...way.ends.slice(0, 4), ...ends.slice(4)];
        way.lowest = Math.min(way.lowest, piece.z2);
        way.aside ||= piece.x1 !== piece.x2 || piece.y1 !== piece.y2 || piece.a1 !== piece.a2;
    }
    return ways.filter(way => way.aside);
}

function wayRow(way, isFlat, surface) {
    return { ends: way.ends, depth: isFlat ? '' : String(surface - way.lowest), record: recordText(way.record) };
}

// Holes, then the tool left down, then cuts; without z every way is a line.
function compareTable(name, table, trace) {
    const { surface } = trace;
    const isFlat = table.some(row => row.depth === '');
    const holes = trace.holes.map(hole => holeRow('hole', hole, surface));
    if (trace.stay) holes.push(holeRow('left down', trace.stay, surface));
    const isHole = row => row.what === 'hole' || row.what === 'left down';
    sameRows(`${name}, holes`, table.filter(isHole), holes);
    const ways = waysOf(trace).filter(way => isFlat || way.cut).map(way => wayRow(way, isFlat, surface));
    sameRows(`${name}, cuts`, table.filter(row => !isHole(row)).map(({ ends, depth, record }) => ({ ends, depth, record })), ways);
}

// How many pulses ./exercise shows, and how many steps of each axis.
function compareSteps(name, text, trace) {
    const steps = [0, 0, 0, 0];
    let pulses = 0;
    for (const [, signs, times] of exercise(text, '--pulses').matchAll(/^ {10}([-+.]{3,4}) \d+(?: \((\d+) times\))?$/gm)) {
        pulses += Number(times ?? 1);
        [...signs].forEach((sign, i) => { if (sign !== '.') steps[i] += Number(times ?? 1); });
    }
    same(`${name}, pulses`, [pulses, ...steps], [trace.pulses, ...trace.steps]);
}

// The last line of the table as text, in the words of the page: arcs are cuts or lines; where the table stands is counted from the start.
function compareWords(name, text, surface, trace) {
    const last = exercise(text, '--measure', '--surface', String(surface)).split('\n').findLast(line => line.includes('; end at '));
    const numberOf = (line, what) => Number(line.match(new RegExp(`(\\d+) ${what}s?\\b`))?.[1] ?? 0);
    const counted = what => numberOf(last, what);
    const found = describe(trace);
    if (trace.pulses === 0) return same(`${name}, words`, 'Nothing has moved yet.', found);
    const isFlat = /\bline/.test(last);
    const arcs = counted('arc');
    same(`${name}, words`, [counted('hole'), counted('cut') + (isFlat ? 0 : arcs), counted('line') + (isFlat ? arcs : 0), counted('turn')],
        ['hole', 'cut', 'line', 'turn'].map(what => numberOf(found, what)));
    const place = last.match(/end at (.*) steps/)[1];
    if (place.startsWith('a ')) return same(`${name}, words`, `a stands at ${place.slice(2)}.`, found.slice(found.indexOf('; ') + 2));
    return same(`${name}, words`, `${place}.`, found.slice(found.indexOf(' stands at ') + 11));
}

// All that a trace has kept.
function keptBy(trace) {
    const pieces = Array.from({ length: trace.count }, (none, i) => trace.way(i));
    const numbers = ['x', 'y', 'z', 'a', 'left', 'right', 'low', 'high', 'highest', 'lowest', 'deepest', 'pulses', 'turning', 'lines',
        'cuts', 'turns', 'growing'].map(name => [name, trace[name]]);
    const shown = [...trace.shown.subarray(0, trace.shownCount)];
    return { numbers, steps: trace.steps, holes: trace.holes, spots: trace.spots, stay: trace.stay, shown, pieces };
}

function compareAt(name, trace, calls) {
    const anew = new Trace(trace.history, trace.surface).follow(calls);
    same(`${name}, followed to clock call ${calls}`, keptBy(anew), keptBy(trace.follow(calls)));
}

// Every piece that can be seen from above is shown, and of those that look the same one.
function compareShown(name, trace) {
    const looks = i => {
        const { x1, y1, z1, x2, y2, z2, cut } = trace.way(i);
        return x1 === x2 && y1 === y2 ? '' : [cut, ...[[x1, y1, z1].join(), [x2, y2, z2].join()].sort()].join(' ');
    };
    const pieces = Array.from({ length: trace.count }, (none, i) => looks(i)).filter(look => look !== '');
    const drawn = [...trace.shown.subarray(0, trace.shownCount), ...trace.growing < 0 ? [] : [trace.growing]];
    const shown = drawn.map(looks).filter(look => look !== '');
    same(`${name}, pieces that are shown`, [...new Set(pieces)].sort(), shown.sort());
}

// Numbers that are the same for the same seed.
function dice(seed) {
    let state = seed;
    return sides => {
        state = Math.imul(state, 1664525) + 1013904223 >>> 0;
        return (state >>> 8) % sides;
    };
}

// In pieces forwards, then back and forth, then behind a history that went back and goes on otherwise.
function compareFollowing(name, session, surface, roll) {
    const { history } = session;
    const { calls } = history;
    const trace = new Trace(history, surface);
    for (let at = 0; at < calls; at += 1 + roll(Math.ceil(calls / 6))) compareAt(name, trace, at);
    for (const at of [calls, roll(calls + 1), roll(calls + 1), calls + 5]) compareAt(name, trace, at);
    if (calls < 2) return;
    const back = 1 + roll(calls - 1);
    session.back(back);
    for (const byte of [255, 254, ...Buffer.from('@07\r@0A 3,800,2,800,-2,300,1,300\r')]) history.receive(byte, 0);
    while (history.calls < calls + 3 && session.runs()) history.clock();
    compareAt(`${name}, gone back to ${back} and on`, trace, history.calls);
}

const module = moduleOf('board');
const session = new Session(await Board.make(module), await Board.make(module));
const moved = new Trace(session.history); // through all programs, without a reset of its own

function compare({ name, text, surface, isRandom }, roll) {
    session.begin();
    const player = new Player(session);
    player.add(itemsOf(text));
    while (player.go(10000));
    const trace = new Trace(session.history, surface).follow(session.history.calls);
    compareTable(name, tableOf(text, surface), trace);
    if (!isRandom) {
        compareSteps(name, text, trace);
        compareWords(name, text, surface, trace);
    }
    compareShown(name, trace);
    compareAt(`${name}, behind another program`, moved, session.history.calls);
    compareFollowing(name, session, surface, roll);
    return trace;
}

function exercises() {
    const files = fs.readdirSync(new URL('exercises/', ROOT)).filter(file => file.endsWith('.txt'));
    return files.map(file => ({ name: file.slice(0, -4), text: readFile(`exercises/${file}`).toString(), surface: 0 }));
}

// The examples of the manual that show a table.
function manualTables() {
    const found = [...readFile('docs/MANUAL.md').toString().matchAll(/^```exercise --(?:measure|csv)(.*)\n([^`]*)```$/gm)];
    return found.map(([, options, block], i) => {
        const text = block.split('\n').filter(line => line.startsWith('> ')).map(line => line.slice(2) + '\n').join('');
        return { name: `table ${i + 1} of the manual`, text, surface: Number(options.match(/--surface (-?\d+)/)?.[1] ?? 0) };
    });
}

// More different pieces than there is room for at first, and all of them again.
const SLOPES = ['@07', '@0i', '0 700,900,301,900,0,300,0,300', '0 -700,900,-301,900,0,300,0,300', '3 1,-2', '9', 'start'];

// A program that goes up, down and aside, in the plate and above it, by lines and by records, with circles, A, zeros, stops and resets.
function randomProgram(seed, roll) {
    const surface = [0, 0, 0, -2, 3][roll(5)];
    const turns = roll(3) === 0;
    const step = size => roll(2 * size + 1) - size;
    const deep = () => [-3, -2, -1, -1, 0, 0, 1, 2, 3][roll(9)];
    const movement = () => `${roll(3) ? step(4) : 0},800,${roll(3) ? step(3) : 0},700,${deep()},300,${deep()},300`;
    const lines = ['@07', ...turns ? ['@08'] : [], ...roll(4) ? [] : ['@0z1'], '@0f-1'];
    const direct = ['@0N7', '@0n3', '@0z1', '@0z0', '@0e0', '@0e1', '@0e2', '@0y 9,500,0,0,-4,1,1', '@0y 30,500,0,0,-2,1,1', 'reset'];
    for (let i = 0; i < 14; i++) {
        const what = roll(8);
        if (what < 4) lines.push(`@0A ${movement()}`);
        else if (what === 4) lines.push(`@0A ${movement()}`, `clock ${1 + roll(5)}`, 'stop', ...roll(2) ? ['go on'] : ['break']);
        else if (what === 5) lines.push(direct[roll(direct.length)]);
        else lines.push('@0i', `0 ${movement()}`, `0 ${movement()}`, `3 ${1 + roll(3)},-${1 + roll(2)}`, '9', 'start');
        if (lines[lines.length - 1] === 'reset') lines.push('@07', '@0f-1');
    }
    return { name: `random program ${seed}`, text: lines.map(line => line + '\n').join(''), surface, isRandom: true };
}

try {
    const learned = exercises();
    const random = Array.from({ length: RANDOM }, (none, seed) => randomProgram(seed, dice(seed + 1)));
    const slopes = { name: 'slopes', text: SLOPES.map(line => line + '\n').join(''), surface: 0 };
    const programs = [...learned, ...manualTables(), slopes, ...random];
    let holes = 0;
    let cuts = 0;
    let pulses = 0;
    programs.forEach((program, i) => {
        const trace = compare(program, dice(i + 1000));
        holes += trace.holes.length;
        cuts += trace.cuts;
        pulses += trace.pulses;
    });
    const others = programs.length - learned.length;
    console.log(`screen: the plates of ${learned.length} exercises and ${others} other programs are as ./exercise measures them`
        + ` (${holes} holes, ${cuts} cuts, ${pulses} pulses), also followed in pieces, back and forth`);
} catch (error) {
    if (!(error instanceof Difference)) throw error;
    console.log(`screen: ${error.message}`);
    process.exitCode = 1;
}
