// The lessons of the classroom screen under node: each runs on the board, and what it counts is compared with what ./exercise makes of the
// same program, with the proved program calls behind it: its text, its table of measures, and the stream of calls.
import { fileURLToPath } from 'node:url';
import { execFileSync } from 'node:child_process';
import { chmodSync, mkdtempSync, readFileSync, readdirSync, rmSync, writeFileSync } from 'node:fs';
import { tmpdir } from 'node:os';
import { isDeepStrictEqual } from 'node:util';
import { Board } from '../../screen/src/board.js';
import { LESSONS, Lesson, drilledHoles, oldFirmware, ranCounts, ranRecords } from '../../screen/src/lessons.js';
import { Player } from '../../screen/src/player.js';
import { itemsOf } from '../../screen/src/script.js';
import { Session } from '../../screen/src/session.js';

const root = fileURLToPath(new URL('../..', import.meta.url));
const module = new WebAssembly.Module(readFileSync(root + 'target/screen/board.wasm'));
const folder = mkdtempSync(tmpdir() + '/lessons-');
let compared = 0;

function is(what, got, wanted) {
    compared++;
    if (isDeepStrictEqual(got, wanted)) return;
    console.log(`screen: lessons: ${what}: ${JSON.stringify(got)}, not ${JSON.stringify(wanted)}`);
    process.exit(1);
}

// ---- by the board of the page

async function sessionOf(...parts) {
    const session = new Session(await Board.make(module), await Board.make(module));
    const player = new Player(session);
    for (const items of parts) {
        player.add(items);
        while (player.go(1000));
    }
    return session;
}

async function runOf(lesson) {
    const { before, answering, beside } = lesson.items();
    return { session: await sessionOf(before, answering), beside: await sessionOf(beside) };
}

// ---- by ./exercise

// A program calls that also keeps what it prints.
writeFileSync(folder + '/calls', `#!/bin/sh\n"${root}tools/calls" | tee "${folder}/stream"\n`);
chmodSync(folder + '/calls', 0o755);

function exercise(text, ...words) {
    writeFileSync(folder + '/program.txt', text);
    const env = { ...process.env, CALLS: folder + '/calls' };
    return execFileSync(root + 'exercise', [folder + '/program.txt', '--no-picture', ...words], { env, encoding: 'utf8' });
}

// What the program calls printed for each line of the file: its answers, and the state behind them.
function streamOf(text) {
    const told = exercise(text);
    const lines = new Map();
    let line = null;
    for (const row of readFileSync(folder + '/stream', 'utf8').split('\n')) {
        const word = row.split(' ');
        if (word[0] === 'N') lines.set(Number(word[1]), line = { answers: [], state: {} });
        if (word[0] === 'C') line.answers.push({ kind: word[1] });
        if (word[0] === 'T') Object.assign(line.answers.at(-1), { job: word[2], from: Number(word[4]), place: Number(word[6]) });
        if (word[0] === 'S') line.state = { x: Number(word[4]), records: Number(row.match(/ records ([0-9]+)/)[1]) };
    }
    return { told, lines };
}

// The records that ran, by the places that the program calls tells; a movement that is sent as a line is none.
function ranBy({ lines }) {
    return [...lines.values()].filter(({ answers }) => answers.every(({ job }) => job !== 'Direct')).flatMap(({ answers, state }) => answers
        .filter(({ kind, from, place }) => from < state.records && (from !== place || !['Pulse', 'Pause'].includes(kind)))
        .map(({ from }) => from));
}

// The passes of records that move, as the text tells them.
function passesBy({ told }) {
    return [...told.matchAll(/^ {8}record ([0-9]+), pass(?:es ([0-9]+) to)? ([0-9]+):/gm)]
        .flatMap(([all, place, first, last]) => new Array(Number(last) - Number(first ?? last) + 1).fill(Number(place)));
}

function holesBy(text) {
    const rows = exercise(text, '--csv').trim().split('\n').slice(1).map(row => row.split(',')).filter(row => row[1] === 'hole');
    return rows.map(row => ({ record: Number(row[9]), x: Number(row[5]), y: Number(row[6]), depth: Number(row[8]) }));
}

// The answers to the questions, without the history of a session.
const ANSWERS = {
    jump: text => {
        const stream = streamOf(text);
        return Math.max(...[...stream.lines.values()].map(({ state }) => state.records)) - new Set(ranBy(stream)).size;
    },
    loop: text => holesBy(text).length,
    origin: text => streamOf(text).lines.get(text.split('\n').indexOf('@0A 2,600,3,600') + 1).state.x,
    stop: text => Number(streamOf(text).told.match(/ go on\n +moves: x \+([0-9]+) at/)[1]),
    old: (text, old) => holesBy(old).map(hole => hole.record).join(' '),
};

// ---- the comparison

function sameRuns(what, session, text) {
    const stream = streamOf(text);
    const ran = ranRecords(session);
    is(`${what}: the records that ran`, ran, ranBy(stream));
    const passes = passesBy(stream);
    const movers = new Set(passes);
    if (passes.length) is(`${what}: the passes of records that move`, ran.filter(place => movers.has(place)), passes);
    is(`${what}: how often each ran`, ranCounts(session).reduce((sum, count) => sum + count, 0), ran.length);
    return ran.length;
}

async function sameLesson(lesson) {
    const { session, beside } = await runOf(lesson);
    const old = lesson.beside ? lesson.beside(lesson.program) : '';
    sameRuns(lesson.id, session, lesson.program);
    is(`${lesson.id}: the holes`, drilledHoles(session), holesBy(lesson.program));
    if (old) sameRuns(`${lesson.id}, beside`, beside, old);
    if (old) is(`${lesson.id}: the holes beside`, drilledHoles(beside), holesBy(old));
    const measured = lesson.measure(session, beside);
    is(`${lesson.id}: the answer`, measured, ANSWERS[lesson.id](lesson.program, old));
    return { session, beside, measured };
}

// Each text is there; exactly one choice is right; each has a remark of its own, and none of the texts before says the answer.
async function soundLesson(lesson) {
    const { session, beside, measured } = await sameLesson(lesson);
    const texts = ['id', 'title', 'text', 'program', 'question', 'short'];
    is(`${lesson.id}: texts that are empty`, texts.filter(name => lesson[name].trim() === ''), []);
    is(`${lesson.id}: choices that are right`, lesson.choices.filter(({ value }) => value === measured).length, 1);
    for (const name of ['label', 'value', 'remark']) {
        is(`${lesson.id}: each ${name} once`, new Set(lesson.choices.map(choice => choice[name])).size, lesson.choices.length);
    }
    for (const choice of lesson.choices) soundChoice(lesson, choice, measured, lesson.explain(choice.value, session, beside));
    return measured;
}

function soundChoice(lesson, { label, value, remark }, measured, said) {
    const what = `${lesson.id}, ${label}: `;
    const right = lesson.choices.find(choice => choice.value === measured).label;
    const sentence = one => /^[A-Z].*[.]$/.test(one) && !/undefined|NaN|``/.test(one);
    const before = [lesson.text, lesson.question];
    is(what + 'the verdict', [said[0].startsWith('Right: '), said[0].includes(right)], [value === measured, true]);
    is(what + 'the remark', said[1], remark);
    is(what + 'sentences', said.length > 2 && said.every(sentence), true);
    is(what + 'marks in pairs', [...before, lesson.short, ...said].every(one => one.split('`').length % 2 === 1), true);
    is(what + 'the answer is said too early', value === measured && before.join(' ').includes(label), false);
}

// The same lesson with another program: the answer is the board's, and moves with it.
async function changedLesson(id, from, to, answer) {
    const lesson = LESSONS.find(one => one.id === id);
    is(`${id}: holds ${from}`, lesson.program.split(from).length, 2);
    const changed = new Lesson({ ...lesson, program: lesson.program.replace(from, to) });
    is(`${id} with ${to}`, (await sameLesson(changed)).measured, answer);
}

async function stopLesson() {
    const lesson = LESSONS.find(one => one.id === 'stop');
    const { before, answering } = lesson.items();
    const held = await sessionOf(before);
    const { standing, position } = held.after(held.entries.length - 1);
    is('stop: stands before the question', [standing, position[0], held.runs()], [1, 3, false]);
    const { told } = streamOf(lesson.program);
    is('stop: F, then W', [/ stop +F /.test(told), / @0A 0,600,4,600 +W /.test(told)], [true, true]);
    const said = lesson.explain(0, await sessionOf(before, answering)).join(' ');
    is('stop: F, W and 0 are told', ['`F`, not finished', 'with `W`', 'came the `0`'].map(part => said.includes(part)), [true, true, true]);
}

// Offsets forwards, other records and lines outside of storing stay as they are; every line end is taken.
function oldReadings() {
    const lines = '3 2,-1|@0i|3 2,-2|33,-1|3 0, -3|2 89,-4|2 89,4|3 0,5|0 -3,600|1 45|9|3 2,-2|@0i|3 1,-10';
    const old = '3 2,-1|@0i|3 2,-1|33,0|3 0, -2|2 89,-3|2 89,4|3 0,5|0 -3,600|1 45|9|3 2,-2|@0i|3 1,-9';
    for (const end of ['\n', '\r\n', '\r']) is('the old offsets', oldFirmware(lines.replaceAll('|', end)), old.replaceAll('|', '\n'));
}

async function main() {
    const known = { jump: 4, loop: 26, origin: 13, stop: 5, old: '0 1 1 1' };
    is('the lessons', LESSONS.map(lesson => lesson.id), Object.keys(known));
    for (const lesson of LESSONS) is(`${lesson.id}: the known answer`, await soundLesson(lesson), known[lesson.id]);
    await changedLesson('jump', '3 0,5', '3 0,6', 5);
    await changedLesson('loop', '3 25,-1', '3 24,-1', 25);
    await changedLesson('origin', '@0A 5,600,-2,600', '@0A 7,600,1,600', 15);
    await changedLesson('stop', 'clock 3', 'clock 6', 2);
    await changedLesson('old', '3 2,-2', '3 1,-2', '0 1 1');
    await stopLesson();
    oldReadings();
    const names = readdirSync(root + 'exercises').filter(name => name.endsWith('.txt'));
    let ran = 0;
    for (const name of names) {
        const text = readFileSync(root + 'exercises/' + name, 'utf8');
        ran += sameRuns(name, await sessionOf(itemsOf(text)), text);
    }
    const all = `${LESSONS.length} lessons and the ${ran} records that ran in ${names.length} exercises`;
    console.log(`screen: ${all} are as ./exercise tells them, by ${compared} comparisons`);
}

process.on('exit', () => rmSync(folder, { recursive: true, force: true }));
await main();
