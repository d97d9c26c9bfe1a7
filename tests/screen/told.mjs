// The text of the classroom page beside the text that `./exercise` prints: node tests/screen/told.mjs [--more], once the files
// target/screen/board.wasm and target/bin/calls are made. --more tries ten times as many random files and sessions.
//
// The texts are the same byte for byte, but for what the page leaves out, since it would have to know rules of the board for it. So in the
// text of ./exercise, before it is compared,
// - the line between a refusal at the end line (as `Ga0003`) and "the store is empty now" is taken away: it works the fault out anew;
// - behind 1, 3, 5, 7 and 9 the words in left-out.txt and SPACES, which are worked out from the refused line, become the general words of
//   tools/lib/replies.awk;
// - at the end of a run the same words, with the record in front, become the general words of tools/lib/told.awk.
// Of a session by buttons the lines have no numbers; so ` (line 13)` and the column of the numbers are taken away there.
import { execFileSync } from 'node:child_process';
import fs from 'node:fs';
import os from 'node:os';
import path from 'node:path';
import { fileURLToPath } from 'node:url';
import { Board } from '../../screen/src/board.js';
import { Player } from '../../screen/src/player.js';
import { itemOf, itemsOf } from '../../screen/src/script.js';
import { Session } from '../../screen/src/session.js';
import { Teller, toldText, widthOf } from '../../screen/src/told.js';
import { isRefusal, meaningOf } from '../../screen/src/words.js';
import { dice, randomProgram } from './randoms.mjs';
import { ROOT, moduleOf, readFile } from './root.mjs';

const HERE = fileURLToPath(ROOT);
const SPECIAL = read('tests/screen/left-out.txt').split('\n').filter(line => line !== '' && !line.startsWith('#')).join('|');
const SPACES = ': (?:a space stands at its end|a space stands before a comma|two spaces stand together)';

class Difference extends Error {}

function read(file) {
    return readFile(file).toString();
}

function run(command, args, input = '') {
    const env = { ...process.env, LC_ALL: 'C', CALLS: path.join(HERE, 'target/bin/calls') };
    return execFileSync(command, args, { cwd: HERE, env, input, encoding: 'utf8', maxBuffer: 1 << 28 });
}

function same(name, wanted, got) {
    if (wanted === got) return;
    const left = wanted.split('\n');
    const right = got.split('\n');
    const at = left.findIndex((line, i) => line !== right[i]);
    const i = at < 0 ? left.length : at;
    throw new Difference(`${name}, line ${i + 1}:\n    wanted ${JSON.stringify(left[i])}\n    got    ${JSON.stringify(right[i])}`);
}

// Every refusal as the awk of ./exercise says it, beside words.js: the general words by their letter.
function compareMeanings() {
    const letters = Array.from({ length: 94 }, (none, i) => String.fromCharCode(33 + i));
    const faults = [...'abcde'].flatMap(letter => [`G${letter}0000`, `G${letter}0013`]);
    const program = `BEGIN { line_of[13] = 7 }
        { print refuses($1), (names_fault($1) ? fails($1) : meaning($1, 0) "|" meaning($1, 1)) }\n`;
    const file = path.join(fs.mkdtempSync(path.join(os.tmpdir(), 'told')), 'meanings.awk');
    fs.writeFileSync(file, program);
    const replies = [...letters, ...faults];
    const awk = run('awk', ['-f', 'tools/lib/replies.awk', '-f', 'tools/lib/fault.awk', '-f', file], replies.join('\n') + '\n');
    fs.rmSync(path.dirname(file), { recursive: true });
    const ours = replies.map(reply => {
        const lineOf = place => (place === 13 ? 7 : null);
        const words = faults.includes(reply) ? meaningOf(reply, true, lineOf) : `${meaningOf(reply, false)}|${meaningOf(reply, true)}`;
        return `${Number(isRefusal(reply))} ${words}\n`;
    });
    same('the meanings of replies', awk, ours.join(''));
    return Object.fromEntries(awk.split('\n').slice(0, letters.length).map((line, i) => [letters[i], line.slice(2).split('|')[0]]));
}

// What ./exercise says of runs that end early, by the character that is sent.
function endings() {
    const found = [...read('tools/lib/told.awk').matchAll(/if \(value == "([139])"\) return "([^"]+)"/g)];
    if (found.length !== 3) throw new Difference('tools/lib/told.awk has other words for the ends of runs');
    return Object.fromEntries(found.map(([, letter, words]) => [letter, words]));
}

// The text of ./exercise without what the page leaves out.
function plain(text, general, ends) {
    const ended = new RegExp(`(?<=^ {8})([139])  record \\d+: (?:${SPECIAL}): the program ends$`, 'gm');
    const fault = /(G[a-e]\d{4} {2}the program fails its check at .*\n)(?! {8}the store is empty now).*\n( {8}the store is empty now)/g;
    return text.replace(fault, '$1$2')
        .replace(new RegExp(`(5  this is no (?:record|line of the board))${SPACES}$`, 'gm'), '$1')
        .replace(new RegExp(`(?<=  )([1379])  (?:${SPECIAL})$`, 'gm'), (all, letter) => `${letter}  ${general[letter]}`)
        .replace(ended, (all, letter) => `${letter}  ${ends[letter]}`);
}

const module = moduleOf('board');
const session = new Session(await Board.make(module), await Board.make(module));

// A program text through the page, in pieces of so many clock calls: its text.
function pageText(program, piece = 10000, between = () => {}) {
    session.begin();
    const player = new Player(session);
    const items = itemsOf(program);
    player.add(items);
    while (player.go(piece)) between();
    return toldText(session, new Teller(session), player.endless, widthOf(items));
}

// The examples of the manual that have no options: [name, program, text].
function manualExamples() {
    return [...read('docs/MANUAL.md').matchAll(/^```exercise\n([^`]*)```$/gm)].map(([, block], i) => {
        const lines = block.split('\n');
        const sent = lines.filter(line => line.startsWith('> '));
        return [`example ${i + 1} of the manual`, sent.map(line => line.slice(2) + '\n').join(''), lines.slice(sent.length).join('\n')];
    });
}

// Programs with the text that is stored beside them.
function storedTexts(folder) {
    return fs.readdirSync(new URL(folder, ROOT)).filter(file => file.endsWith('.txt')).map(file => {
        const name = `${folder}/${file.slice(0, -4)}`;
        return [name, read(name + '.txt'), read(name + '.told')];
    });
}

// Up to a line that is sent in pieces: ./exercise cannot tell that it is a circle, the page is told by the board.
function upToPieces(text) {
    return text.replace(/^ *\d+  byte 64\n[^]*/m, '');
}

// What random files seldom come to: a reset behind the first pulse of an arc, or behind a record that sets the direction; an arc in two
// planes; two delays together; the same program twice, with records that change nothing the second time.
const HAND = [
    ['@03', '@0f-1', '@0y 40,600,0,3,4,-1,1', 'clock 1', 'reset', '@03', '@0y 40,600,0,3,4,1,-1', 'clock 1', 'break'],
    ['@03', '@0i', 'f -1', 'y 16,600,0,2,0,-1,1', '9', 'start', 'clock 1', 'reset', '@03', 'start', 'clock 2', 'reset'],
    ['@07', '@0i', 'y 16,600,0,2,0,-1,-1', 'e 1', '3 1,-2', 'e 2', 'y 4,600,0,2,0,-1,-1', '9', 'start', 'start'],
    ['@01', '@0i', '5 2', '5 3', '1 42', '5 65535', '9', 'start'],
    ['@01', '@0i', 'f -1', 'f 0', 'e 0', 'm 3,600', '0 -1,600', '3 3,-2', '9', 'start', 'start'],
];

// What the random files must have come to.
const KINDS = [
    'a pause of', 'sends', 'the origin is moved here', 'it waits for a character', 'it is still running', 'nothing to do',
    'dropped: something runs', 'arc of radius', 'circle of radius', ' of 40 pulses', ': plane', ': clockwise', ': counter-clockwise',
    'the program has reached its end', 'the movement is made', 'the program ends', 'not over after', 'fails its check',
    'stored under other axes: ', 'stopped, and stands', '  ended', ', passes ', 'back where it began', '; ', 'W  something stands stopped',
    'not where a is', ', a ', 'moves: ', '          9\n',
];

function exerciseText(program) {
    return run('./exercise', ['-', '--no-picture'], program);
}

// An entry told again and again while it grows is told as it is at once.
function comparePieces(name, program) {
    const teller = new Teller(session);
    const text = pageText(program, 7, () => {
        const last = session.entries.length - 1;
        const { calls } = session.history;
        if (calls > 700 && calls % 7000 !== 0) return;
        same(`${name}, told at call ${calls}`, JSON.stringify(new Teller(session).entry(last)), JSON.stringify(teller.entry(last)));
    });
    same(`${name}, told in pieces`, text, pageText(program));
    return text;
}

// A run is taken back by some calls and goes on: in the end the text is the same, by a teller that told the rest before.
function compareBack(name, program, { below }) {
    const text = pageText(program);
    const items = itemsOf(program);
    const entries = session.entries.flatMap(({ events, kind, sent }, i) => {
        const run = events.at(-1);
        return kind !== 'clock' && run && run.to > sent && run.from <= sent ? [{ i, from: sent, to: run.to }] : [];
    });
    if (entries.length === 0 || text.includes('not over')) return 0;
    const { i, from, to } = entries[below(entries.length)];
    const teller = new Teller(session);
    toldText(session, teller);
    session.back(from + below(to - from));
    same(`${name}, just taken back`, JSON.stringify(new Teller(session).entry(i)), JSON.stringify(teller.entry(i)));
    const player = new Player(session);
    player.runOn();
    while (player.go(5)) teller.entry(i);
    player.add(items.slice(i + 1));
    while (player.go(1000)) teller.entry(session.entries.length - 1);
    same(`${name}, taken back in line ${items[i].number}`, text, toldText(session, teller, player.endless, widthOf(items)));
    return 1;
}

const TYPED = ['@0A 4,600', '@0A 3,600,2,600', '@0P', '@0S', 'stop', 'stop', 'break', 'list', 'key Y', 'reset', '@07'];

function typed(text) {
    return { number: null, text, ...itemOf(text) };
}

// Back to a clock call, unless bytes of its entry came behind it: they would be missing.
function takeBack(call) {
    const entry = session.entries.findLast(({ began }) => began <= call);
    if (entry.kind === 'clock' || call >= entry.sent) session.back(call);
}

// Buttons: lines typed, clock calls counted, control codes in their midst, and steps back. The session's file through ./exercise gives the
// same text.
function compareButtons(seed, plainly) {
    const { below, one } = dice(seed);
    session.begin();
    const teller = new Teller(session);
    const player = new Player(session);
    player.add(itemsOf(randomProgram(seed).split('\n').slice(0, 12).join('\n')));
    while (player.go(100));
    if (player.endless) return 0;
    for (let n = 0; n < 25; n++) {
        const kind = below(7);
        if (kind === 0) takeBack(below(session.history.calls + 1));
        else if (kind < 3) player.send(typed(one(TYPED)));
        else session.clockCounted(one([1, 1, 3, 9]));
        const last = session.entries.length - 1;
        if (below(2)) continue; // a teller need not be asked each time
        same(`button ${n} of seed ${seed}`, JSON.stringify(new Teller(session).entry(last)), JSON.stringify(teller.entry(last)));
    }
    if (session.runs()) session.clockCounted(1); // else ./exercise would run on behind the last line
    const unnumbered = text => text.replace(/^(?: {3}\d| {2}\d\d| \d{3}|\d{4})(?=  )/gm, '    ').replace(/ \(line \d+\)/g, '');
    const wanted = unnumbered(plainly(exerciseText(session.file())));
    same(`the session by buttons of seed ${seed}`, wanted, unnumbered(toldText(session, teller)));
    return 1;
}

// An entry that was taken back and has grown beyond what it was, while nobody asked.
function compareGrown() {
    session.begin();
    const teller = new Teller(session);
    const player = new Player(session);
    for (const calls of [9, 14]) {
        if (calls === 9) for (const line of ['@01', '@0A 50,600']) player.send(typed(line));
        else session.back(5);
        session.clockCounted(calls - session.history.calls);
        player.send(typed('stop'));
        same('clock calls before a stop', `moves: x +${calls} at 600`, teller.entry(2).under[0]);
    }
}

function compareAll() {
    const times = process.argv.includes('--more') ? 10 : 1;
    const general = compareMeanings();
    const ends = endings();
    const plainly = text => plain(text, general, ends);
    const stored = [...storedTexts('exercises'), ...manualExamples(), ...storedTexts('tests/own')];
    for (const [name, program, text] of stored) same(name, plainly(upToPieces(text)), upToPieces(pageText(program)));
    for (const lines of HAND) {
        const program = lines.join('\n') + '\n';
        same(lines.join(' / '), plainly(exerciseText(program)), comparePieces(lines.join(' / '), program));
    }
    compareGrown();
    const random = compareRandom(60 * times, plainly);
    let buttons = 0;
    for (let seed = 1; seed <= 15 * times; seed++) buttons += compareButtons(seed, plainly);
    const isEnough = stored.length >= 60 && random.back >= 30 && buttons >= 5;
    if (!isEnough) throw new Difference(`too few cases: ${stored.length} stored, ${random.back} taken back, ${buttons} by buttons`);
    const kinds = `${stored.length} stored, ${HAND.length} by hand, ${random.files} random, ${buttons} by buttons`;
    const all = stored.length + HAND.length + random.files + buttons;
    console.log(`screen: ${all} texts the same as those of ./exercise (${kinds}), ${random.back} of them taken back`);
}

function compareRandom(files, plainly) {
    let back = 0;
    const found = new Map(KINDS.map(words => [words, 0]));
    for (let seed = 1; seed <= files; seed++) {
        const name = `the random file of seed ${seed}`;
        const program = randomProgram(seed);
        const text = comparePieces(name, program);
        same(name, plainly(exerciseText(program)), text);
        back += compareBack(name, program, dice(seed));
        for (const words of KINDS) if (text.includes(words)) found.set(words, found.get(words) + 1);
    }
    for (const [words, times] of found) if (times === 0) throw new Difference(`no random file has ${JSON.stringify(words)}`);
    return { files, back };
}

try {
    compareAll();
} catch (error) {
    if (!(error instanceof Difference)) throw error;
    console.log('screen: ' + error.message);
    process.exitCode = 1;
}
