// The page's board beside firmware/board.h: every field that the module names stands where the header has it, every field is read as what
// stands there, the calls are lent what the header asks for, and the numbers are the header's.
import { execFileSync, spawnSync } from 'node:child_process';
import fs from 'node:fs';
import os from 'node:os';
import path from 'node:path';
import { fileURLToPath } from 'node:url';
import * as screen from '../../screen/src/board.js';
import { constantsOf, layoutOf, memberAt } from './layout.mjs';
import { ALWAYS, ROUND, STRAIGHT } from './named.mjs';
import { ROOT, moduleOf, readFile } from './root.mjs';

const header = readFile('firmware/board.h').toString();
const types = layoutOf(header);
const constants = constantsOf(header);
const board = await screen.Board.make(moduleOf('board'));

let faults = 0;
function same(what, got, wanted) {
    if (JSON.stringify(got) === JSON.stringify(wanted)) return;
    if (faults++ < 5) console.log(`screen: ${what} is ${JSON.stringify(got)}, not ${JSON.stringify(wanted)}`);
}

// The names that screen/wasm/page.c gives, each with its member and whether it has a sign.
function namedInPage() {
    const names = new Map();
    const list = readFile('screen/wasm/page.c').toString().split('const field fields[]')[1];
    for (const [, kind, name, member] of list.matchAll(/(FIELD|SIGNED|POINT)\("([^"]+)", ([^)]+)\)/g)) {
        if (kind !== 'POINT') names.set(name, { member, signed: kind === 'SIGNED' });
        else for (const axis of screen.AXES) names.set(name + axis, { member: `${member}.${axis}`, signed: true });
    }
    return names;
}

// The member that a name stands for, said apart from page.c. A name of one word that is not here is the member of the state called so.
const FIRST = { round: 'state.round', straight: 'state.straight', heard: 'heard', written: 'written', list: 'written', clock: 'clocked',
    show: 'shown', sign: 'clocked', position: 'shown.position', origin: 'shown.origin' };
const WHOLE = { state: 'state', used: 'state.held.used', records: 'state.held.records', 'store axes': 'state.held.axes',
    loop: 'state.loops.at[0]', depth: 'state.loops.depth', count: 'state.at', home: 'state.origin',
    answer: 'clocked.kind', value: 'clocked.value', runs: 'shown.runs' };

function meant(name) {
    const [word, rest] = name.split(' ');
    return WHOLE[name] ?? (rest === undefined ? `state.${name}` : `${FIRST[word]}.${rest}`);
}

function tryPlaces(names) {
    same('the row of names', [...board.fields.keys()], [...names.keys()]);
    for (const [name, { member, signed }] of names) {
        same(`the member of ${name}`, member, meant(name));
        const wanted = memberAt(types, 'board', member);
        same(`whether ${name} has a sign`, signed, wanted.signed);
        same(name, board.fields.get(name), { at: board.here + wanted.at, size: signed ? -wanted.size : wanted.size });
    }
}

// The number in so many bytes of the memory, the lowest first.
function numberAt(at, size, signed) {
    let number = 0;
    for (let i = 0; i < size; i++) number += board.bytes[at + i] * 256 ** i;
    return signed && number >= 256 ** size / 2 ? number - 256 ** size : number;
}

// Every byte of the board another than its neighbours, and each once above 127: a field read at a wrong place or size is another number.
function tryReading(names) {
    for (const add of [1, 129]) {
        for (let i = 0; i < types.get('board').size; i++) board.bytes[board.here + i] = i * 167 + add;
        board.view.setUint32(board.fields.get('heard len').at + 4, 0, true);
        for (const [name, { member, signed }] of names) {
            const { at, size } = memberAt(types, 'board', member);
            if (size <= 8) same(`${name} as it is read`, board.get(name), numberAt(board.here + at, size, signed));
        }
        tryRows();
    }
}

// The rows that the board reads by steps of its own.
function tryRows() {
    const at = member => board.here + memberAt(types, 'board', member).at;
    const counts = member => screen.AXES.map(axis => numberAt(at(`${member}.${axis}`), 4, false) - constants.get('BOARD_ZERO'));
    const position = [];
    board.position(position, 0);
    same('the position', position, counts('state.at'));
    same('the origin', board.origin(), counts('state.origin'));
    board.bytes[at('state.loops.depth')] = 7;
    const loops = [0, 1, 2, 3, 4, 5, 6].map(i => ({
        place: numberAt(at(`state.loops.at[${i}].place`), 2, false), left: numberAt(at(`state.loops.at[${i}].left`), 2, false),
    }));
    same('the open loops', board.loops(), loops);
}

// A field of the state that is set is that field, and no byte beside it.
function trySetting(names) {
    let set = 0;
    for (const [name, { member }] of names) {
        const { at, size } = memberAt(types, 'board', member);
        if (size > 4 || !member.startsWith('state.')) continue;
        board.bytes.fill(85, board.here, board.here + types.get('board').size);
        board.set(name, 256 ** size - 2);
        const wanted = new Uint8Array(types.get('board').size).fill(85).fill(255, at, at + size);
        wanted[at] = 254;
        same(`the board with ${name} set`, [...board.bytes.subarray(board.here, board.here + wanted.length)], [...wanted]);
        set++;
    }
    return set;
}

// What the page lends is as long as the header says, and stands apart.
function tryLent() {
    const lengths = {
        here: types.get('board').size, reply: constants.get('BOARD_REPLY'), store: constants.get('BOARD_STORE'),
        table: 2 * constants.get('BOARD_TABLE'), text: constants.get('BOARD_TEXT'), thousandths: 8 * constants.get('BOARD_TABLE'),
        distances: 4 * constants.get('BOARD_TABLE'),
    };
    const lent = Object.entries(lengths).map(([name, length]) => ({ name, from: board.calls[name].value, length }));
    lent.sort((a, b) => a.from - b.from).forEach(({ name, from, length }, i) => {
        const end = i + 1 < lent.length ? lent[i + 1].from : board.bytes.length;
        same(`whether there is room for ${name}`, from + length <= end, true);
    });
    for (const name of ['store', 'table']) {
        const bytes = board[name]();
        same(`the bytes of the ${name}`, [bytes.byteOffset, bytes.length], [board.calls[name].value, lengths[name]]);
    }
    same('the bytes of the state', [board.state().byteOffset, board.state().length], [board.here, types.get('board_state').size]);
}

// The words of every call that the page's board makes. None is really made, so no length of an answer may stand there.
function tryWords() {
    const { calls } = board;
    board.bytes.fill(0, board.here, board.here + types.get('board').size);
    const said = [];
    const note = name => (...words) => { said.push([name, ...words].join(' ')); };
    const lent = name => `${calls[name].value} ${constants.get('BOARD_' + name.toUpperCase())}`;
    board.calls = { ...calls };
    for (const name of Object.keys(calls)) if (name.startsWith('board_')) board.calls[name] = note(name);
    board.fresh();
    board.receive(65, 4294967295);
    board.clock();
    board.list();
    board.show();
    board.calls = calls;
    same('the words of the calls', said, [
        `board_fresh_in ${board.here}`,
        `board_receive_in ${board.here} 65 4294967295 ${lent('reply')} ${lent('store')} ${lent('table')}`,
        `board_clock_in ${board.here} ${lent('store')} ${lent('table')}`,
        `board_list_in ${board.here} ${lent('store')} ${lent('text')}`,
        `board_show_in ${board.here}`,
    ]);
}

// The numbers of board.js, and the control codes of the card.
function tryNumbers() {
    const header = ['IDLE', 'STORING', 'DIRECT', 'READY', 'MOVING', 'DELAY', 'WAIT', 'PULSE', 'PAUSE', 'SEND', 'DONE', 'NOTHING'];
    for (const name of header) same(name, screen[name], constants.get('BOARD_' + name));
    same('the number 0', board.zero, constants.get('BOARD_ZERO'));
    const card = readFile('docs/CARD.md').toString();
    for (const name of ['STOP', 'RESET', 'BREAK']) {
        const row = card.match(new RegExp(`^\\| +(\\d+) +\\| +[0-9A-F]{2} +\\| +${name.toLowerCase()} +\\|`, 'm'));
        same(name, screen[name], row && Number(row[1]));
    }
    return header.length + 4;
}

// The same members as gcc places them for this machine: how many, or none if it is not here.
function tryCompiler(names) {
    if (spawnSync('gcc', ['--version']).status !== 0) return 0;
    const members = [...names.values()].map(({ member }) => member);
    for (const fields of [ALWAYS, STRAIGHT, ROUND]) for (const { path: member } of fields.values()) members.push(`state.${member}`);
    const lines = members.map(member => `    printf("%zu %zu\\n", offsetof(board, ${member}), sizeof here.${member});`);
    const program = ['#include <stddef.h>', '#include <stdio.h>', '#include "board.h"', 'static board here;',
        'int main(void) {', ...lines, '    return 0;', '}', ''].join('\n');
    const placed = compiled(program).trim().split('\n');
    members.forEach((member, i) => {
        const { at, size } = memberAt(types, 'board', member);
        same(`${member} by gcc`, placed[i], `${at} ${size}`);
    });
    return members.length;
}

// What a C program prints.
function compiled(program) {
    const dir = fs.mkdtempSync(path.join(os.tmpdir(), 'screen-'));
    try {
        const out = path.join(dir, 'fields');
        const folder = fileURLToPath(new URL('firmware', ROOT));
        execFileSync('gcc', ['-std=c11', '-Wall', '-Wextra', '-Werror', '-I', folder, '-x', 'c', '-', '-o', out], { input: program });
        return execFileSync(out).toString();
    } finally {
        fs.rmSync(dir, { recursive: true });
    }
}

const names = namedInPage();
tryPlaces(names);
tryReading(names);
const set = trySetting(names);
tryLent();
tryWords();
const numbers = tryNumbers();
const placed = tryCompiler(names);
const byGcc = placed > 0 ? `${placed} members by gcc too` : 'gcc is not here';
console.log(`screen: ${names.size} fields and ${numbers} numbers of the board beside firmware/board.h (${set} fields set; ${byGcc}): ` +
    (faults === 0 ? 'the same' : `${faults} differ`));
process.exitCode = faults === 0 && names.size > 0 ? 0 : 1;
