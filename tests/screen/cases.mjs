// All cases through one door, in one process: node tests/screen/cases.mjs DOOR. The door is `programs`, the proved programs as WebAssembly,
// or `page`, the page's own board. The cases are those of tests/walk and tests/calls with what target/bin prints for them, as
// tests/screen/run has put them into target/screen/cases, the stored vectors of trial and the input of the crates' own tests.
import fs from 'node:fs';
import { Board } from '../../screen/src/board.js';
import { Session } from '../../screen/src/session.js';
import { Calls } from './calls.mjs';
import { layoutOf } from './layout.mjs';
import { roomyBoard } from './lent.mjs';
import { runProgram } from './programs.mjs';
import { ROOT, moduleOf, readFile } from './root.mjs';
import { walk } from './walk.mjs';

// By name what a door does with an input, as bytes; a name that is missing does not go through it.
const DOORS = {
    programs() {
        return Object.fromEntries(['walk', 'calls', 'sheet_vectors'].map(name => {
            const module = moduleOf(name);
            return [name, input => runProgram(module, input)];
        }));
    },
    async page() {
        const module = moduleOf('board');
        const session = new Session(await Board.make(module), await Board.make(module));
        const calls = new Calls(await roomyBoard(module), await Board.make(module), layoutOf(readFile('firmware/board.h').toString()));
        return {
            walk: input => Buffer.from(walk(session, input), 'latin1'),
            calls: input => Buffer.from(calls.run(input.toString('latin1')), 'latin1'),
        };
    },
};

// The cases of a folder, by the word in front of their names: [program, input, output].
function casesIn(folder, programOf) {
    const inputs = fs.readdirSync(new URL(folder, ROOT)).filter(file => file.endsWith('.in')).sort();
    return inputs.map(file => [programOf(file), `${folder}/${file}`, `${folder}/${file.slice(0, -2)}out`]);
}

const VECTORS = { walk: 'walk', calls: 'calls', sheet: 'sheet_vectors' };

const SETS = {
    'cases of walk': () => casesIn('target/screen/cases/walk', () => 'walk'),
    'cases of calls': () => casesIn('target/screen/cases/calls', () => 'calls'),
    'stored vectors': () => casesIn('trial/vectors', file => VECTORS[file.replace(/_.*/, '')]),
    'inputs of crates': () => Object.values(VECTORS).map(name => [name, `crates/${name}/stdin`, `crates/${name}/stdout`]),
};

// The first line in which two texts differ.
function firstDifference(wanted, got) {
    const [left, right] = [wanted, got].map(bytes => bytes.toString('latin1').split('\n'));
    let i = 0;
    while (left[i] === right[i]) i++;
    return `line ${i + 1} is ${JSON.stringify(right[i])}, not ${JSON.stringify(left[i])}`;
}

// What is wrong with a case; nothing if it is the same.
function faultOf(run, input, output) {
    const wanted = readFile(output);
    try {
        const got = run(readFile(input));
        return wanted.equals(got) ? null : firstDifference(wanted, got);
    } catch (error) {
        return String(error);
    }
}

const TITLES = { programs: 'the proved programs as WebAssembly', page: "the page's board" };
const door = process.argv[2];
const runs = await DOORS[door]();
const told = [];
let faults = 0;
for (const [what, cases] of Object.entries(SETS)) {
    const those = cases().filter(([program]) => Object.hasOwn(runs, program));
    for (const [program, input, output] of those) {
        const fault = faultOf(runs[program], input, output);
        if (fault && faults++ < 5) console.log(`screen: ${TITLES[door]}, ${input}: ${fault}`);
    }
    told.push(`${those.length} ${what}`);
}
console.log(`screen: ${TITLES[door]}: ${told.join(', ')}: ${faults === 0 ? 'the same' : faults + ' differ'}`);
process.exitCode = faults === 0 && told.every(text => !text.startsWith('0 ')) ? 0 : 1;
