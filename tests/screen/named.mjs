// The fields of a state that a script for `calls` sets by name: the member of board_state that each is, and how many values it holds.
import { memberAt } from './layout.mjs';

const FLAG = 2, PLANE = 3, BYTE = 256, HALF = 65536, WORD = 4294967296;

const numbers = (values, names) => Object.entries(names).map(([name, path]) => [name, { path, values, keep: n => n }]);

// 0 or -1, kept as 0 or 1.
const turn = (name, path) => [name, { path, values: FLAG, keep: n => -n }];

// A number kept as a count.
const count = (name, path) => [name, { path, values: WORD, keep: (n, zero) => n + zero }];

const point = (name, path) => ['x', 'y', 'z', 'a'].map(axis => count(name + axis, `${path}.${axis}`));

// Those that are always there.
export const ALWAYS = new Map([
    ...point('', 'at'), ...point('o', 'origin'),
    ...numbers(BYTE, { axes: 'axes', depth: 'loops.depth', len: 'len' }), ...numbers(FLAG, { over: 'over', standing: 'standing' }),
    ...numbers(HALF, { place: 'place' }), ...numbers(PLANE, { plane: 'plane' }), turn('turn', 'direction'),
]);

// Those of a straight movement that is under way, and of an arc.
export const STRAIGHT = new Map([
    ...point('start', 'straight.start'), ...point('first', 'straight.first'),
    ...point('second', 'straight.second'), ...point('third', 'straight.third'),
    ...numbers(HALF, { speed1: 'straight.speed1', speed2: 'straight.speed2', speed3: 'straight.speed3' }),
    ...numbers(BYTE, { phase: 'straight.phase' }), ...numbers(WORD, { made: 'straight.made' }),
]);
export const ROUND = new Map([
    count('centre1', 'round.centre.first'), count('centre2', 'round.centre.second'),
    count('start1', 'round.start.first'), count('start2', 'round.start.second'),
    ...numbers(HALF, { arcspeed: 'round.speed' }), ...numbers(WORD, { length: 'round.length', made: 'round.made' }),
    ...numbers(PLANE, { arcplane: 'round.plane' }), turn('arcturn', 'round.direction'),
]);

// Sets a field of the board: false if there is none of that name, or if it cannot hold the number.
export function setNamed(board, types, fields, name, number) {
    const field = fields.get(name);
    if (!field) return false;
    const kept = field.keep(number, board.zero);
    if (!(kept >= 0 && kept < field.values)) return false;
    setMember(board, types, field.path, kept);
    return true;
}

// Sets a member of the state, by its path.
export function setMember(board, types, path, number) {
    const { at, size } = memberAt(types, 'board_state', path);
    for (let i = 0; i < size; i++) board.bytes[board.here + at + i] = Math.floor(number / 256 ** i) % 256;
}
