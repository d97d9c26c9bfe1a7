// The words for what a board sends, does and is. They are tables: which of them holds is always said by the board.
import { BREAK, DELAY, DIRECT, IDLE, MOVING, READY, STORING, WAIT } from './board.js';

// What a reply means that refuses a line; where there are two, the second is for a record while a program is stored.
const REPLY_WORDS = {
    1: 'a number is out of range',
    3: 'these axes are not allowed',
    4: 'no axes are set',
    5: ['this is no line of the board', 'this is no record'],
    6: 'no room for this record',
    7: 'too few or too many numbers',
    8: 'no program is stored',
    9: 'outside the range of positions',
    D: 'a speed is out of range',
    G: ['stored under other axes', 'the program fails its check'],
    W: 'something stands stopped',
};

// The same at length.
const REPLY_SENTENCES = {
    0: ['The line is accepted, a movement is made, or a program is at its end.', 'The record is stored; at 9 the program is accepted.'],
    1: 'A number is out of range. Of a circle: its start is 0,0, or its directions do not fit the start.',
    3: 'These axes are not allowed, or one of them is not set. Of a circle: its plane has an axis that is not set.',
    4: 'No axes are set. Set them first: @01, @03, @07 or @08.',
    5: ['This is no line of the board, or it has over 80 bytes.', 'This is no record, or it has over 80 bytes. A record has no @0.'],
    6: 'There is no room in the store for this record.',
    7: 'There are too few or too many numbers. A movement has a distance and a speed for each axis that is set, and for z twice.',
    8: 'Nothing stands stopped and no program is stored: there is nothing to start.',
    9: 'The movement, or the whole circle, would leave the range of positions. No step of it is made.',
    D: 'A speed is below 30 or above 10,000. Every speed of a line must be right, used or not.',
    F: 'What ran is not finished: after a stop the rest can go on, after a break it is forgotten.',
    G: ['The program was stored under other axes. Set those axes again, or store it anew.', 'The store cannot be read. It is empty now.'],
    W: 'Something stands stopped: only P, b and S are answered. Send @0S for the rest, or break to give it up.',
};

// What the check at the end line has found, by the letter behind G: of the record that it names, and at length.
const FAULT_WORDS = {
    a: 'it leads outside the program',
    b: 'its loop starts before the first record',
    c: 'its loop and an earlier one overlap',
    d: 'more than seven loops hold it',
    e: 'it leads into a loop, or out of one',
};
const FAULT_SENTENCES = {
    a: 'It leads outside the program. It may lead to places from 0 to the end place.',
    b: 'Its loop starts before the first record. Let it go back fewer records.',
    c: 'Its loop and an earlier one overlap. Let one hold the other, or let them stand apart.',
    d: 'More than seven loops hold it. Take one away, or let one start behind it.',
    e: 'It leads into a loop, or out of one. Let it stay in its loop, or lead to a place outside of every loop.',
};

const JOB_WORDS = {
    [IDLE]: 'nothing runs',
    [STORING]: 'a program is being stored',
    [DIRECT]: 'a movement runs that a line began',
    [READY]: 'a program runs, between two records',
    [MOVING]: 'a program runs, in a movement',
    [DELAY]: 'a program runs, in a pause',
    [WAIT]: 'a program waits for a character',
};

const AXES_WORDS = { 0: 'no axes', 1: 'x', 3: 'x, y', 7: 'x, y, z', 8: 'a', 15: 'x, y, z, a' };

// How a program ends that does not reach its end, by the character that is sent.
const ENDING_WORDS = {
    9: 'the next movement would leave the range of positions: the program ends',
    3: 'a plane needs an axis that is not set: the program ends',
    1: 'the directions of a circle do not fit its start: the program ends',
    G: 'the store cannot be read: the program ends, and the store is empty now',
};

const PLANE_AXES = [['x', 'y'], ['x', 'z'], ['y', 'z']];

// The check at the end line names a record: G, a letter and its place.
export function namesFault(reply) {
    return /^G[abcde][0-9]{4}$/.test(reply);
}

export function isRefusal(reply) {
    return namesFault(reply) || reply.length === 1 && reply !== '0';
}

function wordsIn(table, reply, storing) {
    const words = table[reply] ?? '';
    return Array.isArray(words) ? words[storing ? 1 : 0] : words;
}

// What a refusal means, in a few words, or nothing. `lineOf` says by a place which line of the program text has stored the record, or null.
export function meaningOf(reply, storing, lineOf = () => null) {
    if (!namesFault(reply)) return wordsIn(REPLY_WORDS, reply, storing);
    const place = Number(reply.slice(2));
    const line = lineOf(place);
    return `${wordsIn(REPLY_WORDS, 'G', true)} at record ${place}${line === null ? '' : ` (line ${line})`}: ${FAULT_WORDS[reply[1]]}`;
}

// The same in full sentences, also for 0 and F.
export function sentenceOf(reply, storing) {
    if (!namesFault(reply)) return wordsIn(REPLY_SENTENCES, reply, storing);
    return `The check failed at record ${Number(reply.slice(2))}. ${FAULT_SENTENCES[reply[1]]} The store is empty now.`;
}

// What F means behind the control code that was sent.
export function unfinishedWords(control) {
    return control === BREAK ? 'ended' : 'stopped, and stands';
}

export function unfinishedSentence(control) {
    if (control === BREAK) return 'What ran or stood is ended, and its rest is forgotten. Positions and program stay.';
    return 'What ran is stopped, not finished. Send @0S for the rest, or break to give it up.';
}

export function jobWords(job) {
    return JOB_WORDS[job] ?? '';
}

export function axesWords(axes) {
    return AXES_WORDS[axes] ?? '';
}

// The character by which a run is over, in words.
export function endingWords(sent, isDirect) {
    if (sent === '0') return isDirect ? 'the movement is made' : 'the program has reached its end';
    return ENDING_WORDS[sent] ?? ENDING_WORDS.G;
}

// Positions: x, y and z, and a if it is set.
export function placeWords([x, y, z, a], hasA) {
    return `x ${x}, y ${y}, z ${z}${hasA ? `, a ${a}` : ''}`;
}

// What P sends: `0`, then x, y and z, and with four axes a, with six hexadecimal digits each. With A alone it does not say a.
export function positionWords(reply, axes) {
    const place = reply.slice(1).match(/.{6}/g).map(digits => parseInt(digits, 16) << 8 >> 8);
    return placeWords(place, place.length === 4) + (place.length === 3 && axes >= 8 ? ', and not where a is' : '');
}

export function planeWords(plane, between = ', ') {
    return PLANE_AXES[plane].join(between);
}

// The board's 0 and 1 for the direction of circles.
export function turnWords(direction) {
    return direction === 0 ? 'clockwise' : 'counter-clockwise';
}

// The distance of a start from its centre, in thousandths of a step, without noughts at its end.
export function radiusWords([first, second]) {
    return Math.sqrt(first * first + second * second).toFixed(3).replace(/\.?0+$/, '');
}

// An arc { radius, length, plane, direction } of which so many pulses are made.
export function arcWords({ radius, length, plane, direction }, made, isBack, speed) {
    const isWhole = made === length;
    return `${isWhole && isBack ? 'circle' : 'arc'} of radius ${radius}, ${turnWords(direction)} in ${planeWords(plane, ' and ')}, `
        + `${isWhole ? '' : `${made} of `}${length} ${length === 1 ? 'pulse' : 'pulses'} at ${speed}`;
}
