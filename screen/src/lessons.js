// The five lessons: each a small program with a question that is asked before it runs. The answer is what the board then did, counted in
// the history of its session; no right answer is kept here. In the texts, what one types or reads on the line stands between two marks `.
import { DONE, PAUSE, PULSE, SEND } from './board.js';
import { itemsOf } from './script.js';

// `text` is read first, and the first `asked` lines of `program` run before the `question`. Each of the `choices` has a `remark` for
// whoever takes it. `measure` and `facts` look at the session after the run. `short` is the rule to remember, for behind the answer. If
// `beside` makes another program of this one, a second board runs that, and its session is given too.
export class Lesson {
    constructor(parts) {
        Object.assign(this, { asked: 0, beside: null }, parts);
    }

    // What is done before the question, behind it, and on a second board.
    items() {
        const all = itemsOf(this.program);
        return {
            before: all.filter(item => item.number <= this.asked),
            answering: all.filter(item => item.number > this.asked),
            beside: this.beside ? itemsOf(this.beside(this.program)) : [],
        };
    }

    // What is said to whoever took the choice of this value, when all has run: sentence by sentence.
    explain(value, session, beside) {
        const measured = this.measure(session, beside);
        const [taken, right] = [value, measured].map(one => this.choices.find(choice => choice.value === one));
        const answer = right ? right.label : String(measured);
        const verdict = taken === right ? `Right: ${answer}.` : `The board gives another answer: ${answer}.`;
        return [verdict, taken.remark, ...this.facts(session, beside)];
    }
}

// A text in pieces, in their order: `code` is true for what stands between two marks.
export function lessonPieces(text) {
    return text.split('`').map((piece, i) => ({ text: piece, code: i % 2 === 1 })).filter(piece => piece.text !== '');
}

// The records in the order in which they ran, by their places: one for each time that the board came to one.
export function ranRecords(session) {
    const { history } = session;
    return session.entries.flatMap((entry, i) => {
        const { records } = session.after(i);
        return clockCallsOf(entry).filter(k => comesToRecord(history, k, records)).map(k => history.record[k]);
    });
}

// The first pulse and the first pause of a record leave another place behind; a record without them takes one call. The end of a program
// stands behind its last record.
function comesToRecord(history, k, records) {
    if (history.record[k] < 0 || history.from[k] >= records) return false;
    const answer = history.answer[k];
    if (answer === PULSE || answer === PAUSE) return history.from[k] !== history.to[k];
    return answer === DONE || answer === SEND;
}

// How often each record of the stored program ran, by its place.
export function ranCounts(session) {
    const counts = new Array(session.board.get('records')).fill(0);
    for (const record of ranRecords(session)) counts[record]++;
    return counts;
}

// Each time that the tool went below the height of the start: which record did it, where, and how deep it came.
export function drilledHoles(session) {
    const { answer, signs, position, record, calls } = session.history;
    const holes = [];
    let height = 0;
    for (let k = 0; k < calls; k++) {
        if (answer[k] !== PULSE) continue;
        const above = height >= 0;
        height += signs[4 * k + 2];
        if (above && height < 0) holes.push({ record: record[k], x: position[4 * k], y: position[4 * k + 1], depth: 0 });
        if (height < 0) holes[holes.length - 1].depth = Math.max(holes[holes.length - 1].depth, -height);
    }
    return holes;
}

// The program as the old firmware read it: the offset of each record that leads backwards is sent one nearer to 0.
export function oldFirmware(text) {
    let storing = false;
    return text.split(/\r\n|\r|\n/).map(line => {
        if (line === '@0i') storing = true;
        if (line === '9') storing = false;
        return storing ? line.replace(/^([23] ?[0-9]+, ?)-([0-9]+)$/, (all, front, back) => front + Math.min(0, 1 - Number(back))) : line;
    }).join('\n');
}

// The clock calls of an entry.
function clockCallsOf(entry) {
    return entry.events.flatMap(event => Array.from({ length: event.to - event.from || 0 }, (unused, i) => event.from + i));
}

function pulsesOf(session, index) {
    return clockCallsOf(session.entries[index]).filter(k => session.history.answer[k] === PULSE).length;
}

// All that the board sent in an entry: its reply, and what its clock calls sent.
function sentIn(session, index) {
    const { history, entries } = session;
    const replies = entries[index].events.map(event => event.reply ?? '');
    const sent = clockCallsOf(entries[index]).filter(k => history.answer[k] === SEND).map(k => String.fromCharCode(history.value[k]));
    return [...replies, ...sent].join('');
}

// The entry of a line, by its text: the last one, for a person may have sent the same before.
function entryOf(session, text) {
    return session.entries.map(entry => entry.text).lastIndexOf(text);
}

// The places of the stored program that never came to run.
function passedOver(session) {
    return ranCounts(session).flatMap((count, place) => (count === 0 ? [place] : []));
}

function drilledBy(session) {
    return drilledHoles(session).map(hole => hole.record).join(' ');
}

function inARow(things) {
    return things.length < 2 ? things.join('') : things.slice(0, -1).join(', ') + ' and ' + things[things.length - 1];
}

function soOften(count) {
    return count === 1 ? 'once' : count + ' times';
}

export const LESSONS = [new Lesson({
    id: 'jump',
    title: 'A jump',
    text: 'The record in place 0 is a jump, `3 0,5`. Behind it stand six records that drill, in the places 1 to 6. Each drills as deep as '
        + 'its place says: place 1 drills 1 step deep, place 6 drills 6 steps deep.',
    program: `# A jump, and behind it six records that drill.
@07
@0i
3 0,5
0 6,800,0,800,-1,300,1,300
0 6,800,0,800,-2,300,2,300
0 6,800,0,800,-3,300,3,300
0 6,800,0,800,-4,300,4,300
0 6,800,0,800,-5,300,5,300
0 6,800,0,800,-6,300,6,300
9
start
`,
    question: 'How many records does the jump pass over?',
    choices: [
        { label: 'four', value: 4, remark: 'The offset is added to the place of the jump. So offset 1 is simply the next record.' },
        { label: 'five', value: 5, remark: 'That counts from the record behind the jump. The board counts from the jump itself.' },
        { label: 'six', value: 6, remark: 'Those are all the records behind the jump: there would be no hole.' },
    ],
    measure: session => passedOver(session).length,
    facts: session => {
        const [jump, target] = ranRecords(session);
        return [
            `The jump stands in place ${jump} and went to place ${target}. Passed over are the places ${inARow(passedOver(session))}.`,
            `The plate shows it: its holes are ${inARow(drilledHoles(session).map(hole => hole.depth))} steps deep.`,
        ];
    },
    short: 'A jump counts from its own record: add the offset to the place of the jump.',
}), new Lesson({
    id: 'loop',
    title: 'A loop',
    text: 'The record in place 0 goes 4 steps to the right and drills a hole. Behind it stands a loop, `3 25,-1`: it goes back one record.',
    program: `# A record that drills, and a loop.
@07
@0i
0 4,800,0,800,-3,300,3,300
3 25,-1
9
start
`,
    question: 'How many holes are there at the end?',
    choices: [
        { label: '24', value: 24, remark: 'That is one less than the number. One writes 24 to get 25 holes.' },
        { label: '25', value: 25, remark: 'That counts the first pass as a repeat. It is made before the board comes to the loop.' },
        { label: '26', value: 26, remark: 'The number counts the repeats, and the first pass is none.' },
    ],
    measure: session => drilledHoles(session).length,
    facts: session => {
        const ran = ranRecords(session);
        const repeats = ran.filter((place, i) => i > 0 && place < ran[i - 1]).length;
        return [`Record 0 ran ${soOften(ranCounts(session)[0])}: the first pass, and ${soOften(repeats)} because the loop went back.`];
    },
    short: 'A loop\'s number counts the repeats after the first pass: write one less than you count.',
}), new Lesson({
    id: 'origin',
    title: 'A moved origin',
    text: 'The table goes to x 6, y 4, and `@0n 3` makes that place the origin of x and y. Then it goes on to x 11, y 2. All of this is '
        + 'counted from zero, as `@0P` does.',
    program: `# The origin is moved. Then the same numbers are sent twice: A is a relative movement, M an absolute one.
@03
@0M 6,600,4,600
@0n 3
@0A 5,600,-2,600
@0A 2,600,3,600
@0M 2,600,3,600
`,
    asked: 5,
    question: 'Now comes a relative movement, `@0A 2,600,3,600`. Where will the table stand in x, counted from zero?',
    choices: [
        { label: 'at x 2', value: 2, remark: 'That is 2 counted from zero: an absolute movement, had the origin not been moved.' },
        { label: 'at x 8', value: 8, remark: 'That is 2 counted from the origin. Absolute movements count so, relative ones do not.' },
        { label: 'at x 13', value: 13, remark: 'A relative movement counts from where the table stands, wherever the origin is.' },
    ],
    measure: session => session.after(entryOf(session, '@0A 2,600,3,600')).position[0],
    facts: session => {
        const relative = entryOf(session, '@0A 2,600,3,600');
        const absolute = session.after(entryOf(session, '@0M 2,600,3,600'));
        return [
            `The relative movement went from x ${session.after(relative - 1).position[0]} to x ${session.after(relative).position[0]}.`,
            'Behind it came the same numbers as an absolute movement, `@0M 2,600,3,600`. '
                + `That went to x ${absolute.position[0]}, for it counts from the origin, which is at x ${absolute.origin[0]}.`,
        ];
    },
    short: 'A moved origin moves absolute movements only. Relative ones count from where the table stands.',
}), new Lesson({
    id: 'stop',
    title: 'A stop',
    text: 'The table is to go 8 steps to the right. After 3 of them comes a stop: the board sends `F`, and the table is still.',
    program: `# A movement of 8 steps, held after 3. Then a new movement, go on, and the new movement once more.
@03
@0A 8,600,0,600
clock 3
stop
@0A 0,600,4,600
go on
@0A 0,600,4,600
`,
    asked: 5,
    question: 'How many steps of this movement are still to be made?',
    choices: [
        { label: 'none, it is finished', value: 0, remark: 'That takes `F` for `0`. The `0` of a finished movement had not come yet.' },
        { label: 'five', value: 5, remark: 'What is made is made, and the rest can go on.' },
        { label: 'eight, it begins anew', value: 8, remark: 'A stop forgets nothing: the steps that are made stay made.' },
    ],
    measure: session => pulsesOf(session, entryOf(session, 'go on')),
    facts: session => {
        const on = entryOf(session, 'go on');
        return [
            `The stop was answered with \`${sentIn(session, entryOf(session, 'stop'))}\`, not finished. So a new movement was refused with `
                + `\`${sentIn(session, on - 1)}\`: something stands stopped.`,
            `Then \`go on\` made the other ${pulsesOf(session, on)} steps, and behind them came the \`${sentIn(session, on)}\`.`,
            `Now the new movement made its ${pulsesOf(session, on + 1)} steps. Whoever does not want the rest sends break, not \`go on\`.`,
        ];
    },
    short: 'What is stopped is not finished: `F` is not `0`. Send `@0S` for the rest, or break to give it up.',
}), new Lesson({
    id: 'old',
    title: 'The old firmware',
    text: 'A board bought in earlier read every backward offset one record short. Here a pattern of two records is to be drilled three '
        + 'times, by the loop `3 2,-2`. It runs as it is written, and beside that as the old board read it: with `3 2,-1`.',
    program: `# A stair of holes: one to the right, one upwards, three times.
@07
@0i
0 8,800,0,800,-4,300,4,300
0 0,800,6,800,-4,300,4,300
3 2,-2
9
start
`,
    beside: oldFirmware,
    question: 'Which records drilled on the old board, one after the other?',
    choices: [
        { label: '0 1 0 1 0 1', value: '0 1 0 1 0 1', remark: 'That is what the program says, and what this board makes of it.' },
        { label: '0 1 0 1', value: '0 1 0 1', remark: 'That is a pass too few. The old board made all passes, but went back too short.' },
        { label: '0 1 1 1', value: '0 1 1 1', remark: 'Its loop came back to record 1 only: just the second half was repeated.' },
        { label: '0 0 0 1', value: '0 0 0 1', remark: 'One record back from the loop is record 1, not record 0.' },
    ],
    measure: (session, beside) => drilledBy(beside),
    facts: (session, beside) => [
        ...[['As it is written', session], ['As the old board read it', beside]].map(([how, run]) => `${how}, the records `
            + `${drilledBy(run)} drilled ${drilledHoles(run).length} holes, and record 0 ran ${soOften(ranCounts(run)[0])}.`),
        'The program is right. Whoever got such a plate from the old board had made no mistake.',
    ],
    short: 'If the listing says `3 2,-2` and the plate repeats only the second half, the learner\'s work is right.',
})];
