// The stored program as the board lists it: the record under way, the next one, jumps drawn from their own record to where they lead, loops
// with the passes made and left.
import { DELAY, MOVING, READY, WAIT } from './board.js';
import { element, reveal, setText } from './dom.js';

const ROW = 27.2; // the height of a row, 1.7rem
const LANE = 11; // between two ways side by side

const WAY_WORDS = { jump: 'jumps to', loop: 'goes back to', wait: 'waits, and jumps to' };

export class Listing {
    constructor(box) {
        this.box = box;
        this.key = null;
        this.rows = [];
    }

    // Shows a program, and where its run stands. `faulty` is a place that the check has named.
    show(program, key, now, faulty = -1) {
        if (key !== this.key) this.write(program, faulty);
        this.key = key;
        this.mark(program, now);
    }

    write(program, faulty) {
        const list = element('ol');
        this.rows = program.lines.map((line, place) => this.row(String(place), line, program.leads[place], place === faulty));
        if (this.rows.length) this.rows.push(this.row(String(program.lines.length), '9', null, false));
        list.append(...this.rows);
        const records = element('div', 'records');
        if (this.rows.length) records.append(drawWays(program.leads, this.rows.length), list);
        this.box.replaceChildren(records);
        this.box.hidden = this.rows.length === 0;
        this.current = null;
    }

    row(place, line, lead, isFaulty) {
        const parts = [element('span', 'place', place), element('span', 'text', spaced(line)), element('span', 'passes')];
        const row = element('li', isFaulty ? 'faulty' : '', ...parts);
        if (lead) row.title = `record ${place} ${WAY_WORDS[lead.kind]} place ${lead.to}`;
        return row;
    }

    // Marks the record under way or the next one, and says how far each open loop is.
    mark(program, now) {
        const at = now.under ?? now.next;
        this.rows.forEach((row, place) => {
            row.classList.toggle('now', place === now.under);
            row.classList.toggle('coming', place === now.next);
            const loop = now.loops.find(open => open.place === place);
            setText(row.lastChild, loop && program.leads[place] ? passWords(loop.left, program.leads[place].left) : '');
        });
        if (at !== null && at !== this.current && this.rows[at]) reveal(this.box, this.rows[at]);
        this.current = at;
    }
}

// A line of the listing with a space behind its letter, which the board takes as well.
function spaced(line) {
    return line.slice(0, 1) + ' ' + line.slice(1);
}

// `first` is how often the loop still went back when it was opened, and had gone back once.
function passWords(left, first) {
    const back = first - left + 1;
    return `${back} ${back === 1 ? 'pass' : 'passes'} made, ${left + 1} left`;
}

// Where a run stands: the record under way, or the next one, and the open loops.
export function standOf(board, history, call) {
    const job = board.get('job');
    const works = job === MOVING || job === DELAY || job === WAIT;
    return {
        under: works && call > 0 ? history.record[call - 1] : null,
        next: job === READY ? board.get('place') : null,
        loops: works || job === READY ? board.loops() : [],
    };
}

// The ways from records to where they lead, each in the innermost lane that is free.
function drawWays(leads, rows) {
    const ways = leads.flatMap((lead, from) => (lead && lead.to < rows ? [{ ...lead, from }] : []));
    const lanes = [];
    ways.sort((a, b) => Math.abs(a.to - a.from) - Math.abs(b.to - b.from));
    for (const way of ways) {
        const low = Math.min(way.from, way.to);
        const high = Math.max(way.from, way.to);
        way.lane = lanes.findIndex(taken => taken.every(other => other.high < low || other.low > high));
        if (way.lane < 0) way.lane = lanes.push([]) - 1;
        lanes[way.lane].push({ low, high });
    }
    const width = Math.min(lanes.length, 12) * LANE + 14;
    const svg = inSvg('svg', { width, height: rows * ROW, 'aria-hidden': 'true' });
    for (const way of ways) svg.append(...drawWay(way, width));
    return svg;
}

function drawWay(way, width) {
    const x = Math.max(4, width - 12 - (way.lane + 1) * LANE);
    const middle = place => (place + 0.5) * ROW;
    const shift = way.to > way.from ? -4 : 4; // an arrow that comes in is not drawn over one that goes out
    const from = middle(way.from);
    const to = middle(way.to) + shift;
    const round = to > from ? 4 : -4;
    const path = `M${width} ${from}H${x + 4}Q${x} ${from} ${x} ${from + round}V${to - round}Q${x} ${to} ${x + 4} ${to}H${width - 5}`;
    return [
        inSvg('path', { class: 'way ' + way.kind, d: path, 'data-from': way.from, 'data-to': way.to }),
        inSvg('path', { class: 'head ' + way.kind, d: `M${width} ${to}l-7 -4v8z` }),
    ];
}

function inSvg(tag, properties) {
    const made = document.createElementNS('http://www.w3.org/2000/svg', tag);
    for (const [name, value] of Object.entries(properties)) made.setAttribute(name, value);
    return made;
}
