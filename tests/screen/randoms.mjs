// Random program files, the same for the same seed: lines and words as an instructor might try them, right and wrong.

// Numbers that are the same for the same seed.
export function dice(seed) {
    let state = seed;
    const below = n => {
        state = (Math.imul(state, 1664525) + 1013904223) >>> 0;
        return Math.floor(state / 4294967296 * n);
    };
    return { below, one: list => list[below(list.length)] };
}

const SETTINGS = ['@0n1', '@0N8', '@0z1', '@0z0', '@0e1', '@0e0', '@0f-1', '@0f 0', '@0b2', '@0k', '@05', '@015', '@0n9'];
const SLIPS = ['hello', '# no line', '', 'Y@0P', '@0P ', '@0A 1 ,600', 'a\u00e4b'];
const WORDS = ['clock 0', 'clock 3', 'clock 40', 'stop', 'go on', 'start', 'break', 'reset', 'list', 'key Y', 'key N', 'ports 1 2 3 4'];
const STARTS = [
    '2,0,-1,-1', '2,0,-1,1', '0,5,1,-1', '0,5,-1,-1', '3,4,1,-1', '3,4,-1,1', '-1,-7,-1,1', '0,0,1,1', '4000000,-4000000,-1,-1',
];

// No key is a digit: behind one a line might be a record, which ./exercise cannot read in pieces.
class RandomProgram {
    constructor(seed) {
        Object.assign(this, dice(seed));
        this.lines = [];
        this.setAxes();
        const ways = [this.putLine, this.putWord, this.putStopped, this.putProgram, this.putProgram];
        for (let n = 4 + this.below(9); n > 0; n--) this.do(ways);
        this.put('@0P');
    }

    do(ways) {
        this.one(ways).call(this);
    }

    put(...lines) {
        this.lines.push(...lines);
    }

    setAxes() {
        this.axes = this.one([1, 3, 7, 7, 8, 15]);
        if (this.axes === 8 && this.below(2)) this.put('reset'); // A alone is set on a board without axes
        if (this.axes === 15) this.put('@07', '@08');
        else this.put('@0' + this.axes);
        if (this.below(2)) this.put('start');
    }

    putLine() {
        this.do([
            this.setAxes, () => this.put(this.direct()), () => this.put(this.direct()), () => this.put('@0P'),
            () => this.put(this.one(SETTINGS)), () => this.put(this.one(SLIPS)),
        ]);
    }

    putWord() {
        this.put(this.one(WORDS));
    }

    // Something is held in its midst, and may go on.
    putStopped() {
        this.put(this.one([this.direct(), 'start']), `clock ${1 + this.below(12)}`);
        this.put(this.one(['stop', 'stop', 'stop', 'list', '@0P', 'key Y']));
        this.put(this.one([this.direct(), '@0P', 'start', 'clock 2']), this.one(['go on', 'go on', 'break', 'reset', 'clock 1']));
    }

    putProgram() {
        this.put('@0i');
        for (let n = 1 + this.below(6); n > 0; n--) this.putRecord();
        this.put('9', 'start');
        if (this.below(3) === 0) this.put(`clock ${1 + this.below(30)}`, this.one(['stop', 'break', 'clock 5', 'list', 'reset']), 'go on');
        if (this.below(3) === 0) this.put('start');
    }

    putRecord() {
        const loop = most => `3 ${1 + this.below(4)},-${1 + this.below(most)}`;
        this.do([
            () => this.put(`0 ${this.movement()}`), () => this.put(`m ${this.movement()}`), () => this.put(`0 ${this.movement()}`, loop(1)),
            () => this.put(this.one(['f -1', 'f 0']), this.arc()), () => this.put(this.arc(), loop(2)),
            () => this.put(this.one(['e 0', 'e 1', 'e 2', 'f 2'])), () => this.put(`n ${this.one([1, this.axes, 8])}`),
            () => this.put(`z ${this.below(2)}`), () => this.put(`5 ${this.below(13)}`), () => this.put(`1 ${33 + this.below(94)}`),
            () => this.put(`2 ${this.one([89, 78])},${this.one([1, 1, 2, -1])}`), () => this.put(`3 0,${this.one([1, 2, 3, -1])}`),
            () => this.put(this.one(['hello', '', ' 0', '3 1,-1 ', '4 1', '1 300', '99'])),
        ]);
    }

    direct() {
        return '@0' + this.one(['A ' + this.movement(), 'A ' + this.movement(), 'M ' + this.movement(), this.arc(), this.arc()]);
    }

    // Distances and speeds, mostly as many as the axes need.
    movement() {
        const many = { 1: 1, 3: 2, 7: 4, 8: 1, 15: 4 }[this.below(20) ? this.axes : 3];
        const speed = () => this.one([600, 600, 600, 30, 900, this.below(8) ? 300 : 20]);
        const distance = () => this.one([0, 0, 1, 2, 3, -1, -4, 5, 12, this.below(9) ? -12 : 8388607]);
        return Array.from({ length: many }, () => `${distance()},${speed()}`).join(this.below(15) ? ', ' : ' ,');
    }

    arc() {
        return `y ${this.one([0, 1, 3, 7, 16, 16, 40, 40])},600,0,${this.one(STARTS)}`;
    }
}

export function randomProgram(seed) {
    return new RandomProgram(seed).lines.join('\n') + '\n';
}
