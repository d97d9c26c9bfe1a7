// Where the table went, by its pulses alone: pieces of way that go straight, and the holes that the tool leaves in the plate. All of it
// counts from where the table stood at the start, whatever the board's numbers were set to since (docs/MANUAL.md, "The picture").
import { PULSE } from './board.js';

export class Trace {
    // `surface` is the height of the plate in steps above the start.
    constructor(history, surface = 0) {
        this.history = history;
        this.surface = surface;
        this.reset();
    }

    // Nothing is followed yet.
    reset() {
        const { surface } = this;
        this.done = 0; // clock calls that are followed
        this.kept = null;
        this.dx = this.dy = this.dz = this.da = 0; // the last pulse
        this.x = this.y = this.z = this.a = 0;
        this.left = this.right = this.low = this.high = this.highest = this.lowest = 0;
        this.deepest = Math.min(surface, 0);
        this.pulses = 0;
        this.steps = [0, 0, 0, 0]; // how often each axis has stepped
        this.turning = 0; // the last step of A
        this.lines = this.cuts = this.turns = 0; // ways outside the plate, in it, and in it by A alone
        this.holes = [];
        this.spots = []; // where A turned with the tool in the plate
        this.clearPieces();
        this.open = this.inside = this.aside = this.shifts = false;
        this.top = Math.max(surface, 0);
        this.bottom = this.low1 = this.x1 = this.y1 = 0;
        this.deep = { record: -1, a: 0 };
        this.since = 0;
    }

    // Piece i goes from point i to point i + 1 by pulses that are all alike.
    clearPieces() {
        this.count = this.size = 0;
        this.room(256);
        this.shown = new Int32Array(256); // the pieces that can be seen from above, and are not over one that looks the same
        this.shownCount = 0;
        this.places = new Int32Array(1024); // a hash table of the shown pieces, by their ends
        this.judged = 0;
    }

    room(size) {
        const grown = (Kind, old) => {
            const to = new Kind(size + 1);
            if (this.size) to.set(old);
            return to;
        };
        this.xs = grown(Int32Array, this.xs);
        this.ys = grown(Int32Array, this.ys);
        this.zs = grown(Int32Array, this.zs);
        this.as = grown(Int32Array, this.as);
        this.from = grown(Int32Array, this.from); // the clock calls of the piece
        this.to = grown(Int32Array, this.to);
        this.record = grown(Int32Array, this.record);
        this.speed = grown(Uint16Array, this.speed);
        this.cut = grown(Uint8Array, this.cut);
        this.begins = grown(Uint8Array, this.begins); // 1 where a movement's phase begins, or is parted by the surface
        this.size = size;
    }

    // A piece as an object.
    way(i) {
        const { xs, ys, zs, as } = this;
        return {
            x1: xs[i], y1: ys[i], z1: zs[i], a1: as[i], x2: xs[i + 1], y2: ys[i + 1], z2: zs[i + 1], a2: as[i + 1], cut: this.cut[i] === 1,
            begins: this.begins[i] === 1, record: this.record[i], from: this.from[i], to: this.to[i], speed: this.speed[i],
        };
    }

    // Follows the history up to so many clock calls; from the front if it was followed farther, or is another one by now.
    follow(calls) {
        const { history } = this;
        const end = Math.max(0, Math.min(calls, history.calls));
        if (end < this.done || this.kept !== this.lastKept(this.done)) this.reset();
        const { answer } = history;
        for (let k = this.done; k < end; k++) if (answer[k] === PULSE) this.pulse(k);
        this.done = end;
        this.kept = this.lastKept(end);
        this.judge();
        return this;
    }

    // The last state that the history keeps from before so many clock calls were all made. When it begins anew or goes back behind them, it
    // keeps another one there.
    lastKept(calls) {
        return calls > 0 ? this.history.keptAt(calls - 1) : null;
    }

    // A pulse is in the plate if either of its ends is.
    pulse(k) {
        const { history: { signs, first, value }, surface } = this;
        const dx = signs[4 * k];
        const dy = signs[4 * k + 1];
        const dz = signs[4 * k + 2];
        const da = signs[4 * k + 3];
        const inside = dz < 0 ? this.z <= surface : this.z < surface;
        const begins = first[k] === 1 || !this.open || inside !== this.inside;
        if (begins) {
            this.close(k);
            this.openWay(k, inside);
        }
        if (dx !== 0 || dy !== 0 || da !== 0) this.goAside(k, dx !== 0 || dy !== 0);
        if (begins || dx !== this.dx || dy !== this.dy || dz !== this.dz || da !== this.da || value[k] !== this.speed[this.count - 1]) {
            this.beginPiece(k, begins);
            this.dx = dx;
            this.dy = dy;
            this.dz = dz;
            this.da = da;
        }
        this.step(k, dx, dy, dz, da);
        if (dz > 0 && inside && !this.aside && this.z >= surface) this.close(k + 1);
    }

    step(k, dx, dy, dz, da) {
        const { count, steps } = this;
        this.to[count - 1] = k + 1;
        this.pulses++;
        if (dx !== 0) steps[0]++;
        if (dy !== 0) steps[1]++;
        if (dz !== 0) steps[2]++;
        if (da !== 0) steps[3]++;
        if (da !== 0) this.turning = da;
        this.xs[count] = this.x += dx;
        this.ys[count] = this.y += dy;
        this.zs[count] = this.z += dz;
        this.as[count] = this.a += da;
        this.widen();
    }

    widen() {
        const { x, y, z } = this;
        if (x < this.left) this.left = x;
        if (x > this.right) this.right = x;
        if (y < this.low) this.low = y;
        if (y > this.high) this.high = y;
        if (z > this.highest) this.highest = z;
        if (z < this.lowest) this.lowest = z;
        if (z < this.low1) this.low1 = z;
        if (z < this.deepest && this.inside) this.deepest = z;
    }

    beginPiece(k, begins) {
        const i = this.count;
        if (i === this.size) this.room(2 * i);
        this.xs[i] = this.x;
        this.ys[i] = this.y;
        this.zs[i] = this.z;
        this.as[i] = this.a;
        this.from[i] = k;
        this.record[i] = this.history.record[k];
        this.speed[i] = this.history.value[k];
        this.cut[i] = this.inside ? 1 : 0;
        this.begins[i] = begins ? 1 : 0;
        this.count = i + 1;
    }

    openWay(k, inside) {
        this.open = true;
        this.inside = inside;
        this.aside = this.shifts = false;
        this.x1 = this.x;
        this.y1 = this.y;
        this.low1 = this.z; // the way's lowest height so far
        if (inside && this.bottom >= this.top) this.since = k;
    }

    // The way goes aside, in x and y or by a turn of A. Where it begins there is a hole if the tool was deeper there than it came and than
    // it goes on.
    goAside(k, shifts) {
        if (!this.aside) {
            this.aside = true;
            if (this.bottom < this.top && this.bottom < this.low1) this.addHole(this.x1, this.y1, k);
            this.countWay(1, false);
            if (this.inside && !shifts) this.addSpot();
        }
        if (shifts && !this.shifts) {
            this.countWay(-1, false);
            this.shifts = true;
            this.countWay(1, true);
        }
    }

    countWay(by, shifts) {
        if (!this.inside) this.lines += by;
        else if (shifts) this.cuts += by;
        else this.turns += by;
    }

    // The way ends. If it did not go aside it went up or down at one place: a hole once the tool is out of the plate again.
    close(k) {
        if (!this.open) return;
        this.open = false;
        if (this.inside && !this.aside) {
            if (this.z < this.bottom) this.deepen();
            if (this.z < this.surface) return;
            if (this.bottom < this.top) this.addHole(this.x, this.y, k);
        }
        this.top = this.bottom = this.z;
    }

    deepen() {
        this.bottom = this.z;
        this.deep = { record: this.record[this.count - 1], a: this.a };
    }

    addHole(x, y, to) {
        this.holes.push({ x, y, top: this.top, bottom: this.bottom, ...this.deep, from: this.since, to });
    }

    addSpot() {
        const { x, y, z, spots } = this;
        const last = spots[spots.length - 1];
        if (!last || last.x !== x || last.y !== y || last.z !== z) spots.push({ x, y, z });
    }

    // The hole in which the tool stands now, or nothing. It may become deeper, or the beginning of a cut.
    get stay() {
        const { x, y, z, a, top, since: from, done: to } = this;
        if (z >= this.surface || this.open && this.aside) return null;
        const deeper = this.open && this.inside && z < this.bottom;
        const bottom = deeper ? z : this.bottom;
        const deep = deeper ? { record: this.record[this.count - 1], a } : this.deep;
        return bottom < top ? { x, y, top, bottom, ...deep, from, to } : null;
    }

    // Which of the pieces that can no longer grow are to be shown.
    judge() {
        for (; this.judged < this.count - 1; this.judged++) {
            const i = this.judged;
            if ((this.xs[i] !== this.xs[i + 1] || this.ys[i] !== this.ys[i + 1]) && this.isNew(i)) this.show(i);
        }
    }

    // The piece that may still grow, if it is to be shown as it is now; -1 if not.
    get growing() {
        const i = this.count - 1;
        return i >= 0 && this.places[this.placeOf(i)] === 0 ? i : -1;
    }

    show(i) {
        if (this.shownCount === this.shown.length) {
            const to = new Int32Array(2 * this.shown.length);
            to.set(this.shown);
            this.shown = to;
            this.places = new Int32Array(4 * to.length);
            for (let j = 0; j < this.shownCount; j++) this.isNew(to[j]);
            this.isNew(i);
        }
        this.shown[this.shownCount++] = i;
    }

    // Whether no shown piece looks the same; then it is put into the hash table.
    isNew(i) {
        const at = this.placeOf(i);
        if (this.places[at] !== 0) return false;
        this.places[at] = i + 1;
        return true;
    }

    // Where a piece that looks the same stands in the hash table, or a free place for it.
    placeOf(i) {
        const { places, xs, ys, zs } = this;
        const mask = places.length - 1;
        const part = (axis, odd) => Math.imul(axis[i] + axis[i + 1], odd);
        const key = part(xs, 0x9E3779B1) ^ part(ys, 0x85EBCA6B) ^ part(zs, 0xC2B2AE35);
        let at = (key ^ key >>> 15) & mask;
        while (places[at] !== 0 && !this.looksLike(i, places[at] - 1)) at = at + 1 & mask;
        return at;
    }

    // By the heights of its ends a piece is a cut or not.
    looksLike(i, j) {
        return this.samePoint(i, j) && this.samePoint(i + 1, j + 1) || this.samePoint(i, j + 1) && this.samePoint(i + 1, j);
    }

    samePoint(i, j) {
        return this.xs[i] === this.xs[j] && this.ys[i] === this.ys[j] && this.zs[i] === this.zs[j];
    }
}
