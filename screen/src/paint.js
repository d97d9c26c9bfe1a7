// Draws the plate as seen from above onto a canvas, with the signs of docs/MANUAL.md, "The picture". It draws what it is given: where the
// table went (trace.js), and which part of the plate is looked at (plate.js).
import { GAUGE_WIDTH, mixed, paintDial, paintGauge, paintScale, roundUp } from './gauge.js';
import { Pen } from './pen.js';

const SHADES = 5;
const MANY = 6000; // corners of a line, and pixels of its length, beyond which dashes and middle lines are left away
const LONG = 20000;
const DASH = 9; // pixels of a dash and its gap
const MANY_HOLES = 2000; // beyond which they are squares

// A scene: trace; view { x, y, scale }, the place in the middle and the pixels of a step; width and height; colours by name; font; origin,
// where it lies on the table; turn, the board's number of A; tool, turns and alone, whether there is z, A, and A alone; label.
export function paintPlate(context, scene) {
    new PlatePainter(context, scene).paint();
}

// The room that is left for the plate itself, in pixels from each edge.
export function plateRoom(scene) {
    return { left: 18, right: 18 + (scene.tool || scene.turns ? GAUGE_WIDTH : 0), top: scene.label ? 36 : 22, bottom: 60 };
}

class PlatePainter {
    constructor(context, scene) {
        const { view: { x, y, scale }, width, height } = scene;
        Object.assign(this, { context, scene, trace: scene.trace, scale });
        const room = plateRoom(scene);
        this.middleX = (room.left + width - room.right) / 2;
        this.middleY = (room.top + height - room.bottom) / 2;
        this.viewX = x;
        this.viewY = y;
        const margin = 12 / scale + 1;
        this.left = Math.floor(x - this.middleX / scale - margin);
        this.right = Math.ceil(x + (width - this.middleX) / scale + margin);
        this.low = Math.floor(y - (height - this.middleY) / scale - margin);
        this.high = Math.ceil(y + this.middleY / scale + margin);
        this.depth = Math.max(1, scene.trace.surface - scene.trace.deepest);
    }

    across(x) {
        return this.middleX + (x - this.viewX) * this.scale;
    }

    down(y) {
        return this.middleY - (y - this.viewY) * this.scale;
    }

    paint() {
        const { context, scene, trace } = this;
        context.fillStyle = scene.colours.bg;
        context.fillRect(0, 0, scene.width, scene.height);
        context.lineJoin = context.lineCap = 'round';
        if (scene.alone) paintDial(context, scene, scene.width / 2, scene.height / 2 - 10, 46);
        else this.paintTable();
        if (scene.label) this.text(scene.label, 12, 20, 'left', 'bold 14px');
        if (trace.pulses === 0) this.text('Nothing has moved yet.', this.middleX, Math.max(44, scene.height * 0.2), 'center', '15px');
    }

    paintTable() {
        const { context, scene } = this;
        this.grid();
        this.ways();
        if (this.scale >= 6) this.dots();
        this.holes();
        this.marks();
        paintScale(context, scene);
        if (scene.tool || scene.turns) paintGauge(context, scene);
    }

    text(text, x, y, align, font = '12px') {
        const { context, scene } = this;
        context.font = `${font} ${scene.font}`;
        context.textAlign = align;
        context.textBaseline = 'alphabetic';
        context.fillStyle = scene.colours.text;
        context.fillText(text, x, y);
    }

    // Lines at each step where a step is wide enough, else at each 2, 5, 10, 20 and so on; some of them are a little stronger.
    grid() {
        const { context, scene: { colours } } = this;
        const apart = roundUp(9 / this.scale);
        const strong = roundUp(apart * 5);
        for (const [every, width] of [[apart, 0.5], [strong, 1]]) {
            context.beginPath();
            for (let x = Math.ceil(this.left / every) * every; x <= this.right; x += every) this.upright(Math.round(this.across(x)) + 0.5);
            for (let y = Math.ceil(this.low / every) * every; y <= this.high; y += every) this.level(Math.round(this.down(y)) + 0.5);
            context.strokeStyle = colours.grid;
            context.lineWidth = width;
            context.stroke();
        }
    }

    upright(x) {
        this.context.moveTo(x, 0);
        this.context.lineTo(x, this.scene.height);
    }

    level(y) {
        this.context.moveTo(0, y);
        this.context.lineTo(this.scene.width, y);
    }

    // Calls `take` with each piece that can be seen: its index, and the first and the last of its steps that are in sight.
    eachPiece(take) {
        const { trace } = this;
        for (let n = 0; n < trace.shownCount; n++) this.inSight(trace.shown[n], take);
        if (trace.growing >= 0) this.inSight(trace.growing, take);
    }

    inSight(i, take) {
        const { xs, ys } = this.trace;
        const x = xs[i];
        const y = ys[i];
        const stepX = Math.sign(xs[i + 1] - x);
        const stepY = Math.sign(ys[i + 1] - y);
        let from = 0;
        let to = Math.max(Math.abs(xs[i + 1] - x), Math.abs(ys[i + 1] - y));
        if (stepX !== 0) {
            from = Math.max(from, stepX > 0 ? this.left - x : x - this.right);
            to = Math.min(to, stepX > 0 ? this.right - x : x - this.left);
        } else if (x < this.left || x > this.right) return;
        if (stepY !== 0) {
            from = Math.max(from, stepY > 0 ? this.low - y : y - this.high);
            to = Math.min(to, stepY > 0 ? this.high - y : y - this.low);
        } else if (y < this.low || y > this.high) return;
        if (from <= to) take(i, from, to, stepX, stepY);
    }

    // Grooves, the shallow ones first, with a thin line in their middle; travel dashed, or plain where there is no tool that could be up.
    ways() {
        const tolerance = this.scale < 2 ? Math.max(0.35, 0.52 * this.scale) : 0.25;
        const pens = Array.from({ length: SHADES + 1 }, () => new Pen(tolerance));
        this.eachPiece((i, from, to, stepX, stepY) => this.addWay(pens, i, from, to, stepX, stepY));
        const { context, scale, scene: { colours, tool } } = this;
        pens.forEach(pen => pen.finish());
        const many = pens.some(pen => pen.points > MANY || pen.length > LONG);
        context.lineJoin = many ? 'bevel' : 'round';
        pens.forEach((pen, s) => s && this.stroke(pen, grooveOf(colours, s), within(2.5, scale * 0.6, 11)));
        this.stroke(pens[0], colours.go, tool ? 1.4 : 2, tool && !many ? this.dash() : []);
        this.spots(many);
        if (!many) pens.forEach((pen, s) => s && this.stroke(pen, colours.cut, within(0.6, scale * 0.2, 1.6)));
    }

    // Where steps are wide enough each of them has whole dashes, and begins and ends within one: so ways over each other keep their gaps.
    dash() {
        const { context, scale } = this;
        const apart = scale >= DASH ? scale / Math.round(scale / DASH) : DASH;
        context.lineDashOffset = scale >= DASH ? apart * 5 / 18 : 0;
        return [apart * 5 / 9, apart * 4 / 9];
    }

    // Where A turned with the tool in the plate.
    spots(many) {
        const { context, scene: { colours }, trace: { spots } } = this;
        for (const { x, y, z } of many ? [] : spots) {
            context.beginPath();
            context.arc(this.across(x), this.down(y), 6, 0, 2 * Math.PI);
            context.fillStyle = grooveOf(colours, this.shade(z));
            context.fill();
        }
    }

    addWay(pens, i, from, to, stepX, stepY) {
        const { cut, xs, ys, zs } = this.trace;
        const stepZ = Math.sign(zs[i + 1] - zs[i]);
        for (let j = from, end; j < to; j = end) {
            const shade = cut[i] === 1 ? this.shade(Math.min(zs[i] + stepZ * j, zs[i] + stepZ * (j + 1))) : 0;
            end = to;
            if (cut[i] === 1 && stepZ !== 0) {
                end = j + 1;
                while (end < to && this.shade(Math.min(zs[i] + stepZ * end, zs[i] + stepZ * (end + 1))) === shade) end++;
            }
            if (shade === 0 && this.scale >= DASH) pens[0].lift();
            const [x1, y1, x2, y2] = [xs[i] + stepX * j, ys[i] + stepY * j, xs[i] + stepX * end, ys[i] + stepY * end];
            pens[shade].line(this.across(x1), this.down(y1), this.across(x2), this.down(y2));
        }
    }

    shade(z) {
        return within(1, Math.ceil((this.trace.surface - z) * SHADES / this.depth), SHADES);
    }

    stroke(pen, colour, width, dash = []) {
        if (pen.points === 0) return;
        const { context } = this;
        context.strokeStyle = colour;
        context.lineWidth = width;
        context.setLineDash(dash);
        for (const path of pen.paths) context.stroke(path);
        context.setLineDash([]);
        context.lineDashOffset = 0;
    }

    // A dot at each place that a pulse led to.
    dots() {
        const { context, scale, scene: { colours }, trace: { xs, ys, cut } } = this;
        const columns = this.right - this.left + 1;
        const seen = new Uint8Array(columns * (this.high - this.low + 1));
        const size = within(2, Math.round(scale * 0.24), 5);
        let colour = '';
        this.eachPiece((i, from, to, stepX, stepY) => {
            if (colour !== (colour = cut[i] === 1 ? colours.cut : colours.go)) context.fillStyle = colour;
            for (let j = from; j <= to; j++) {
                const x = xs[i] + stepX * j;
                const y = ys[i] + stepY * j;
                const at = x - this.left + (y - this.low) * columns;
                if (seen[at] === 0) this.square(this.across(x), this.down(y), size);
                seen[at] = 1;
            }
        });
    }

    // Holes, darker the deeper; of several at one place the deepest is seen.
    holes() {
        const { stay, holes } = this.trace;
        const shades = Array.from({ length: SHADES + 1 }, () => []);
        const inSight = hole => hole.x >= this.left && hole.x <= this.right && hole.y >= this.low && hole.y <= this.high;
        for (const hole of stay ? [...holes, stay] : holes) if (inSight(hole)) shades[this.shade(hole.bottom)].push(hole);
        const few = shades.reduce((sum, row) => sum + row.length, 0) <= MANY_HOLES;
        shades.forEach((row, s) => this.holesOf(row, s, few));
    }

    holesOf(row, shade, few) {
        const { context, scale, scene: { colours } } = this;
        const radius = within(few ? 3.5 : 1, scale * 0.3, 8);
        const seen = new Set();
        context.fillStyle = mixed(colours.bg, colours.hole, 0.1 + 0.16 * shade);
        context.strokeStyle = colours.hole;
        context.lineWidth = 1.5;
        for (const { x, y } of row) {
            const [atX, atY] = [this.across(x), this.down(y)];
            const place = Math.round(atX) * 65536 + Math.round(atY);
            if (seen.has(place)) continue;
            seen.add(place);
            if (few) this.hole(atX, atY, radius);
            else this.square(atX, atY, Math.ceil(2 * radius));
        }
    }

    // Squares on whole pixels are drawn soonest.
    square(x, y, size) {
        this.context.fillRect(Math.round(x - size / 2), Math.round(y - size / 2), size, size);
    }

    hole(x, y, radius) {
        const { context } = this;
        context.beginPath();
        context.arc(x, y, radius, 0, 2 * Math.PI);
        context.fill();
        context.stroke();
    }

    // The start, the origin, and the tool where the table stands now, with a diamond while it is in the plate.
    marks() {
        const { context, trace, scene: { colours, origin } } = this;
        const [startX, startY, originX, originY] = [this.across(0), this.down(0), this.across(origin[0]), this.down(origin[1])];
        const [toolX, toolY] = [this.across(trace.x), this.down(trace.y)];
        this.shape(colours.start, [[startX, startY - 9], [startX + 8.5, startY + 6], [startX - 8.5, startY + 6]]);
        context.beginPath();
        context.moveTo(originX - 13, originY);
        context.lineTo(originX + 13, originY);
        context.moveTo(originX, originY - 13);
        context.lineTo(originX, originY + 13);
        context.strokeStyle = colours.origin;
        context.lineWidth = 1.6;
        context.stroke();
        const diamond = [[toolX - 5, toolY], [toolX, toolY - 5], [toolX + 5, toolY], [toolX, toolY + 5]];
        if (trace.z < trace.surface) this.shape(colours.tool, diamond);
        context.strokeStyle = colours.tool;
        context.lineWidth = 2.2;
        context.strokeRect(toolX - 9.5, toolY - 9.5, 19, 19);
    }

    shape(colour, corners) {
        const { context } = this;
        context.beginPath();
        corners.forEach(([x, y]) => context.lineTo(x, y));
        context.fillStyle = colour;
        context.fill();
    }
}

function within(least, number, most) {
    return Math.min(most, Math.max(least, number));
}

// The colour of a groove: the deeper, the farther from the plate's own.
function grooveOf(colours, shade) {
    return mixed(colours.bg, colours.cut, 0.08 + 0.08 * shade);
}
