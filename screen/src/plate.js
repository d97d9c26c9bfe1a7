// The plate on the page: what the table did up to a clock call, drawn on a canvas that one can zoom and move by wheel, pointer and keys.
import { paintPlate, plateRoom } from './paint.js';
import { Trace } from './trace.js';

const LEAST = 5; // steps that are in sight on each side of the middle, at least
const WIDEST = 60; // pixels of a step
const SPARE = 0.2; // of what is in sight, on each side, when the view has to grow
const LIGHT = {
    bg: '#ffffff', grid: '#dfe3e8', go: '#2b5fd9', cut: '#20242b', hole: '#5b6470', origin: '#000000', start: '#117733', tool: '#cc0000',
    text: '#333333',
};

export class Plate {
    constructor(canvas, history) {
        if (canvas.plate) canvas.plate.leave();
        canvas.plate = this;
        this.canvas = canvas;
        this.context = canvas.getContext('2d');
        this.trace = new Trace(history);
        this.view = { x: 0, y: 0, scale: 1 };
        this.last = { calls: 0, options: {} };
        this.pointers = new Map();
        this.auto = true; // until the person zooms or moves the plate
        this.anew = true; // the next view fits, whatever the last one was
        this.listen();
    }

    // The history is another one than before. An empty one is fitted anew.
    begin() {
        this.trace.reset();
        if (this.trace.history.calls === 0) this.auto = this.anew = true;
    }

    // Another plate takes the canvas.
    leave() {
        this.ears.abort();
        this.resizes.disconnect();
    }

    listen() {
        const { canvas } = this;
        this.ears = new AbortController();
        const how = { signal: this.ears.signal, passive: false };
        const hear = (what, name) => what.addEventListener(name, event => this[name](event), how);
        for (const name of ['wheel', 'keydown', 'pointerdown', 'pointermove', 'pointerup', 'pointercancel']) hear(canvas, name);
        hear(matchMedia('(prefers-color-scheme: dark)'), 'change');
        this.resizes = new ResizeObserver(() => this.redraw());
        this.resizes.observe(canvas);
    }

    // The plate as it was before the clock call of this index. Options: position and origin, the board's numbers at that moment, of x, y, z
    // and a; surface, the height of the plate above the start; label.
    draw(calls, options = {}) {
        this.last = { calls, options };
        const { canvas, context, trace } = this;
        const surface = options.surface ?? 0;
        if (surface !== trace.surface) {
            trace.surface = surface;
            trace.reset();
        }
        trace.follow(calls);
        const scene = this.scene = sceneOf(trace, options, canvas.clientWidth, canvas.clientHeight);
        if (scene.width === 0 || scene.height === 0) return;
        const ratio = this.sharpen(scene);
        this.dress(scene);
        if (this.auto) this.follow(scene);
        scene.view = this.view;
        context.setTransform(ratio, 0, 0, ratio, 0, 0);
        paintPlate(context, scene);
        const words = this.words();
        if (canvas.getAttribute('aria-label') !== words) canvas.setAttribute('aria-label', words);
    }

    redraw() {
        this.draw(this.last.calls, this.last.options);
    }

    // As many points as the screen has.
    sharpen({ width, height }) {
        const { canvas } = this;
        const ratio = window.devicePixelRatio || 1;
        const [wide, high] = [Math.round(width * ratio), Math.round(height * ratio)];
        if (canvas.width === wide && canvas.height === high) return ratio;
        canvas.width = wide;
        canvas.height = high;
        this.anew = true;
        return ratio;
    }

    // The colours and letters that the page has set for the canvas.
    dress(scene) {
        const style = getComputedStyle(this.canvas);
        scene.font = style.fontFamily || 'sans-serif';
        scene.colours = {};
        for (const name of Object.keys(LIGHT)) {
            this.context.fillStyle = LIGHT[name];
            this.context.fillStyle = style.getPropertyValue('--plate-' + name).trim();
            scene.colours[name] = hexOf(this.context.fillStyle, LIGHT[name]);
        }
    }

    // As long as the person leaves it alone the view grows when something leaves it, with room to spare; a new one fits.
    follow(scene) {
        const box = boxOf(scene);
        const { left, right, low, high } = sightOf(this.view, scene);
        const slack = 1e-6;
        const inSight = box.left >= left - slack && box.right <= right + slack && box.low >= low - slack && box.high <= high + slack;
        if (this.anew) this.view = fitted(box, scene);
        else if (!inSight) this.view = fitted(spared(box), scene);
        this.anew = scene.trace.pulses === 0;
    }

    // All of it fits into view again, and goes on fitting.
    fit() {
        this.auto = this.anew = true;
        this.redraw();
    }

    // Nearer or farther; the place that is seen at these pixels, or in the middle, stays there.
    zoom(factor, atX, atY) {
        if (!this.scene) return;
        const { x, y } = this.middle();
        const scale = Math.min(WIDEST, Math.max(1e-5, this.view.scale * factor));
        const [asideX, asideY] = [(atX ?? x) - x, (atY ?? y) - y];
        const change = 1 / this.view.scale - 1 / scale;
        this.move({ x: this.view.x + asideX * change, y: this.view.y - asideY * change, scale });
    }

    // Moves what is seen by so many pixels.
    pan(x, y) {
        this.move({ x: this.view.x - x / this.view.scale, y: this.view.y + y / this.view.scale, scale: this.view.scale });
    }

    move(view) {
        this.auto = false;
        this.view = view;
        this.redraw();
    }

    // Where the middle of the view is on the canvas.
    middle() {
        const { width, height } = this.scene;
        const room = plateRoom(this.scene);
        return { x: (room.left + width - room.right) / 2, y: (room.top + height - room.bottom) / 2 };
    }

    change() {
        this.redraw();
    }

    wheel(event) {
        event.preventDefault();
        this.zoom(Math.exp(-event.deltaY * (event.deltaMode === 1 ? 0.05 : 0.0015)), event.offsetX, event.offsetY);
    }

    keydown(event) {
        if (event.ctrlKey || event.altKey || event.metaKey) return;
        const way = { ArrowLeft: [1, 0], ArrowRight: [-1, 0], ArrowUp: [0, 1], ArrowDown: [0, -1] }[event.key];
        if (way) this.pan(40 * way[0], 40 * way[1]);
        else if (event.key === '+' || event.key === '=') this.zoom(1.25);
        else if (event.key === '-') this.zoom(0.8);
        else if (event.key === '0') this.fit();
        else return;
        event.preventDefault();
    }

    pointerdown(event) {
        if (event.button !== 0) return;
        this.canvas.setPointerCapture(event.pointerId);
        this.pointers.set(event.pointerId, { x: event.offsetX, y: event.offsetY });
    }

    // One pointer moves the plate; two fingers also zoom it.
    pointermove(event) {
        const was = this.pointers.get(event.pointerId);
        if (!was) return;
        const is = { x: event.offsetX, y: event.offsetY };
        const other = [...this.pointers].find(([id]) => id !== event.pointerId);
        this.pointers.set(event.pointerId, is);
        if (!other) this.pan(is.x - was.x, is.y - was.y);
        else this.pinch(was, is, other[1]);
    }

    pinch(was, is, other) {
        const before = Math.hypot(was.x - other.x, was.y - other.y);
        const after = Math.hypot(is.x - other.x, is.y - other.y);
        if (before > 0 && after > 0) this.zoom(after / before, other.x, other.y);
    }

    pointerup(event) {
        this.pointers.delete(event.pointerId);
    }

    pointercancel(event) {
        this.pointers.delete(event.pointerId);
    }

    // What is seen, in a sentence.
    words() {
        return describe(this.trace, this.last.options.position);
    }
}

// The plate as a picture for paper, in fixed colours: the address of an image.
export function plateImage(history, calls, options, width, height) {
    const canvas = document.createElement('canvas');
    const ratio = 2; // letters as on a page half as wide
    canvas.width = width;
    canvas.height = height;
    const trace = new Trace(history, options.surface ?? 0).follow(calls);
    const scene = { ...sceneOf(trace, options, width / ratio, height / ratio), colours: LIGHT, font: 'sans-serif' };
    scene.view = fitted(boxOf(scene), scene);
    const context = canvas.getContext('2d');
    context.setTransform(ratio, 0, 0, ratio, 0, 0);
    paintPlate(context, scene);
    return canvas.toDataURL('image/png');
}

// What was made, and where the tool stands: x, y and a by the board's numbers, or from the start if they are not given; its height from the
// start.
export function describe(trace, position = [trace.x, trace.y, trace.z, trace.a]) {
    const { tool, turns, alone } = kindOf(trace);
    const count = (number, one) => `${number} ${one}${number === 1 ? '' : 's'}`;
    if (trace.pulses === 0) return 'Nothing has moved yet.';
    if (alone) return `${count(trace.lines, 'turn')}; a stands at ${position[3]}.`;
    const made = tool ? [count(trace.holes.length, 'hole'), count(trace.cuts, 'cut')] : [count(trace.lines, 'line')];
    if (trace.turns) made.push(`${count(trace.turns, 'turn')} in the plate`);
    if (tool && trace.z < trace.surface) made.push('the tool is in the plate');
    const place = `x ${position[0]}, y ${position[1]}${tool ? `, height ${trace.z}` : ''}${turns ? `, a ${position[3]}` : ''}`;
    return `${made.join(', ')}; the ${tool ? 'tool' : 'table'} stands at ${place}.`;
}

// Which axes there are: those that the board has now, and those that have moved.
function kindOf(trace) {
    const { steps, history: { board } } = trace;
    const axes = board.get('axes');
    const flat = steps[0] + steps[1] + steps[2] === 0 && (axes & 7) === 0;
    return { tool: (axes & 4) !== 0 || steps[2] > 0, turns: (axes & 8) !== 0 || steps[3] > 0, alone: flat && steps[3] > 0 };
}

// A scene for paint.js, as yet without view, colours and font. The board's numbers and the table's places differ by what was set to 0.
function sceneOf(trace, options, width, height) {
    const place = [trace.x, trace.y, trace.z, trace.a];
    const position = options.position ?? place;
    const origin = options.origin ? options.origin.map((number, i) => number - position[i] + place[i]) : [0, 0, 0, 0];
    return { trace, width, height, origin, turn: position[3], label: options.label ?? '', ...kindOf(trace) };
}

// What has to be in sight.
function boxOf({ trace, origin }) {
    return {
        left: Math.min(trace.left, origin[0]),
        right: Math.max(trace.right, origin[0]),
        low: Math.min(trace.low, origin[1]),
        high: Math.max(trace.high, origin[1]),
    };
}

function spared({ left, right, low, high }) {
    const [wide, tall] = [(right - left) * SPARE, (high - low) * SPARE];
    return { left: left - wide, right: right + wide, low: low - tall, high: high + tall };
}

function sizeOf(scene) {
    const room = plateRoom(scene);
    return { wide: Math.max(40, scene.width - room.left - room.right), tall: Math.max(40, scene.height - room.top - room.bottom) };
}

function fitted({ left, right, low, high }, scene) {
    const { wide, tall } = sizeOf(scene);
    const [stepsX, stepsY] = [Math.max(right - left, 2 * LEAST), Math.max(high - low, 2 * LEAST)];
    return { x: (left + right) / 2, y: (low + high) / 2, scale: Math.min(wide / stepsX, tall / stepsY, WIDEST) };
}

function sightOf({ x, y, scale }, scene) {
    const { wide, tall } = sizeOf(scene);
    return { left: x - wide / 2 / scale, right: x + wide / 2 / scale, low: y - tall / 2 / scale, high: y + tall / 2 / scale };
}

// A colour as a canvas gives it back, as #rrggbb.
function hexOf(colour, otherwise) {
    if (/^#[0-9a-f]{6}$/i.test(colour)) return colour;
    const parts = colour.match(/[\d.]+/g);
    if (!parts || !colour.startsWith('rgb')) return otherwise;
    return '#' + parts.slice(0, 3).map(part => Math.round(Number(part)).toString(16).padStart(2, '0')).join('');
}
