// What stands around the plate: how high the tool is, as if one looked at the plate from the side, how A turns, and the scale. Drawn for
// paint.js, of its scene.
import { grouped } from './dom.js';

export const GAUGE_WIDTH = 60;

// A colour between two of them, given as #rrggbb.
export function mixed(from, to, part) {
    const at = i => Math.round(parseInt(from.slice(i, i + 2), 16) * (1 - part) + parseInt(to.slice(i, i + 2), 16) * part);
    return `rgb(${at(1)}, ${at(3)}, ${at(5)})`;
}

export function paintGauge(context, scene) {
    const { width, height, colours } = scene;
    const left = width - GAUGE_WIDTH;
    context.fillStyle = colours.bg;
    context.fillRect(left, 0, GAUGE_WIDTH, height);
    context.strokeStyle = colours.grid;
    context.lineWidth = 1;
    context.strokeRect(left + 0.5, -1, GAUGE_WIDTH + 1, height + 2);
    if (scene.turns) paintDial(context, scene, left + GAUGE_WIDTH / 2, height - 46, 14);
    if (scene.tool) paintHeight(context, scene, left, height - (scene.turns ? 78 : 12));
}

// The tool over the plate, or in it, down to the foot of the gauge.
function paintHeight(context, scene, left, foot) {
    const { colours, trace: { z, surface, highest, lowest, deepest } } = scene;
    const head = 44;
    const top = Math.max(highest, surface + 2) + 1;
    const bottom = Math.min(lowest, surface - 4) - 1;
    const at = height => head + (top - height) * (foot - head) / (top - bottom);
    gaugeText(context, scene, 'height', left + GAUGE_WIDTH / 2, 16);
    gaugeText(context, scene, String(z), left + GAUGE_WIDTH / 2, 33, 'bold 14px');
    context.fillStyle = mixed(colours.bg, colours.cut, 0.16);
    context.fillRect(left + 5, at(surface), GAUGE_WIDTH - 10, foot - at(surface));
    gaugeLine(context, left + 5, left + GAUGE_WIDTH - 5, at(surface), colours.cut, []);
    if (deepest < surface) {
        gaugeLine(context, left + 5, left + GAUGE_WIDTH - 5, at(deepest), colours.cut, [2, 3]);
        const below = at(deepest) + 13 < foot;
        gaugeText(context, scene, String(deepest), left + 19, at(deepest) + (below ? 12 : -4), '11px', 26);
    }
    paintTool(context, left + GAUGE_WIDTH - 17, head, at(z), colours.tool);
}

function paintTool(context, x, head, tip, colour) {
    const edge = Math.max(head, tip - 5);
    context.beginPath();
    [[x - 3, head], [x + 3, head], [x + 3, edge], [x, tip], [x - 3, edge]].forEach(point => context.lineTo(...point));
    context.fillStyle = colour;
    context.fill();
}

function gaugeLine(context, from, to, y, colour, dash) {
    context.beginPath();
    context.moveTo(from, y);
    context.lineTo(to, y);
    context.strokeStyle = colour;
    context.lineWidth = 1.4;
    context.setLineDash(dash);
    context.stroke();
    context.setLineDash([]);
}

function gaugeText(context, scene, text, x, y, font = '12px', most = GAUGE_WIDTH - 4) {
    context.font = `${font} ${scene.font}`;
    context.textAlign = 'center';
    context.fillStyle = scene.colours.text;
    context.fillText(text, x, y, most);
}

// The board does not know how many steps a turn has: so there is a number, and an arrow for the way that A turned last, + as the hands of a
// clock go.
export function paintDial(context, scene, x, y, radius) {
    const { colours, turn, trace: { turning } } = scene;
    context.beginPath();
    context.arc(x, y, radius, 0, 2 * Math.PI);
    context.strokeStyle = turning ? colours.grid : colours.text;
    context.lineWidth = Math.max(2, radius / 10);
    context.stroke();
    if (turning) paintTurning(context, x, y, radius, turning, colours.tool);
    const text = `a ${turn > 0 ? '+' : ''}${turn}`;
    if (radius > 20) gaugeText(context, scene, text, x, y + 6, 'bold 16px', 2 * radius - 8);
    else gaugeText(context, scene, text, x, y + radius + 18, 'bold 12px');
}

function paintTurning(context, x, y, radius, turning, colour) {
    const end = turning > 0 ? 0.25 * Math.PI : 0.75 * Math.PI;
    const size = 4 + radius / 8;
    context.beginPath();
    context.arc(x, y, radius, turning > 0 ? 0.75 * Math.PI : 0.25 * Math.PI, end, turning < 0);
    context.strokeStyle = colour;
    context.stroke();
    context.save();
    context.translate(x + radius * Math.cos(end), y + radius * Math.sin(end));
    context.rotate(end + turning * Math.PI / 2);
    context.beginPath();
    [[size, 0], [-size * 0.7, -size * 0.8], [-size * 0.7, size * 0.8]].forEach(point => context.lineTo(...point));
    context.fillStyle = colour;
    context.fill();
    context.restore();
}

// Which way x and y go, and a bar for the scale.
export function paintScale(context, scene) {
    const { colours, view: { scale }, height } = scene;
    const foot = height - 14;
    const steps = roundUp(50 / scale);
    const end = 62 + steps * scale;
    const words = `${grouped(steps)} ${steps === 1 ? 'step' : 'steps'}`;
    context.fillStyle = colours.bg;
    context.globalAlpha = 0.8;
    context.fillRect(0, foot - 38, Math.max(end, 130) + 8, 52);
    context.globalAlpha = 1;
    context.strokeStyle = colours.text;
    context.lineWidth = 1.4;
    context.save();
    context.translate(0, foot);
    context.stroke(new Path2D(`M14 0h24l-5 -3.5m5 3.5l-5 3.5M14 0v-24l-3.5 5m3.5 -5l3.5 5M62 -7v7H${end}v-7`));
    context.restore();
    gaugeText(context, scene, 'x', 45, foot + 4);
    gaugeText(context, scene, 'y', 14, foot - 29);
    context.textAlign = 'left';
    context.fillText(words, 62, foot - 12);
}

// The smallest of 1, 2, 5, 10, 20, 50 and so on that is not below a number.
export function roundUp(least) {
    let power = 1;
    while (power * 10 < least) power *= 10;
    return [1, 2, 5, 10].map(digit => digit * power).find(number => number >= least);
}
