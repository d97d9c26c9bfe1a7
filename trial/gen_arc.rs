//! Scenes of circles for `walk`: arcs by lines and by programs, at the edges of 24 bits too.

use crate::arcs;
use crate::axes;
use crate::gen_walk::{line, unharmed};
use crate::program::{self, Span};
use crate::rng::Rng;

/// Arcs by lines, with the plane and the direction set before and between them.
pub fn circles(rng: &mut Rng, axes: u8, out: &mut Vec<u8>) {
    let span = Span { reach: if rng.once_in(30) { 300 } else { 9 }, edges: 20_000 };
    let mut direction = turn(rng, axes, out);
    for _ in 0..rng.between(1, 5) {
        let gap = if rng.once_in(4) { " " } else { "" };
        let text = format!("@0y{gap}{}", arcs::arc(rng, span, direction));
        let text = program::spaced(rng, text);
        line(rng, out, &text);
        match rng.below(8) {
            0 | 1 => direction = turn(rng, axes, out),
            2 => line(rng, out, "@0P"),
            3 if rng.once_in(4) => {
                axes::lines(axes).iter().for_each(|text| line(rng, out, text)); // plane 0, clockwise, but for A alone
                direction = 0;
            }
            _ => {}
        }
    }
}

/// Sets the plane, mostly, and the direction, and says which this is.
fn turn(rng: &mut Rng, axes: u8, out: &mut Vec<u8>) -> i64 {
    let (plane, direction) = (arcs::plane(rng, axes), arcs::direction(rng));
    if !rng.once_in(4) {
        let text = format!("@0e{plane}");
        line(rng, out, &text);
    }
    let text = format!("@0f{}{direction}", if rng.once_in(4) { " " } else { "" });
    line(rng, out, &text);
    direction
}

/// Circles that just stay within 24 bits or just do not, from the position 0 or near it, by lines or by a program. Their
/// arcs are short, so these lines are never damaged.
pub fn edge(rng: &mut Rng, axes: u8, out: &mut Vec<u8>) {
    let (plane, direction) = (arcs::plane(rng, axes), arcs::direction(rng));
    let (step, [first, second]) = (rng.between(-3, 3), [[0, 1], [0, 2], [1, 2]][plane as usize]);
    let mut steps = [0; 3];
    (steps[first], steps[second]) = (step, step);
    axes::masks(axes).iter().for_each(|mask| unharmed(out, &format!("@0N{mask}")));
    unharmed(out, &shift(axes, steps));
    let at = [step, if axes::turns(axes) { step } else { 0 }];
    let start = arcs::start_at_an_edge(rng, at);
    let near = Span { reach: 3, edges: u64::MAX };
    let numbers = arcs::numbers(rng, near, start, direction);
    let lines = [format!("e{plane}"), format!("f{direction}"), format!("y{numbers}")];
    if rng.once_in(2) {
        lines.iter().for_each(|text| unharmed(out, &format!("@0{text}")));
        return;
    }
    unharmed(out, "@0i");
    lines.iter().for_each(|text| unharmed(out, text));
    unharmed(out, "9");
    unharmed(out, "@0S");
}

/// A movement by so many steps.
fn shift(axes: u8, [x, y, z]: [i64; 3]) -> String {
    match axes {
        1 | 8 => format!("@0A{x},600"),
        3 => format!("@0A{x},600,{y},600"),
        _ => format!("@0A{x},600,{y},600,{z},600,0,600"),
    }
}
