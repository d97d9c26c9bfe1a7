//! Scenes of the A axis for `walk`: axes that change, and movements to the edges of 24 bits.

use crate::axes;
use crate::gen_walk::{direct, line, set_surely, unharmed};
use crate::program::{self, Span};
use crate::rng::Rng;

/// Axes set, added and dropped in every state, with what shows them in between.
pub fn changing(rng: &mut Rng, axes: &mut u8, out: &mut Vec<u8>) {
    for _ in 0..rng.between(3, 10) {
        if *axes == 0 || rng.once_in(3) {
            change(rng, axes, out);
        } else {
            let text = shown(rng, *axes);
            line(rng, out, &text);
        }
    }
    line(rng, out, "@0P");
}

fn change(rng: &mut Rng, axes: &mut u8, out: &mut Vec<u8>) {
    if rng.once_in(4) {
        out.push(254);
        *axes = 0;
    }
    let other = rng.between(9, 16);
    let value = rng.pick(&[1, 3, 7, 7, 7, 8, 8, 8, 8, 8, other]);
    unharmed(out, &format!("@0{value}"));
    *axes = axes::after(*axes, value);
}

/// A line that shows what an axes line has left: positions, origins, 3D, the plane and the direction.
fn shown(rng: &mut Rng, axes: u8) -> String {
    let span = Span { reach: 6, edges: u64::MAX };
    match rng.below(10) {
        0..=2 => format!("@0A{}", program::movement(rng, axes, false, span)),
        3..=4 => format!("@0M{}", program::movement(rng, axes, true, span)),
        5 => format!("@0{}{}", rng.pick(&['n', 'N']), axes::near_mask(rng, axes)),
        6 => format!("@0z{}", rng.pick(&[0, 1, 1])),
        7 => rng.pick(&["@0e1", "@0e2", "@0f-1", "@0y2,600,0,2,0,-1,-1", "@0y2,600,0,2,0,-1,1"]).to_string(),
        8 => direct(rng, axes),
        _ => "@0P".to_string(),
    }
}

/// Ends of A, or of another axis, just outside 24 bits, met without a long run; so these lines are never damaged.
pub fn edge(rng: &mut Rng, axes: u8, out: &mut Vec<u8>) {
    let pair = if rng.once_in(3) { 0 } else { axes::pairs(axes) - 1 };
    let by = |letter: char, d: i64| format!("@0{letter}{}", axes::single(axes, pair, d));
    set_surely(axes, out);
    let mut lines: Vec<String> = axes::masks(axes).iter().map(|mask| format!("@0N{mask}")).collect();
    lines.push(format!("@0z{}", rng.below(2)));
    lines.push(by('A', 1));
    match rng.below(3) {
        0 => lines.push(by('A', 8_388_607)),
        1 => {
            lines.extend(axes::masks(axes).iter().map(|mask| format!("@0n{mask}")));
            lines.extend([by('M', 8_388_607), by('M', 1), by('M', -1)]);
        }
        _ => lines.extend([by('A', -2), by('A', -8_388_608)]),
    }
    if rng.once_in(2) {
        stored(out, &lines);
    } else {
        lines.iter().for_each(|text| unharmed(out, text));
    }
    unharmed(out, "@0P");
}

/// The movements and origins among these lines as a program, behind the other lines.
fn stored(out: &mut Vec<u8>, lines: &[String]) {
    let (records, others): (Vec<&String>, Vec<&String>) =
        lines.iter().partition(|text| text.starts_with(['@']) && text[2..].starts_with(['A', 'M', 'n']));
    others.into_iter().for_each(|text| unharmed(out, text));
    unharmed(out, "@0i");
    for text in records {
        unharmed(out, &text[2..].replace('A', "0").replace('M', "m"));
    }
    unharmed(out, "9");
    unharmed(out, "@0S");
}
