//! Joins: pairs of parts, right ones and such as are refused.

use crate::axes;
use crate::gen_part::{record, sound, Part, Taste};
use crate::gen_room;
use crate::gen_spoil::spoil;
use crate::program::{self, Span};
use crate::rng::Rng;

/// Once in a hundred times, two parts that fill a store or nearly.
pub fn join(rng: &mut Rng) -> [Part; 2] {
    let mut parts = if rng.once_in(100) { gen_room::room(rng) } else { short(rng) };
    parts.iter_mut().for_each(|part| lay(rng, part));
    parts
}

fn short(rng: &mut Rng) -> [Part; 2] {
    let axes = rng.pick(&axes::ALL);
    let mut parts = match rng.below(12) {
        0..=2 => [0, 1].map(|_| any(rng, axes)),
        3..=6 => meeting(rng, axes),
        7..=9 => with_empty(rng, axes),
        10 => cut(rng, axes),
        _ => with_written(rng, axes),
    };
    if rng.once_in(4) {
        let side = rng.below(2) as usize;
        spoil(rng, axes, &mut parts[side]);
    }
    if rng.once_in(8) {
        other_axes(rng, &mut parts);
    }
    parts
}

fn any(rng: &mut Rng, axes: u8) -> Part {
    let taste = Taste::any(rng, axes);
    Part::of(axes, &sound(rng, taste))
}

/// Half of the pairs have both a jump or wait to the first one's end place and a range from the second one's
/// place 0, the others just one of the two for certain.
fn meeting(rng: &mut Rng, axes: u8) -> [Part; 2] {
    let (to_end, from_start) = rng.pick(&[(true, true), (true, true), (true, false), (false, true)]);
    let first = Taste { to_end, ..Taste::any(rng, axes) };
    let second = Taste { from_start, ..Taste::any(rng, axes) };
    [first, second].map(|taste| Part::of(axes, &sound(rng, taste)))
}

/// One part is a larger program, as they are stored for `walk`.
fn with_written(rng: &mut Rng, axes: u8) -> [Part; 2] {
    let taste = program::Taste { axes, span: Span { reach: 40, edges: 20 }, waits: true, long: false };
    let written = Part::of(axes, &program::sound(rng, &taste));
    let other = any(rng, axes);
    if rng.once_in(2) {
        [written, other]
    } else {
        [other, written]
    }
}

/// One program, sound as a whole, cut in two between its records or inside of one.
fn cut(rng: &mut Rng, axes: u8) -> [Part; 2] {
    let taste = Taste::any(rng, axes);
    let lines = sound(rng, taste);
    let (first, second) = lines.split_at(rng.between(0, lines.len() as i64) as usize);
    let mut parts = [first, second].map(|lines| Part::of(axes, lines));
    if rng.once_in(3) {
        let kept = parts[0].bytes.len().saturating_sub(rng.pick(&[1, 4, 8]));
        let moved = parts[0].bytes.split_off(kept);
        parts[0].used -= moved.len() as i64;
        parts[1].used += moved.len() as i64;
        parts[1].bytes.splice(0..0, moved);
    }
    parts
}

/// One part without records, or both, with any axes and now and then with bytes in use.
fn with_empty(rng: &mut Rng, axes: u8) -> [Part; 2] {
    let mut parts = [0, 1].map(|_| any(rng, axes));
    let which = rng.below(5);
    let own = rng.pick(&[axes, axes, 0, 1, 2, 3, 7, 8, 9, 15, 255]);
    for (side, part) in parts.iter_mut().enumerate() {
        if which % 2 == side as u64 || which == 4 {
            empty(rng, part, own);
        }
    }
    if which == 4 && rng.once_in(4) {
        parts[0].axes = rng.pick(&[0, 1, 2, 3, 7, 8, 15, 255]);
    }
    parts
}

/// The bytes mostly go too.
fn empty(rng: &mut Rng, part: &mut Part, axes: u8) {
    part.records = 0;
    part.axes = axes.into();
    if !rng.once_in(12) {
        part.used = 0;
    }
    if !rng.once_in(6) {
        part.bytes.clear();
    }
}

/// One part's axes are others, or both parts' are the same ones.
fn other_axes(rng: &mut Rng, parts: &mut [Part; 2]) {
    let axes = rng.pick(&[0, 1, 1, 2, 3, 3, 4, 6, 7, 7, 8, 8, 9, 12, 14, 15, 15, 16, 131, 255]);
    match rng.below(4) {
        0 => parts.iter_mut().for_each(|part| part.axes = axes),
        side => parts[(side % 2) as usize].axes = axes,
    }
}

/// Now and then zeros at the end are not given, or there are bytes behind the part in use.
fn lay(rng: &mut Rng, part: &mut Part) {
    match rng.below(12) {
        0..=1 => {
            let given = part.bytes.iter().rposition(|&b| b != 0).map_or(0, |last| last + 1);
            part.bytes.truncate(given);
        }
        2 => part.bytes.extend((0..rng.between(1, 6)).map(|_| rng.pick(b"\0\x01\xD7\x2B3z\xFF"))),
        3 => part.bytes.extend(record(rng.pick(&["z0", "3 0,0", "3 1,-1", "1 33"]))),
        _ => {}
    }
    part.bytes.truncate(16_384);
}
