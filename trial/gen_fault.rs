//! Programs that mostly fail the check at the end line, many of them by several faults.

use crate::program::{self, Span, Taste};
use crate::rng::Rng;

/// The most records that a store takes.
const MOST: i64 = 1_000;

/// A program of a few records, or once in `long` times one of hundreds.
pub fn faulty(rng: &mut Rng, axes: u8, long: u64) -> Vec<String> {
    let lines = match rng.below(10) {
        _ if rng.once_in(long) => large(rng),
        0..=2 => jumble(rng),
        3 | 4 => crowd(rng),
        5 | 6 => crowded_record(rng),
        7 => early(rng),
        _ => bent(rng, axes),
    };
    let lines = lines.into_iter().map(|line| if axes == 8 && line == "n1" { "n8".to_string() } else { line });
    lines.map(|line| program::spaced(rng, line)).collect()
}

/// Whether a jump goes back or to itself: if the program is accepted, it may run without end.
pub fn may_not_end(lines: &[String]) -> bool {
    let back = |line: &String| {
        let tight = line.replace(' ', "");
        tight.starts_with("30,-") || tight.starts_with("30,0")
    };
    lines.iter().any(back)
}

/// A record that is done in one call.
fn quick(rng: &mut Rng) -> String {
    rng.pick(&["z0", "5 0", "133", "134", "n1", "z 1"]).to_string()
}

/// A jump or a wait at its own place to another one.
fn jump(rng: &mut Rng, own: i64, target: i64) -> String {
    let head = rng.pick(&["3 0", "3 0", "233", "2 34"]);
    format!("{head},{}", target - own)
}

/// A loop at its own place with a range from another one on; this must lie before it.
fn back(rng: &mut Rng, own: i64, start: i64) -> String {
    format!("3 {},{}", rng.between(1, 2), start - own)
}

/// Loops, and in half of the programs jumps and waits, that name the same few places, those at both ends and
/// just outside too.
fn jumble(rng: &mut Rng) -> Vec<String> {
    let size = rng.between(2, 14);
    let ends = rng.pick(&[-1, 0, 0, size, size + 1]);
    let places = [rng.between(0, 2), rng.between(0, size), ends];
    let (loops, jumps) = (rng.pick(&[2, 4, 7]), rng.once_in(2));
    let mut lines = Vec::new();
    for own in 0..size {
        let named = if rng.once_in(3) { rng.between(0, size) } else { rng.pick(&places) };
        lines.push(match rng.below(10) {
            kind if kind < loops && named < own => back(rng, own, named),
            7 | 8 if jumps => jump(rng, own, named),
            _ => quick(rng),
        });
    }
    lines
}

/// So many loops behind the lines, most with ranges from this place on, some from near it.
fn tower(rng: &mut Rng, lines: &mut Vec<String>, count: i64, start: i64) {
    for _ in 0..count {
        let own = lines.len() as i64;
        let near = start + if rng.once_in(8) { rng.pick(&[-1, 1]) } else { 0 };
        lines.push(back(rng, own, near.min(own - 1)));
    }
}

/// About seven ranges around one place, with a jump or a loop here and there.
fn crowd(rng: &mut Rng) -> Vec<String> {
    let before = rng.between(1, 4);
    let mut lines: Vec<String> = (0..before).map(|_| quick(rng)).collect();
    let count = rng.between(7, 9);
    let start = if rng.once_in(8) { -1 } else { rng.between(0, before - 1) };
    tower(rng, &mut lines, count, start);
    if rng.once_in(2) {
        lines.push(quick(rng));
    }
    for _ in 0..rng.below(3) {
        disturb(rng, &mut lines);
    }
    lines
}

/// A record, mostly with a fault of its own, at a place that seven or eight ranges from there on hold: with a
/// loop's own range, eight or nine.
fn crowded_record(rng: &mut Rng) -> Vec<String> {
    let own = rng.between(1, 4);
    let mut lines: Vec<String> = (0..own).map(|_| quick(rng)).collect();
    if own > 1 && rng.once_in(2) {
        lines[own as usize - 1] = back(rng, own - 1, own - 2);
    }
    let record = match rng.below(5) {
        0 => jump(rng, own, -1),
        1 => jump(rng, own, 40),
        2 => back(rng, own, -1),
        3 => back(rng, own, own - 1),
        _ => jump(rng, own, own - 1),
    };
    lines.push(record);
    for k in 1..=rng.between(7, 8) {
        lines.push(back(rng, own + k, own));
    }
    lines
}

/// Jumps and waits, or many ranges, at places that are held by a range that starts too early.
fn early(rng: &mut Rng) -> Vec<String> {
    let before = rng.between(1, 5);
    let mut lines: Vec<String> = (0..before).map(|_| quick(rng)).collect();
    if rng.once_in(3) {
        let count = rng.between(5, 7);
        tower(rng, &mut lines, count, 0);
    }
    let own = lines.len() as i64;
    let start = -rng.pick(&[1, 1, 2, 30_000]);
    lines.push(back(rng, own, start));
    (0..rng.below(4)).for_each(|_| lines.push(quick(rng)));
    for _ in 0..rng.between(0, 2) {
        let at = rng.below(lines.len() as u64);
        let target = rng.between(0, lines.len() as i64);
        if at as i64 != own {
            lines[at as usize] = jump(rng, at as i64, target);
        }
    }
    lines
}

/// A sound program in which one to three records are replaced.
fn bent(rng: &mut Rng, axes: u8) -> Vec<String> {
    let taste = Taste { axes, span: Span { reach: 4, edges: u64::MAX }, waits: true, long: false };
    let mut lines = program::sound(rng, &taste);
    for _ in 0..rng.between(1, 3) {
        disturb(rng, &mut lines);
    }
    lines
}

/// Replaces a record by a jump, a wait or a loop to a place near it, near an end or far outside.
fn disturb(rng: &mut Rng, lines: &mut [String]) {
    let size = lines.len() as i64;
    let own = if rng.once_in(3) { rng.pick(&[0, size - 1]) } else { rng.between(0, size - 1) };
    let named = match rng.below(8) {
        0 => rng.pick(&[-1, 0, size, size + 1]),
        1 if rng.once_in(2) => own + rng.pick(&[-32_768, 32_767]),
        2 => own + rng.between(-4, 4),
        3 | 4 => (own + rng.between(-4, 4)).clamp(0, size),
        _ => rng.between(0, size),
    };
    lines[own as usize] =
        if named < own && rng.once_in(2) { back(rng, own, named) } else { jump(rng, own, named) };
}

/// Hundreds of records, up to what the store takes and one more: small loops side by side, and now and then
/// eight around one place, then some records replaced.
fn large(rng: &mut Rng) -> Vec<String> {
    let size =
        if rng.once_in(2) { rng.between(200, MOST) } else { rng.pick(&[MOST, MOST, MOST + 1, MOST - 1]) };
    let mut lines = Vec::new();
    while (lines.len() as i64) < size {
        let own = lines.len() as i64;
        let start = own - rng.between(1, 2);
        let free = start >= 0 && lines[start as usize..].iter().all(|line: &String| !line.starts_with('3'));
        lines.push(if free && rng.once_in(4) { back(rng, own, start) } else { quick(rng) });
    }
    if rng.once_in(4) {
        let start = rng.between(0, size - 9);
        (start + 1..start + 9).for_each(|own| lines[own as usize] = back(rng, own, start));
    }
    for _ in 0..rng.between(0, 4) {
        disturb(rng, &mut lines);
    }
    lines
}
