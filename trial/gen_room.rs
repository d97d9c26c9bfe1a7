//! Joins of parts that fill a store together, exactly or with a little too much.

use crate::axes;
use crate::gen_part::{record, Part};
use crate::program::{self, Span};
use crate::rng::Rng;

/// Some are refused before room is asked for.
pub fn room(rng: &mut Rng) -> [Part; 2] {
    let axes = rng.pick(&axes::ALL);
    let [mut first, mut second] =
        if axes::pairs(axes) == 1 || rng.once_in(3) { records(rng) } else { bytes(rng, axes) };
    let last = first.len().saturating_sub(1);
    let change = rng.below(24);
    if change < 4 {
        put(&mut first, last, "3 0,1"); // to the end place
    }
    if (3..6).contains(&change) {
        put(&mut second, 1, "3 1,-1"); // a range from place 0
    }
    if change == 6 {
        put(&mut second, 0, "3 0,-1"); // outside
    }
    let mut parts = [first, second].map(|lines| Part::of(axes, &lines));
    if change == 7 {
        parts[1].axes = rng.pick(&[0, 1, 3, 7, 8, 15]);
    }
    parts
}

fn put(lines: &mut [String], place: usize, line: &str) {
    if let Some(there) = lines.get_mut(place) {
        *there = line.to_string();
    }
}

/// As many records as a store takes, or one more, also in one part alone: these are short, so that there is
/// room for their bytes.
fn records(rng: &mut Rng) -> [Vec<String>; 2] {
    let total = rng.pick(&[1_000, 1_000, 1_001, 1_001, 1_001]);
    let some = rng.between(1, total - 1);
    let all = rng.pick(&[0, total]);
    let first = rng.pick(&[1, total - 1, some, some, some, some, all, all]);
    let line = rng.pick(&["z0", "1 33", "5 0"]).to_string();
    [vec![line.clone(); first as usize], vec![line; (total - first) as usize]]
}

/// As many bytes as a store has, or a little more, in fewer records than it takes.
fn bytes(rng: &mut Rng, axes: u8) -> [Vec<String>; 2] {
    let total = rng.pick(&[16_384, 16_384, 16_388, 16_392, 16_396]);
    let some = 4 * rng.between(2, total / 4 - 2);
    let first = rng.pick(&[8, total - 8, some, some, some, 16_384]);
    [first, total - first].map(|bytes| filled(rng, axes, bytes))
}

/// Movements, and behind them records of 12 and 8 bytes, to so many bytes in all: none for fewer than 8.
fn filled(rng: &mut Rng, axes: u8, bytes: i64) -> Vec<String> {
    let wide = format!("0 {}", program::movement(rng, axes, false, Span { reach: 9, edges: 9 }));
    let length = record(&wide).len() as i64;
    let count = ((bytes - 8) / length).max(0);
    let left = bytes - count * length;
    let twelve = (left >= 12 && left % 8 == 4) as i64;
    let mut lines = vec![wide; count as usize];
    lines.extend(vec!["2 33,0".to_string(); twelve as usize]);
    lines.extend(vec!["z1".to_string(); ((left - 12 * twelve) / 8) as usize]);
    lines
}
