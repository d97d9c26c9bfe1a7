//! Parts of a join: small sound programs as lines, and how lines lie in a store.

use crate::arcs;
use crate::axes;
use crate::program::{self, Span};
use crate::rng::Rng;

/// A part as a question gives it: any numbers, and bytes from the store's first on.
#[derive(Clone)]
pub struct Part {
    pub used: i64,
    pub records: i64,
    pub axes: i64,
    pub bytes: Vec<u8>,
}

impl Part {
    /// Right lines without needless zeros, as they are stored.
    pub fn of(axes: u8, lines: &[String]) -> Part {
        let bytes: Vec<u8> = lines.iter().flat_map(|line| record(line)).collect();
        Part { used: bytes.len() as i64, records: lines.len() as i64, axes: axes.into(), bytes }
    }
}

/// The bytes of a record.
pub fn record(line: &str) -> Vec<u8> {
    let tight = line.replace(' ', "");
    let (code, numbers) = tight.split_at(1);
    let numbers: Vec<i32> = numbers.split(',').map(|number| number.parse().expect("a right line")).collect();
    let mut bytes = vec![0xD7, 0x2B, code.as_bytes()[0], numbers.len() as u8];
    bytes.extend(numbers.into_iter().flat_map(i32::to_le_bytes));
    bytes
}

/// What a sound program has: under these axes, a jump or wait to its end place or none, a range from place 0
/// or none.
#[derive(Clone, Copy)]
pub struct Taste {
    pub axes: u8,
    pub to_end: bool,
    pub from_start: bool,
}

impl Taste {
    pub fn any(rng: &mut Rng, axes: u8) -> Taste {
        Taste { axes, to_end: rng.once_in(3), from_start: rng.once_in(3) }
    }
}

/// A loop's own place and its start.
type Range = (i64, i64);

/// Of one record to about ten.
pub fn sound(rng: &mut Rng, taste: Taste) -> Vec<String> {
    let mut size = rng.pick(&[1, 1, 2, 2, 3, 4, 4, 5, 6, 9]).max(1 + taste.from_start as i64);
    let ranges = ranges(rng, size, taste.from_start);
    let free = |place: &i64| !ranges.iter().any(|&(own, start)| (start..=own).contains(place));
    let mut leaving = None;
    if taste.to_end {
        size += (0..size).all(|place| !free(&place)) as i64;
        let places: Vec<i64> = (0..size).filter(free).collect();
        leaving = Some(rng.pick(&places));
    }
    let mut lines = Vec::new();
    for own in 0..size {
        let range = ranges.iter().find(|range| range.0 == own);
        lines.push(match range {
            Some(&(_, start)) => format!("3 {},{}", rng.pick(&[1, 1, 2, 25, 32_767]), start - own),
            None if leaving == Some(own) => jump(rng, own, size),
            None if rng.once_in(3) => {
                let last = size - !taste.to_end as i64;
                inner_jump(rng, &ranges, own, last)
            }
            None => plain(rng, taste.axes),
        });
    }
    lines
}

/// Ranges side by side and in one another, at most seven around one place: six, and the one from place 0 that
/// is asked for.
fn ranges(rng: &mut Rng, size: i64, from_start: bool) -> Vec<Range> {
    let first = if from_start { rng.between(1, size - 1) } else { 0 };
    let mut ranges: Vec<Range> = Vec::new();
    for own in 2 - from_start as i64..size {
        let lowest = 1 - from_start as i64;
        let start = if own == first { 0 } else { rng.between(lowest, own - 1) };
        let apart = |&(other, before): &Range| start <= before || start > other;
        let around = |place: i64| ranges.iter().filter(|r| (r.1..=r.0).contains(&place)).count();
        let fits = ranges.iter().all(apart) && (start..own).all(|place| around(place) < 6);
        if own == first || fits && rng.once_in(3) {
            ranges.push((own, start));
        }
    }
    ranges
}

/// To any place, up to this last one, that lies in the same ranges: at least to its own.
fn inner_jump(rng: &mut Rng, ranges: &[Range], own: i64, last: i64) -> String {
    let around = |place: i64| ranges.iter().filter(move |r| (r.1..=r.0).contains(&place));
    let targets: Vec<i64> = (0..=last).filter(|&target| around(target).eq(around(own))).collect();
    let target = rng.pick(&targets);
    jump(rng, own, target)
}

/// A jump or a wait at its own place to another one.
fn jump(rng: &mut Rng, own: i64, target: i64) -> String {
    let head = rng.pick(&["3 0", "3 0", "2 33", "2 126"]);
    format!("{head},{}", target - own)
}

/// A record without a target, mostly a short one.
fn plain(rng: &mut Rng, axes: u8) -> String {
    let span = Span { reach: 300, edges: 8 };
    match rng.below(12) {
        0 => format!("0 {}", program::movement(rng, axes, false, span)),
        1 => format!("m {}", program::movement(rng, axes, true, span)),
        2..=3 => format!("n {}", axes::mask(rng, axes)),
        4 => {
            let (start, direction) = (arcs::start(rng, 9), arcs::direction(rng));
            format!("y {}", arcs::numbers(rng, span, start, direction))
        }
        _ => rng.pick(&["z0", "z1", "5 0", "5 65535", "1 33", "1 34", "1 126", "e 1", "f -1"]).to_string(),
    }
}
