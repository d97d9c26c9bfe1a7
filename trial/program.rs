//! Random movements and sound stored programs, as lines.

use crate::arcs;
use crate::axes;
use crate::rng::Rng;

/// How far movements go: the greatest usual distance, and how rare the edges of 24 bits are.
#[derive(Clone, Copy)]
pub struct Span {
    pub reach: i64,
    pub edges: u64,
}

/// What a program may hold.
pub struct Taste {
    pub axes: u8,
    pub span: Span,
    pub waits: bool,
    /// Delays longer than a few tenths and other things that take many calls.
    pub long: bool,
}

/// A distance: mostly short, now and then at the edge of 24 bits.
pub fn distance(rng: &mut Rng, span: Span) -> i64 {
    if rng.once_in(span.edges) {
        return rng.pick(&[8_388_607, -8_388_608, 8_388_600, -8_388_600]);
    }
    match rng.below(3) {
        0 => 0,
        _ => rng.between(-span.reach, span.reach),
    }
}

pub fn speed(rng: &mut Rng) -> i64 {
    match rng.below(8) {
        0 => rng.pick(&[30, 10_000]),
        _ => rng.between(30, 10_000),
    }
}

/// The numbers of a movement, parted by commas.
pub fn movement(rng: &mut Rng, axes: u8, absolute: bool, span: Span) -> String {
    let mut text = String::new();
    for pair in 0..axes::pairs(axes) {
        let z2 = axes == 7 && pair == 3;
        let d = if absolute && z2 { 0 } else { distance(rng, span) };
        let comma = if pair > 0 { "," } else { "" };
        text += &format!("{comma}{d},{}", speed(rng));
    }
    text
}

/// In one of five lines with commas and no space after one: a space after each comma, or after some.
pub fn spaced(rng: &mut Rng, line: String) -> String {
    if !line.contains(',') || line.contains(", ") || !rng.once_in(5) {
        return line;
    }
    let all = rng.once_in(2);
    let mut text = String::new();
    for c in line.chars() {
        text.push(c);
        if c == ',' && (all || rng.once_in(2)) {
            text.push(' ');
        }
    }
    text
}

/// Codes of one kind of record without a target.
fn plain(rng: &mut Rng, taste: &Taste) -> String {
    let gap = if rng.once_in(3) { " " } else { "" };
    match rng.below(12) {
        0..=3 => format!("0{gap}{}", movement(rng, taste.axes, false, taste.span)),
        4..=5 => format!("m{gap}{}", movement(rng, taste.axes, true, taste.span)),
        6 => format!("n{gap}{}", axes::mask(rng, taste.axes)),
        7 => format!("z{gap}{}", rng.below(2)),
        8 if taste.long && rng.once_in(6) => format!("5{gap}{}", rng.between(0, 400)),
        8 | 9 => format!("5{gap}{}", rng.below(5)),
        _ => format!("1{gap}{}", rng.between(33, 126)),
    }
}

/// A sound program: blocks of records, with loops around blocks and jumps inside one block.
pub fn sound(rng: &mut Rng, taste: &Taste) -> Vec<String> {
    let mut lines = Vec::new();
    let size = rng.between(1, 6);
    block(rng, taste, &mut lines, size, 0);
    lines.into_iter().map(|line| spaced(rng, line)).collect()
}

/// Appends about `size` items at one depth. A jump may land at a single record of its own block
/// or behind the block: at its loop record, or at the end place.
fn block(rng: &mut Rng, taste: &Taste, lines: &mut Vec<String>, size: i64, depth: u32) {
    let mut starts = Vec::new();
    let mut jumps = Vec::new();
    for _ in 0..size {
        match rng.below(10) {
            0..=2 if depth < 7 => {
                around(rng, taste, lines, depth);
                continue;
            }
            3 => jumps.push(hole(lines)),
            4 if rng.once_in(4) => hidden_mark(rng, taste, lines),
            5 => lines.extend(arcs::records(rng, taste.axes, taste.span)),
            _ => lines.push(plain(rng, taste)),
        }
        starts.push(lines.len() - 1);
    }
    starts.push(lines.len());
    for own in jumps {
        lines[own] = jump(rng, taste, own, &starts);
    }
}

fn hole(lines: &mut Vec<String>) -> usize {
    lines.push(String::new());
    lines.len() - 1
}

/// A block with a loop record behind it.
fn around(rng: &mut Rng, taste: &Taste, lines: &mut Vec<String>, depth: u32) {
    let start = lines.len();
    let size = rng.between(1, 3);
    block(rng, taste, lines, size, depth + 1);
    let back = lines.len() - start;
    let number = if depth > 2 { 1 } else { rng.between(1, 3) };
    lines.push(format!("3 {number},-{back}"));
}

/// A jump forward, or a wait to anywhere in the block; a jump back or to itself is rare.
fn jump(rng: &mut Rng, taste: &Taste, own: usize, starts: &[usize]) -> String {
    let ahead: Vec<usize> = starts.iter().copied().filter(|&s| s > own).collect();
    let wait = taste.waits && rng.once_in(2);
    let free = wait || rng.once_in(120);
    let choice = if free { starts } else { &ahead };
    if choice.is_empty() {
        return plain(rng, taste);
    }
    let offset = rng.pick(choice) as i64 - own as i64;
    if wait {
        format!("2{},{offset}", rng.between(33, 40))
    } else {
        format!("3 0,{offset}")
    }
}

/// A record whose numbers hold the bytes of a mark, with a jump over it to a plain one.
fn hidden_mark(rng: &mut Rng, taste: &Taste, lines: &mut Vec<String>) {
    lines.push("3 0,2".to_string());
    let d = if rng.once_in(10) { 2_873_088 + rng.below(256) } else { 11_223 };
    let rest = [",600", ",600,5,700", "", ",600,5,700,0,800,0,900"];
    lines.push(format!("0{d}{}", rest[axes::pairs(taste.axes) - 1]));
    lines.push(plain(rng, taste));
}
