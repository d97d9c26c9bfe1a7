//! Parts of a join that are mostly not accepted: numbers that do not fit the bytes, bytes that can't be read,
//! programs that fail the check.

use crate::arcs;
use crate::axes;
use crate::gen_fault;
use crate::gen_part::{record, Part};
use crate::program::{self, Span};
use crate::rng::Rng;

pub fn spoil(rng: &mut Rng, axes: u8, part: &mut Part) {
    match rng.below(12) {
        0..=2 => near(rng, part),
        3 => large(rng, part),
        4..=5 => byte(rng, part),
        6..=8 => add(part, record(&odd(rng, axes))),
        9 => add(part, rng.pick(&[&b"\xD7\x2B9\0"[..], b"\xD7\x2Bz\0", b"\xD7\x2B3\x01\0\0\0\0"]).to_vec()),
        _ => *part = Part::of(axes, &gen_fault::faulty(rng, axes, u64::MAX)),
    }
}

/// A little more or fewer than there are.
fn near(rng: &mut Rng, part: &mut Part) {
    let off = rng.below(4);
    if off != 0 {
        part.used = (part.used + rng.pick(&[-12, -8, -4, -1, 1, 4, 8, 12])).max(0);
    }
    if off < 2 {
        part.records = (part.records + rng.pick(&[-1, 1])).max(0);
    }
}

/// As many as a store holds, or more.
fn large(rng: &mut Rng, part: &mut Part) {
    let which = rng.below(4);
    if which < 3 {
        part.used = rng.pick(&[16_380, 16_384, 16_384, 16_385, 16_388, 32_768, 65_535]);
    }
    if which > 1 {
        part.records = rng.pick(&[999, 1_000, 1_001, 1_001, 2_048, 32_768, 65_535]);
    }
}

/// One of the bytes is another one.
fn byte(rng: &mut Rng, part: &mut Part) {
    if part.bytes.is_empty() {
        return near(rng, part);
    }
    let head = if rng.once_in(2) { 12 } else { part.bytes.len() };
    let at = rng.below(head.min(part.bytes.len()) as u64) as usize;
    part.bytes[at] =
        rng.pick(&[0, 1, 2, 3, 4, 8, 0xD7, 0x2B, b'0', b'1', b'3', b'm', b'z', b'e', b'f', b'y', 0xFE, 0xFF]);
}

/// One record more, in front of the others.
fn add(part: &mut Part, bytes: Vec<u8>) {
    part.used += bytes.len() as i64;
    part.records += 1;
    part.bytes.splice(0..0, bytes);
}

/// A record at the limits of what is right under these axes. If it is right, it passes the check.
fn odd(rng: &mut Rng, axes: u8) -> String {
    match rng.below(5) {
        0 => format!("n {}", rng.pick(&[0, 1, axes, axes + 1, 7, 8, 9, 15, 255])),
        1 => odd_movement(rng, axes),
        2 => {
            let (start, direction) = (arcs::start(rng, 9), arcs::direction(rng));
            let numbers = arcs::numbers(rng, Span { reach: 9, edges: 9 }, start, direction);
            format!("y {}", arcs::wrong(rng, &numbers))
        }
        3 => {
            let other = rng.pick(&axes::ALL);
            format!("m {}", program::movement(rng, other, true, Span { reach: 9, edges: 9 }))
        }
        _ => rng
            .pick(&[
                "z 2",
                "z -1",
                "5 -1",
                "5 65535",
                "5 65536",
                "1 32",
                "1 33",
                "1 126",
                "1 127",
                "2 32,0",
                "2 127,0",
                "3 -1,0",
                "3 1,0",
                "3 1,1",
                "3 0,0",
                "2 33,0",
                "6 0",
                "9 0",
                "3 0",
                "3 0,0,0",
                "z 0,0",
                "5 1,1",
                "e 0",
                "e 2",
                "e 3",
                "e -1",
                "e 0,0",
                "f 0",
                "f -1",
                "f 1",
                "f -2",
                "y 1,600,0,1,0,1",
                "y 0,600,0,0,0,1,1",
                "y 1,600,0,1,0,0,1",
            ])
            .to_string(),
    }
}

/// A movement in which one number is at its limit or just outside.
fn odd_movement(rng: &mut Rng, axes: u8) -> String {
    let absolute = rng.once_in(2);
    let text = program::movement(rng, axes, absolute, Span { reach: 9, edges: 9 });
    let mut numbers: Vec<&str> = text.split(',').collect();
    let at = rng.below(numbers.len() as u64) as usize;
    let distances = ["8388607", "8388608", "-8388608", "-8388609", "1"];
    let speeds = ["29", "30", "10000", "10001", "-600", "0"];
    numbers[at] = if at % 2 == 0 { rng.pick(&distances) } else { rng.pick(&speeds) };
    format!("{} {}", if absolute { "m" } else { "0" }, numbers.join(","))
}
