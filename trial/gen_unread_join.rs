//! Lines for `ask` that ask for a join and cannot be read, or only just.

use crate::gen_unread::{missing, odd_byte, odd_number, spaces};
use crate::rng::Rng;

/// A question with something wrong in it, or with something rare that is right.
pub fn line(rng: &mut Rng, mut fields: Vec<String>) -> Vec<u8> {
    match rng.below(20) {
        0 => {
            fields[0] =
                rng.pick(&["joins", "Join", "JOIN", "joi", "chain", "", "join\t", "0", "?"]).to_string()
        }
        1..=6 => bytes(rng, &mut fields),
        7..=12 => number(rng, &mut fields),
        13..=14 => missing(rng, &mut fields),
        15..=16 => return spaces(rng, &fields),
        17..=18 => return odd_byte(rng, &fields),
        _ => whole_part(rng, &mut fields),
    }
    fields.join(" ").into_bytes()
}

/// Bytes that are none, too many of them, or as many as there may be.
fn bytes(rng: &mut Rng, fields: &mut [String]) {
    let field = &mut fields[rng.pick(&[4, 8])];
    match rng.below(9) {
        0 => *field = field.to_uppercase(),
        1 => drop(field.pop()),
        2 => *field += rng.pick(&["0", "f", "-", "g0", "F0", "zz", "00", "0f"]),
        3 => field.insert_str(0, rng.pick(&["-", "+", "0x", "0", "00", "_", "D7"])),
        4 => *field = rng.pick(&["", "", "-", "--", "-0", "-00", "0", "00", "ff", "fF", "x"]).to_string(),
        5 => {
            let at = rng.below(field.len() as u64) as usize;
            field.replace_range(at..=at, rng.pick(&["g", "A", "-", "", "0", "00", "+", "\u{e9}"]));
        }
        6 if rng.once_in(2) => full(rng, fields),
        _ => *field = "-".to_string(),
    }
}

/// One store or both, given to the last byte or about to it.
fn full(rng: &mut Rng, fields: &mut [String]) {
    let places = rng.pick(&[&[4][..], &[8], &[8], &[4, 8]]);
    for &place in places {
        let digits = rng.pick(&[32_767, 32_768, 32_768, 32_769, 32_770, 32_770]);
        fields[place] = (fields[place].replace('-', "") + &"0".repeat(digits))[..digits].to_string();
    }
}

/// A number that its place can or can't hold. Some would be right in eight or sixteen bits.
fn number(rng: &mut Rng, fields: &mut [String]) {
    let place = rng.pick(&[1, 2, 3, 5, 6, 7]);
    let field = &mut fields[place];
    *field = match rng.below(4) {
        0 => odd_number(rng),
        1 => {
            let wider = if place % 4 == 3 { 1 << 8 } else { 1 << 16 };
            (rng.pick(&[wider, wider, 1 << 32]) + field.parse().unwrap_or(0i64)).to_string()
        }
        2 => rng.pick(&["-1", "255", "256", "257", "65535", "65536", "65537", "-0", "-256"]).to_string(),
        _ => format!("{}{field}", rng.pick(&["-", "+", "0", "00", "x", "0000000000000000"])),
    };
}

/// A part that is missing, or a third.
fn whole_part(rng: &mut Rng, fields: &mut Vec<String>) {
    if rng.once_in(2) {
        fields.truncate(5);
    } else {
        fields.extend_from_within(1..5);
    }
}
