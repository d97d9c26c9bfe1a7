//! Joins with stores and a table of lengths at and beside the right ones.

use crate::gen_ask;
use crate::gen_unread::odd_number;
use crate::gen_unread_join;
use crate::rng::Rng;

/// The fields of a join behind three lengths. In half of them all are right.
pub fn lend(rng: &mut Rng) -> Vec<String> {
    let mut fields = gen_ask::join(rng);
    let mut lengths = [16_384, 16_384, 1_000];
    for _ in 0..rng.pick(&[0, 0, 0, 1, 1, 2]) {
        match rng.below(5) {
            0 => lengths[0] = store(rng, &fields[4]),
            1 => lengths[1] = store(rng, &fields[8]),
            _ => lengths[2] = rng.pick(&[999, 999, 1_001, 1_001, 0, 1, 744, 1_000]),
        }
    }
    let digits = gen_ask::digits(rng);
    fields[0] = "lend".to_string();
    fields.splice(1..1, lengths.map(|v| gen_ask::written(rng, v, digits)));
    fields
}

/// A store's length: beside the right one, none, or about as long as the bytes that are given.
fn store(rng: &mut Rng, hex: &str) -> i64 {
    let given = hex.len() as i64 / 2;
    let length = rng.pick(&[16_383, 16_385, 16_383, 16_385, 0, given, given + 1, given - 1, given - 8, 128]);
    length.clamp(0, 16_385)
}

/// A question with something wrong in its lengths or in the join behind them, or with something rare that is right.
pub fn unread(rng: &mut Rng, mut fields: Vec<String>) -> Vec<u8> {
    if rng.once_in(2) {
        let at = rng.between(1, 3) as usize;
        fields[at] = length(rng, &fields[at], at == 3);
        return fields.join(" ").into_bytes();
    }
    let lengths: Vec<String> = fields.drain(1..4).collect();
    fields[0] = "join".to_string();
    let line = gen_unread_join::line(rng, fields);
    match line.strip_prefix(b"join ") {
        Some(rest) => [format!("lend {} ", lengths.join(" ")).as_bytes(), rest].concat(),
        None => line,
    }
}

/// A length that its place can or can't hold.
fn length(rng: &mut Rng, right: &str, table: bool) -> String {
    match rng.below(4) {
        0 => odd_number(rng),
        1 if table => rng.pick(&["1001", "1002", "2000", "66536", "-0", "0"]).to_string(),
        1 => rng.pick(&["16385", "16386", "65536", "81920", "-0", "0"]).to_string(),
        2 => rng.pick(&["-1", "-", "", "256", "01000", "4294968296", "4294983680"]).to_string(),
        _ => format!("{}{right}", rng.pick(&["-", "+", "0", "00", "x", " ", "0 "])),
    }
}
