//! Lines for `ask`: COUNT questions, chains and joins, also with buffers of other lengths, some of which cannot be read.

use crate::gen_chain;
use crate::gen_join;
use crate::gen_lend;
use crate::gen_unread;
use crate::gen_unread_join;
use crate::rng::Rng;

/// A question with something wrong in it.
type Unread = fn(&mut Rng, Vec<String>) -> Vec<u8>;

pub fn lines(rng: &mut Rng, count: u64, out: &mut Vec<u8>) {
    for _ in 0..count {
        let (fields, unread): (_, Unread) = match rng.below(2) {
            0 => (chain(rng), gen_unread::line),
            _ if rng.once_in(5) => (gen_lend::lend(rng), gen_lend::unread),
            _ => (join(rng), gen_unread_join::line),
        };
        out.extend(if rng.once_in(6) { unread(rng, fields) } else { fields.join(" ").into_bytes() });
        out.extend_from_slice(if rng.once_in(12) { b"\r\n" } else { b"\n" });
    }
    if rng.once_in(3) {
        out.pop(); // the last line needs no line feed
        out.extend_from_slice(rng.pick(&["", "", "\r"]).as_bytes());
    }
}

fn chain(rng: &mut Rng) -> Vec<String> {
    let (axis, distances) = gen_chain::chain(rng);
    let digits = digits(rng);
    let mut fields = vec!["chain".to_string()];
    fields.extend(axis.map(|v| format!("{:016x}", v.to_bits())));
    let n = output(rng, distances.len() as i64);
    fields.push(written(rng, n, digits));
    fields.extend(distances.into_iter().map(|v| written(rng, v, digits)));
    fields
}

/// How many numbers the output has: mostly as many as there are distances. Some lengths are the right one in
/// eight, sixteen or thirty-two bits.
fn output(rng: &mut Rng, distances: i64) -> i64 {
    match rng.below(60) {
        0 => distances + 1,
        1 => (distances - 1).max(0),
        2 => distances + rng.pick(&[1 << 8, 1 << 16, 1 << 32]),
        3 => rng.pick(&[0, 1, 999, 1_000, 1_001, 1 << 62, i64::MAX]),
        _ => distances,
    }
}

pub fn join(rng: &mut Rng) -> Vec<String> {
    let digits = digits(rng);
    let mut fields = vec!["join".to_string()];
    for part in gen_join::join(rng) {
        fields.extend([part.used, part.records, part.axes].map(|v| written(rng, v, digits)));
        let hex: String = part.bytes.iter().map(|byte| format!("{byte:02x}")).collect();
        fields.push(if hex.is_empty() { "-".to_string() } else { hex });
    }
    fields
}

/// How many digits a line's numbers have at least.
pub fn digits(rng: &mut Rng) -> usize {
    if rng.once_in(15) {
        rng.between(2, 19) as usize
    } else {
        1
    }
}

/// With zeros in front up to so many digits; a zero may have a minus.
pub fn written(rng: &mut Rng, v: i64, digits: usize) -> String {
    let minus = if v < 0 || v == 0 && rng.once_in(30) { "-" } else { "" };
    format!("{minus}{:0digits$}", v.unsigned_abs())
}
