//! Vectors for the sheet, of 70 bytes each: random doubles and doubles at every edge.

use crate::rng::Rng;
use std::io::Write;

pub fn vectors(rng: &mut Rng, count: u64, out: &mut Vec<u8>) {
    for _ in 0..count {
        let axis = axis(rng);
        let [lead, steps, gear] = axis.map(f64::to_bits);
        let kind = rng.pick(b"DDDSSMMN") as char;
        let last = match kind {
            'N' => whole(rng) as u64,
            _ => value(rng, kind, axis).to_bits(),
        };
        let _ = writeln!(out, "{kind} {lead:016x} {steps:016x} {gear:016x} {last:016x}");
    }
}

pub fn axis(rng: &mut Rng) -> [f64; 3] {
    if rng.once_in(3) {
        let lead = rng.pick(&[1.0, 2.0, 2.5, 4.0, 5.0, 10.0, 20.0]);
        return [lead, rng.pick(&[2.0, 200.0, 400.0, 800.0]), rng.pick(&[0.5, 1.0, 2.0, 3.0])];
    }
    [factor(rng), factor(rng), factor(rng)]
}

/// Lead, steps or gear: mostly in range and spread over its powers, sometimes at an edge.
fn factor(rng: &mut Rng) -> f64 {
    match rng.below(40) {
        0 => edge(rng),
        1 => near(rng, 0.001),
        2 => near(rng, 1_000_000.0),
        3 => f64::from_bits(rng.bits()),
        4..=20 => 1.0 + rng.below(1_000) as f64,
        _ => spread(rng, -3, 5),
    }
}

fn edge(rng: &mut Rng) -> f64 {
    rng.pick(&[
        0.0,
        -0.0,
        f64::NAN,
        -f64::NAN,
        f64::INFINITY,
        f64::NEG_INFINITY,
        f64::MIN_POSITIVE,
        5e-324,
        -1.0,
        f64::MAX,
        -f64::MAX,
        0.001,
        1_000_000.0,
        -0.001,
        -1_000_000.0,
    ])
}

/// The double itself or one of its neighbours.
fn near(rng: &mut Rng, v: f64) -> f64 {
    let step = rng.between(-2, 2);
    f64::from_bits((v.to_bits() as i64 + step) as u64)
}

fn spread(rng: &mut Rng, low: i64, high: i64) -> f64 {
    let mantissa = 1.0 + (rng.bits() >> 12) as f64 / (1u64 << 52) as f64;
    mantissa * 10f64.powi(rng.between(low, high) as i32)
}

/// A value: random, or such that the result lies at a half or at an end of its range.
fn value(rng: &mut Rng, kind: char, [lead, steps, gear]: [f64; 3]) -> f64 {
    let factor = if kind == 'D' {
        steps * gear / lead
    } else {
        steps * gear / lead / if kind == 'M' { 60.0 } else { 1.0 }
    };
    let goal = match (kind, rng.below(8)) {
        (_, 0) => return edge(rng),
        (_, 1) => {
            let v = rng.pick(&[1_000_000.0, -1_000_000.0]);
            return near(rng, v);
        }
        (_, 2) => return spread(rng, -6, 5) * if rng.once_in(3) { -1.0 } else { 1.0 },
        ('D', 3) => rng.pick(&[8_388_607.5, 8_388_607.0, -8_388_608.5, -8_388_608.0, 0.5, -0.5, 1.5, 2.5]),
        ('D', _) => rng.between(-20_000, 20_000) as f64 / 2.0,
        (_, 3) => rng.pick(&[29.5, 30.0, 10_000.0, 10_000.5, 30.5, 29.0, 0.5]),
        _ => rng.between(0, 22_000) as f64 / 2.0,
    };
    near(rng, goal / factor)
}

fn whole(rng: &mut Rng) -> i64 {
    match rng.below(4) {
        0 => rng.pick(&[
            0,
            -1,
            29,
            30,
            31,
            9_999,
            10_000,
            10_001,
            1_000_000,
            1_000_001,
            i64::MIN,
            i64::MAX,
            -30,
        ]),
        1 => rng.bits() as i64,
        _ => rng.between(-100, 12_000),
    }
}
