//! Chains of distances: racks, random ones, and those whose sums lie where a result or a refusal is decided.

use crate::gen_sheet;
use crate::rng::Rng;

type Axis = [f64; 3];
/// Where a chain may come to.
type Sum = fn(&mut Rng, Axis) -> i64;

/// 1,000,000 mm in thousandths.
const FAR: i64 = 1_000_000_000;

pub fn chain(rng: &mut Rng) -> (Axis, Vec<i64>) {
    let axis = axis(rng);
    let mut distances = match rng.below(20) {
        0..=4 => rack(rng, axis),
        5..=7 => scattered(rng),
        8..=11 => through(rng, axis, mark),
        12 => through(rng, axis, far),
        13 => through(rng, axis, end),
        14 => there_and_back(rng),
        15 => wide_step(rng, axis),
        16 => refused_twice(rng, axis),
        17 => extremes(rng),
        18 => vec![rng.pick(&[mark as Sum, far, end])(rng, axis)],
        _ => Vec::new(),
    };
    if rng.once_in(5) && !distances.is_empty() {
        let at = rng.below(distances.len() as u64 + 1) as usize;
        distances.insert(at, 0);
    }
    if rng.once_in(150) {
        lengthen(rng, &mut distances);
    }
    (axis, distances)
}

/// The sheet's axes; those at which whole thousandths come to whole steps, to halves and to just less, also
/// at the ends of 24 bits; and those at which 1,000,000 mm are just inside 24 bits or just outside.
fn axis(rng: &mut Rng) -> Axis {
    match rng.below(6) {
        0..=1 => gen_sheet::axis(rng),
        2..=3 => [1.0, 100.0, 1.0],
        4 => {
            let steps = rng.pick(&[500.0, 1_000.0, 1_000.0, 2_000.0, 1_000_000.0]);
            [1.0, steps, rng.pick(&[0.49999999999999994, 0.5, 1.0])]
        }
        _ => [1_000.0, rng.pick(&[1.0, 1_000.0, 8_388.607, 8_388.6075, 8_388.608, 8_388.6085]), 1.0],
    }
}

fn per_thousandth([lead, steps, gear]: Axis) -> f64 {
    steps * gear / lead / 1_000.0
}

/// The thousandths that come nearest to these steps, or their neighbours.
fn thousandths(rng: &mut Rng, axis: Axis, steps: f64) -> i64 {
    ((steps / per_thousandth(axis)).round() as i64).saturating_add(rng.pick(&[0, 0, 0, 0, 1, -1]))
}

/// Equal distances, of a pitch in round thousandths or in some steps of this axis.
fn rack(rng: &mut Rng, axis: Axis) -> Vec<i64> {
    let pitch = match rng.below(4) {
        0 => rng.pick(&[333, 667, 285, 5, 15, 125, 1, 10, 1_005, 25, 999_999, 333_333_333]),
        1 => 5 * rng.between(1, 400),
        2 => rng.between(1, 3_000),
        _ => {
            let steps = rng.between(1, 400) as f64 / 8.0;
            thousandths(rng, axis, steps)
        }
    };
    let pitch = if rng.once_in(3) { pitch.saturating_neg() } else { pitch };
    vec![pitch; rng.between(1, 30) as usize]
}

fn scattered(rng: &mut Rng) -> Vec<i64> {
    let reach = rng.pick(&[2, 50, 1_000, 20_000, 3_000_000, 200_000_000]);
    (0..rng.between(1, 20)).map(|_| rng.between(-reach, reach)).collect()
}

/// A chain that comes to some sums, with a small distance behind each now and then.
fn through(rng: &mut Rng, axis: Axis, sum: Sum) -> Vec<i64> {
    let mut sums = Vec::new();
    for _ in 0..rng.between(1, 8) {
        let next = sum(rng, axis);
        sums.push(next);
        if rng.once_in(2) {
            sums.push(next.saturating_add(rng.between(-12, 12)));
        }
    }
    relative(&sums)
}

fn relative(sums: &[i64]) -> Vec<i64> {
    let before = [0].iter().chain(sums);
    before.zip(sums).map(|(from, to)| to.saturating_sub(*from)).collect()
}

/// A sum whose result is at a half, or one of those below.
fn mark(rng: &mut Rng, axis: Axis) -> i64 {
    match rng.below(16) {
        0 => far(rng, axis),
        1 => end(rng, axis),
        2 => 0,
        _ => {
            let reach = rng.pick(&[3, 300, 20_000, 8_388_600]);
            let half = rng.between(-reach, reach) as f64 + 0.5;
            thousandths(rng, axis, half)
        }
    }
}

/// A sum at the farthest that is allowed, mostly on the one side: from side to side is too wide a difference.
fn far(rng: &mut Rng, axis: Axis) -> i64 {
    let beyond = rng.pick(&[0, 0, 0, 0, -1, -2, 1, 2]);
    match rng.below(8) {
        0 => -FAR - beyond,
        1 => thousandths(rng, axis, 0.5),
        _ => FAR + beyond,
    }
}

/// A sum whose result is at an end of 24 bits, mostly in them and at the upper one.
fn end(rng: &mut Rng, axis: Axis) -> i64 {
    let steps = match rng.below(8) {
        0 => rng.pick(&[8_388_607.5, 8_388_608.0, -8_388_608.5, -8_388_609.0]),
        1 => rng.pick(&[-8_388_608.0, -8_388_607.5]),
        2..=4 => rng.between(-2, 2) as f64,
        _ => rng.pick(&[8_388_607.0, 8_388_606.5, 8_388_606.0]),
    };
    thousandths(rng, axis, steps)
}

/// Out to 1,000,000 mm or a little farther, and back to where every sum is allowed again.
fn there_and_back(rng: &mut Rng) -> Vec<i64> {
    let side = rng.pick(&[1, -1]);
    let way = rng.between(0, 5_000);
    let mut sums = vec![side * (FAR - way)];
    sums.push(side * (FAR + rng.pick(&[-1, 0, 0, 0, 1, 1, 2, 1_000])));
    sums.push(side * (FAR - rng.between(0, 5_000)));
    if rng.once_in(2) {
        sums.push(side * rng.between(-3_000, 3_000));
    }
    relative(&sums)
}

/// Two results in 24 bits whose difference is at an end of them.
fn wide_step(rng: &mut Rng, axis: Axis) -> Vec<i64> {
    let width = rng.pick(&[8_388_606, 8_388_607, 8_388_608, 8_388_609, 16_777_215]);
    let anywhere = rng.between(-8_388_608, 8_388_607 - width);
    let low = rng.pick(&[-8_388_608, 8_388_607 - width, anywhere]);
    let mut ends = [low, low + width].map(|steps| (steps as f64 / per_thousandth(axis)).round() as i64);
    if rng.once_in(2) {
        ends.reverse();
    }
    let mut sums = vec![ends[0] / 2];
    sums.extend(ends);
    if rng.once_in(2) {
        sums.push(ends[1].saturating_add(rng.between(-12, 12)));
    }
    relative(&sums)
}

/// A result outside 24 bits, or a difference, and a sum that is too far, mostly in this order.
fn refused_twice(rng: &mut Rng, axis: Axis) -> Vec<i64> {
    let small = rng.between(-50, 50);
    let mut wide = wide_step(rng, axis);
    if rng.once_in(2) {
        let steps = rng.pick(&[8_388_608.0, -8_388_609.0, 9_000_000.0]);
        wide = vec![small, thousandths(rng, axis, steps)];
    }
    let too_far = rng.pick(&[2 * FAR + 1, -2 * FAR - 1, i64::MAX, i64::MIN]);
    if rng.once_in(4) {
        wide.insert(0, too_far);
    } else {
        wide.push(too_far);
    }
    wide
}

/// Distances that together leave 64 bits, and some that come to a small sum if their upper bits are lost.
fn extremes(rng: &mut Rng) -> Vec<i64> {
    const WIDE: [i64; 12] = [
        i64::MAX,
        i64::MIN,
        i64::MAX - 1,
        i64::MIN + 1,
        FAR,
        -FAR,
        FAR + 1,
        1 << 32,
        -(1 << 32),
        1 << 31,
        i64::MAX - FAR,
        i64::MIN + FAR,
    ];
    let small = rng.between(-2, 2);
    match rng.below(8) {
        0 => vec![i64::MAX, i64::MAX, 2],
        1 => vec![i64::MIN, i64::MIN, small],
        2 => vec![small, rng.pick(&[i64::MAX, i64::MIN])],
        3 => vec![FAR, rng.pick(&[i64::MAX, i64::MAX - FAR, i64::MAX - FAR + 1])],
        4 => vec![-FAR, rng.pick(&[i64::MIN, i64::MIN + FAR, i64::MIN + FAR - 1])],
        5 => vec![rng.bits() as i64, rng.bits() as i64],
        _ => (0..rng.between(1, 6)).map(|_| rng.pick(&WIDE)).collect(),
    }
}

/// As many distances as are allowed, or about as many: the first of them again and again, or forth and back,
/// so that the sums stay small.
fn lengthen(rng: &mut Rng, distances: &mut Vec<i64>) {
    let length = rng.pick(&[999, 1_000, 1_000, 1_000, 1_001, 1_001, 1_002, 2_100]);
    let mut round = if distances.is_empty() { vec![0] } else { distances.clone() };
    if rng.once_in(2) {
        let back: Vec<i64> = round.iter().rev().map(|v| v.saturating_neg()).collect();
        round.extend(back);
    }
    *distances = round.into_iter().cycle().take(length).collect();
}
