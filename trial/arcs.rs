//! Random lines of circles: planes, directions, and arcs that mostly are right for the direction given.

use crate::axes;
use crate::program::{self, Span};
use crate::rng::Rng;

/// On the plane's first and second axis.
pub type Pair = [i64; 2];

/// The farthest that a start may lie.
const FAR: i64 = 4_000_000;
/// The ends of 24 bits.
const LOW: i64 = -8_388_608;
const HIGH: i64 = 8_388_607;

/// A plane, mostly one that these axes allow.
pub fn plane(rng: &mut Rng, axes: u8) -> i64 {
    if axes & 7 == 7 || rng.once_in(8) {
        rng.between(0, 2)
    } else {
        0
    }
}

/// 0 or -1.
pub fn direction(rng: &mut Rng) -> i64 {
    rng.between(-1, 0)
}

/// The directions that the line of an arc must name. An axis that does not move at first comes towards the centre
/// behind the first pulse, whichever way round.
pub fn directions([u, v]: Pair, direction: i64) -> Pair {
    let side = if direction == 0 { 1 } else { -1 };
    let first = if v == 0 { -u.signum() } else { side * v.signum() };
    let second = if u == 0 { -v.signum() } else { -side * u.signum() };
    [first, second]
}

fn signed(rng: &mut Rng, v: i64) -> i64 {
    rng.pick(&[v, -v])
}

/// A start: on an axis, at a tie of the two moves, very near or very far, or any.
pub fn start(rng: &mut Rng, reach: i64) -> Pair {
    let n = rng.between(1, reach.max(1));
    let [u, v] = match rng.below(12) {
        0 => [1, 0],
        1 => [n, 0],
        2..=3 => [n, n + 1],
        4 => [n, n],
        5 => [rng.pick(&[FAR, FAR - 1, 1_234_567]), rng.pick(&[0, 1, n, 3_000_000])],
        6 => [rng.below(FAR as u64) as i64, rng.below(FAR as u64) as i64],
        _ => [n, rng.between(0, reach)],
    };
    let [u, v] = if rng.once_in(2) { [u, v] } else { [v, u] };
    [signed(rng, u), signed(rng, v)]
}

/// A start from this position whose circle just stays within 24 bits on the first axis or just does not, if there is one.
pub fn start_at_an_edge(rng: &mut Rng, [p, q]: Pair) -> Pair {
    for _ in 0..20 {
        let u = match rng.below(3) {
            0 => rng.between(1, 9),
            1 => rng.between(10, 100_000),
            _ => rng.between(3_200_000, FAR),
        };
        let u = signed(rng, u);
        let room = (p - u - LOW).min(HIGH - p + u);
        let left = room * room - 1 - u * u;
        let v = left.max(0).isqrt() + rng.between(-1, 2);
        if room > 0 && left >= 0 && (0..=FAR).contains(&v) {
            return [u, if q > 0 || q == 0 && rng.once_in(2) { v } else { -v }];
        }
    }
    start(rng, 9)
}

/// A length that brings small circles round, a short one, none, or a long one. Once in `span.edges` times the longest.
fn length(rng: &mut Rng, span: Span, [u, v]: Pair) -> i64 {
    let radius = u.abs().max(v.abs());
    match rng.below(8) {
        _ if rng.once_in(span.edges) => rng.pick(&[8_388_607, 8_388_606, 100_000]),
        0 => 0,
        1 => rng.between(1, 3),
        2 if radius <= span.reach => 8 * radius,
        3 => rng.between(1, 9 * span.reach),
        _ => rng.between(1, 2 * span.reach + 2),
    }
}

/// The numbers of an arc with this start, parted by commas: right ones for the direction.
pub fn numbers(rng: &mut Rng, span: Span, start: Pair, direction: i64) -> String {
    let ([u, v], [first, second]) = (start, directions(start, direction));
    let unused = rng.pick(&[0, 0, 5, -7, 8_388_607, -8_388_608]);
    format!("{},{},{unused},{u},{v},{first},{second}", length(rng, span, start), program::speed(rng))
}

/// The numbers of any arc, right ones for the direction in most cases.
pub fn arc(rng: &mut Rng, span: Span, direction: i64) -> String {
    let start = start(rng, span.reach);
    let text = numbers(rng, span, start, direction);
    if rng.once_in(8) {
        wrong(rng, &text)
    } else {
        text
    }
}

/// One number, or two, at its limit or outside; or another direction.
pub fn wrong(rng: &mut Rng, numbers: &str) -> String {
    let mut parts: Vec<String> = numbers.split(',').map(str::to_string).collect();
    for _ in 0..rng.pick(&[1, 1, 2]) {
        let at = rng.pick(&[0, 1, 1, 1, 2, 3, 4, 5, 5, 6, 6]);
        let value: i64 = match at {
            0 => rng.pick(&[-1, 8_388_608, 0, 99_999_999]),
            1 => rng.pick(&[29, 30, 10_000, 10_001, -600, 0]),
            2 => rng.pick(&[8_388_607, 8_388_608, -8_388_608, -8_388_609]),
            3 | 4 => rng.pick(&[0, 0, FAR, FAR + 1, -FAR, -FAR - 1]),
            _ => rng.pick(&[-1, 1, 1, -1, 0, 2, -2]),
        };
        parts[at] = value.to_string();
    }
    if rng.once_in(12) {
        (parts[3], parts[4]) = ("0".to_string(), "-0".to_string());
    }
    parts.join(",")
}

/// Records of circles: mostly the plane and the direction, then an arc that is right for them.
pub fn records(rng: &mut Rng, axes: u8, span: Span) -> Vec<String> {
    let span = Span { reach: span.reach.min(40), ..span };
    let gap = if rng.once_in(3) { " " } else { "" };
    let direction = direction(rng);
    let mut lines = Vec::new();
    if rng.once_in(2) {
        lines.push(format!("e{gap}{}", plane(rng, axes)));
    }
    if !rng.once_in(6) {
        lines.push(format!("f{gap}{direction}"));
    }
    if axes::turns(axes) || rng.once_in(6) {
        lines.push(format!("y{gap}{}", stored_arc(rng, span, direction)));
    }
    if lines.is_empty() {
        lines.push("e0".to_string());
    }
    lines
}

/// The numbers of an arc that can be stored; now and then it does not go when it is run.
fn stored_arc(rng: &mut Rng, span: Span, direction: i64) -> String {
    let start = if rng.once_in(30) { start_at_an_edge(rng, [0, 0]) } else { start(rng, span.reach) };
    let other = rng.once_in(12);
    numbers(rng, span, start, if other { -1 - direction } else { direction })
}
