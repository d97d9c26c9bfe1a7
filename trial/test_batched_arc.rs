//! What is made of an arc at once is what single calls make, on states that a host has altered too.

use crate::arcs;
use crate::program::Span;
use crate::rng::Rng;
use crate::Bench;
use trial::arc::Arc;
use trial::board::{Answer, Job};
use trial::motion::Motion;

/// A board some pulses into an arc, by a line or by a program, near the middle or near an end of 24 bits.
fn turning(rng: &mut Rng) -> Bench {
    let direction = arcs::direction(rng);
    let plane = rng.below(3);
    let mut b = Bench::with_axes(rng.pick(&[7, 15]));
    let near = rng.between(0, 30);
    let at = rng.pick(&[0, 0, 8_388_607 - near, -8_388_608 + near]);
    b.board.position = [at as i32; 4];
    let start = if rng.once_in(3) { arcs::start_at_an_edge(rng, [at; 2]) } else { arcs::start(rng, 9) };
    let numbers = arcs::numbers(rng, Span { reach: 9, edges: 50 }, start, direction);
    if rng.once_in(2) {
        b.line(&format!("@0e{plane}"));
        b.line(&format!("@0f{direction}"));
        b.line(&format!("@0y{numbers}"));
    } else {
        b.line("@0i");
        for line in [format!("e{plane}"), format!("f{direction}"), format!("y{numbers}"), "133".to_string()] {
            b.line(&line);
        }
        b.line("9");
        b.line("@0S");
        b.clocks(3);
    }
    b.clocks(rng.below(12) as usize);
    b
}

fn arc(b: &mut Bench) -> Option<&mut Arc> {
    match &mut b.board.job {
        Job::Direct(Motion::Arc(arc)) | Job::Moving(Motion::Arc(arc)) => Some(arc),
        _ => None,
    }
}

/// Alters something that refusal 103 may be for, often just so.
fn alter(rng: &mut Rng, b: &mut Bench) {
    let position = b.board.position;
    let Some(arc) = arc(b) else { return };
    let (a, [s, t]) = (rng.below(2) as usize, arc.start.map(i64::from));
    let reach = ((s * s + t * t).isqrt() + 1) as i32;
    let value = rng.pick(&[-1, 0, 1, 9, 4_000_000, 4_000_001, -8_388_609, 8_388_608, i32::MIN, i32::MAX]);
    let axis = arc.turn.axes()[a];
    let centre = arc.centre[a];
    match rng.below(9) {
        0 => arc.made = rng.pick(&[0, arc.length, arc.length + 1, 3]),
        1 => arc.length = rng.pick(&[0, arc.made, arc.made.wrapping_sub(1), u32::MAX]),
        2 => arc.speed = rng.pick(&[0, 29, 30, 10_000, 10_001]),
        3 => arc.start[a] = value,
        4 => arc.centre[a] = value,
        5 => {
            arc.centre[a] =
                rng.pick(&[8_388_607 - reach, 8_388_608 - reach, reach - 8_388_608, reach - 8_388_609])
        }
        6 => arc.turn.plane = rng.below(3) as u8,
        7 => b.board.position[axis] = rng.pick(&[centre, centre + reach, centre - reach, centre + reach + 1]),
        _ => b.board.position = position.map(|p| p ^ 1),
    }
}

#[test]
fn a_stride_is_a_clock_call() {
    let mut rng = Rng::new(4);
    let mut seen = [0; 3];
    for _ in 0..50_000 {
        let mut b = turning(&mut rng);
        for _ in 0..rng.below(3) {
            alter(&mut rng, &mut b);
        }
        let (mut one, mut other) = (b.board, b.board);
        let answer = one.clock(&b.store, &b.table);
        assert_eq!(other.stride(&b.store, &b.table), answer, "{:?}", b.board);
        assert_eq!(one, other);
        seen[match answer {
            Ok(Answer::Pulse(_)) => 0,
            Ok(_) => 1,
            Err(_) => 2,
        }] += 1;
    }
    assert!(seen.iter().all(|&n| n > 5_000), "{seen:?}");
}

#[test]
fn a_glide_is_the_clock_calls_of_an_arc() {
    let mut rng = Rng::new(5);
    let mut glides = 0;
    for _ in 0..20_000 {
        let mut b = turning(&mut rng);
        let (Ok(Answer::Pulse(_)), Some(under_way)) = (b.board.clock(&b.store, &b.table), arc(&mut b)) else {
            continue;
        };
        let left = under_way.length - under_way.made;
        let (most, wanted) = (rng.pick(&[0, 3, 9, 12, u32::MAX]), rng.between(1, 12) as usize);
        let mut other = b.board;
        let mut handed = Vec::new();
        let made = other.glide(most, |pulse| {
            handed.push(Answer::Pulse(pulse));
            handed.len() < wanted
        });
        assert_eq!(made, left.min(most).min(wanted as u32));
        let answers: Vec<Answer> = (0..made).map(|_| b.clock()).collect();
        assert_eq!((answers, b.board), (handed, other));
        glides += 1;
    }
    assert!(glides > 5_000, "{glides}");
}
