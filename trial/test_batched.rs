//! What is made at once is what single calls make, on states that a host has altered too.

use crate::rng::Rng;
use crate::Bench;
use trial::board::{Answer, Job};
use trial::motion::{Motion, Move};

/// A board some pulses into a movement of up to 9 steps on each axis.
fn moving(rng: &mut Rng) -> Bench {
    let mut b = Bench::with_axes(rng.pick(&[7, 15]));
    b.line(&format!("@0z{}", rng.below(2)));
    let numbers: Vec<String> = (0..4).map(|a| format!("{},{}", rng.between(-9, 9), 600 + a)).collect();
    b.line(&format!("@0A{}", numbers.join(",")));
    b.clocks(rng.below(20) as usize);
    b
}

fn movement(b: &mut Bench) -> Option<&mut Move> {
    match &mut b.board.job {
        Job::Direct(Motion::Straight(movement)) | Job::Moving(Motion::Straight(movement)) => Some(movement),
        _ => None,
    }
}

/// Alters something that refusal 103 may be for.
fn alter(rng: &mut Rng, b: &mut Bench) {
    let a = rng.below(4) as usize;
    let value = rng.pick(&[-1, 0, 1, 9, -8_388_609, 8_388_608, i32::MIN, i32::MAX]);
    let small = rng.below(5) as u8;
    match rng.below(10) {
        0 => b.board.position[a] ^= 1,
        1 => b.board.position[a] = value,
        2 => b.board.origin[a] = value,
        3 => b.board.standing = true,
        4 => b.board.depth = small + 5,
        5 => b.board.axes = rng.pick(&[0, 1, 2, 7, 8, 14, 15]),
        n => {
            let Some(movement) = movement(b) else { return };
            match n {
                6 => movement.made = rng.below(11) as u32,
                7 => movement.phase = small,
                8 => movement.speeds[a.min(2)] = rng.pick(&[0, 29, 30, 10_000, 10_001]),
                _ => movement.points[rng.below(4) as usize][a] = value,
            }
        }
    }
}

#[test]
fn a_stride_is_a_clock_call() {
    let mut rng = Rng::new(1);
    let mut seen = [0; 3];
    for _ in 0..50_000 {
        let mut b = moving(&mut rng);
        for _ in 0..rng.below(3) {
            alter(&mut rng, &mut b);
        }
        let (mut one, mut other) = (b.board, b.board);
        let store = &b.store[rng.once_in(50) as usize..];
        let table = &b.table[rng.once_in(50) as usize..];
        let answer = one.clock(store, table);
        assert_eq!(other.stride(store, table), answer, "{:?}", b.board);
        assert_eq!(one, other);
        seen[match answer {
            Ok(Answer::Pulse(_)) => 0,
            Ok(_) => 1,
            Err(_) => 2,
        }] += 1;
    }
    assert!(seen.iter().all(|&n| n > 5_000), "{seen:?}");
}

#[test]
fn a_glide_is_the_clock_calls_of_a_phase() {
    let mut rng = Rng::new(2);
    for _ in 0..20_000 {
        let mut b = moving(&mut rng);
        let Answer::Pulse(_) = b.clock() else { continue };
        let (most, wanted) = (rng.below(12) as u32, rng.between(1, 12) as usize);
        let (phase, pulses) = movement(&mut b).map(|m| (m.phase, m.pulses(m.phase as usize))).unwrap();
        let left = pulses - movement(&mut b).unwrap().made;
        let mut other = b.board;
        let mut handed = Vec::new();
        let made = other.glide(most, |pulse| {
            handed.push(Answer::Pulse(pulse));
            handed.len() < wanted
        });
        assert_eq!(made, left.min(most).min(wanted as u32));
        let answers: Vec<Answer> = (0..made).map(|_| b.clock()).collect();
        assert_eq!((answers, b.board), (handed, other));
        assert_eq!(movement(&mut b).unwrap().phase, phase);
    }
}

#[test]
fn bytes_taken_are_bytes_received() {
    let mut rng = Rng::new(3);
    for _ in 0..20_000 {
        let mut b = if rng.once_in(2) { moving(&mut rng) } else { Bench::with_axes(1) };
        if rng.once_in(3) {
            b.line("@0i");
        }
        if rng.once_in(3) {
            b.byte(253);
        }
        b.board.len = rng.pick(&[0, 0, 3, 70, 79, 80, 81]);
        let bytes: Vec<u8> =
            (0..rng.below(100)).map(|_| rng.pick(&[0, 10, 12, 14, b'@', b'0', 252])).collect();
        let ends: Vec<u8> = (0..rng.below(2)).map(|_| rng.pick(&[13, 253, 254, 255])).collect();
        let mut other = b.board;
        let table = b.table.len() - rng.once_in(20) as usize;
        let taken = other.take(&[&bytes[..], &ends, b"9"].concat(), b.store.len(), table);
        let gathers = b.board.standing || matches!(b.board.job, Job::Idle | Job::Storing);
        let heard = gathers && b.board.len <= 80 && table == b.table.len();
        let expected = if heard { bytes.len() + ends.is_empty() as usize } else { 0 };
        assert_eq!(taken, expected);
        for &byte in bytes.iter().chain(b"9").take(taken) {
            b.byte(byte);
        }
        assert_eq!(b.board, other);
    }
}
