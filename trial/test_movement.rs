//! Plans and pulses, against the formula with its division.

use crate::{short, speed, Bench};
use trial::motion::{plan, Move, Setting};

#[test]
fn the_papers_example() {
    let mut b = Bench::with_axes(3);
    assert_eq!(b.line("@0A3,600,1,900"), "");
    let first = b.clock();
    assert_eq!((short(first).as_str(), speed(first)), ("+..", 600));
    assert_eq!(b.answers(), "++. +.. !0");
    assert_eq!(b.board.position, [3, 1, 0, 0]);
}

#[test]
fn four_and_minus_two() {
    let mut b = Bench::with_axes(3);
    b.line("@0A4,600,-2,900");
    assert_eq!(b.answers(), "+-. +.. +-. +.. !0");
}

#[test]
fn phases() {
    let mut b = Bench::with_axes(7);
    b.line("@0A1,100,-2,200,1,300,-2,400");
    let speeds: Vec<u16> = (0..5).map(|_| speed(b.clock())).collect();
    assert_eq!(speeds, [200, 200, 300, 400, 400]);
    assert_eq!(b.board.position, [1, -2, -1, 0]);
    assert_eq!(b.answers(), "!0");
}

#[test]
fn absolute_counts_from_the_origin() {
    let mut b = Bench::with_axes(1);
    b.line("@0A5,600");
    b.answers();
    assert_eq!(b.line("@0n1"), "0");
    b.line("@0M-2,600");
    assert_eq!(b.answers(), "-.. -.. !0");
    assert_eq!(b.line("@0P"), "0000003000000000000");
    b.line("@0A1,600");
    assert_eq!(b.answers(), "+.. !0");
    assert_eq!(b.line("@0M-1,600"), "0");
}

#[test]
fn three_dimensions() {
    let mut b = Bench::with_axes(7);
    b.line("@0z1");
    assert_eq!(b.line("@0A0,100,2,200,-1,300,5,400"), "");
    let first = b.clock();
    assert_eq!((short(first).as_str(), speed(first)), (".+-", 100));
    assert_eq!(b.answers(), ".+. !0");
    assert_eq!(b.line("@0A0,30,0,30,0,30,8388607,30"), "0");
}

#[test]
fn x_speed_in_3d_with_two_axes() {
    let mut b = Bench::with_axes(3);
    b.line("@0z1");
    b.line("@0A0,100,2,200");
    assert_eq!(speed(b.clock()), 100);
}

#[test]
fn x_speed_at_a_tie() {
    let mut b = Bench::with_axes(3);
    b.line("@0A-2,100,2,200");
    assert_eq!(speed(b.clock()), 100);
}

#[test]
fn resting_points_outside() {
    let mut b = Bench::with_axes(7);
    b.board.position = [8_388_607, 0, 1, 0];
    for (line, reply) in [
        ("@0A1,30,0,30,0,30,0,30", "9"),
        ("@0A0,30,0,30,8388607,30,-5,30", "9"),
        ("@0A0,30,0,30,1,30,8388607,30", "9"),
        ("@0A0,30,-8388608,30,0,30,0,30", ""),
    ] {
        assert_eq!(b.line(line), reply, "{line}");
    }
    b.byte(255);
    b.board.origin = [8_388_607, 0, -8_388_608, 0];
    assert_eq!(b.line("@0M1,30,0,30,0,30,0,30"), "9");
    assert_eq!(b.line("@0M0,30,0,30,-1,30,0,30"), "9");
    assert_eq!(b.line("@0M-8388608,30,0,30,8388607,30,0,30"), "");
}

#[test]
fn sixteen_million_steps() {
    let mut b = Bench::with_axes(1);
    b.board.position[0] = -8_388_608;
    assert_eq!(b.line("@0M8388607,30"), "");
    for _ in 0..16_777_215 {
        assert_eq!(short(b.clock()), "+..");
    }
    assert_eq!((b.board.position[0], b.answers().as_str()), (8_388_607, "!0"));
}

/// Steps after pulse k of n: the paper's formula.
fn steps(d: i64, k: i64, n: i64) -> i64 {
    (2 * k * d.abs() + n) / (2 * n) * d.signum()
}

#[test]
fn every_pulse_follows_the_formula() {
    for dx in -9..=9 {
        for dy in [-13, -8, -5, -1, 0, 2, 7, 12] {
            for dz in [-9, -1, 0, 4, 13] {
                follow(7, [dx, dy, dz, 0]);
                follow(15, [dz, dx, 3, dy]);
            }
        }
    }
}

fn follow(axes: u8, d: [i64; 4]) {
    let setting = Setting { axes, three: true, position: [3, -4, 5, -6], origin: [0; 4] };
    let last = if axes == 7 { 9 } else { d[3] as i32 };
    let numbers = [d[0] as i32, 30, d[1] as i32, 40, d[2] as i32, 50, last, 60];
    let mut movement: Move = plan(&setting, false, &numbers).unwrap();
    let mut at = setting.position;
    let n = d.iter().map(|v| v.abs()).max().unwrap();
    for k in 1..=n {
        assert!(movement.pulse_left() && movement.right(&at));
        movement.pulse(&mut at).unwrap();
        for a in 0..4 {
            assert_eq!(at[a] as i64, setting.position[a] as i64 + steps(d[a], k, n));
        }
    }
    assert!(!movement.pulse_left() && movement.right(&at));
    assert_eq!(movement.pulse(&mut at), None);
}

#[test]
fn a_wrong_position_is_noticed() {
    let setting = Setting { axes: 3, three: false, position: [0; 4], origin: [0; 4] };
    let mut movement = plan(&setting, false, &[7, 30, -3, 40]).unwrap();
    let mut at = [0; 4];
    for _ in 0..7 {
        movement.pulse(&mut at);
        for a in 0..4 {
            for off in [-2, -1, 1, 2] {
                let mut wrong = at;
                wrong[a] += off;
                assert!(!movement.right(&wrong));
            }
        }
    }
}
