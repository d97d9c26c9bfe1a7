//! The rule of circles: pulses, full circles, ties, directions, and the square that holds them.

use crate::arcs;
use crate::Bench;
use trial::arc::{Arc, Turn};
use trial::motion::Point;

pub fn turn(plane: u8, direction: i64) -> Turn {
    Turn { plane, counter: direction == -1 }
}

/// The pulses of an arc by a line on three axes, short, with the 0 at their end.
fn pulses(plane: u8, direction: i64, start: [i64; 2], length: u32) -> String {
    let mut b = Bench::with_axes(7);
    let ([u, v], [first, second]) = (start, arcs::directions(start, direction));
    assert_eq!(b.line(&format!("@0e{plane}")) + &b.line(&format!("@0f{direction}")), "00");
    assert_eq!(b.line(&format!("@0y{length},600,0,{u},{v},{first},{second}")), "");
    b.answers()
}

#[test]
fn the_papers_example() {
    assert_eq!(pulses(0, -1, [2, 0], 4), ".+. -.. .+. -.. !0");
}

#[test]
fn every_plane_and_direction() {
    assert_eq!(pulses(0, 0, [2, 0], 4), ".-. -.. .-. -.. !0");
    assert_eq!(pulses(1, -1, [2, 0], 4), "..+ -.. ..+ -.. !0");
    assert_eq!(pulses(1, 0, [2, 0], 4), "..- -.. ..- -.. !0");
    assert_eq!(pulses(2, -1, [2, 0], 4), "..+ .-. ..+ .-. !0");
    assert_eq!(pulses(2, 0, [0, 2], 4), ".+. ..- .+. ..- !0");
}

/// Round the centre at distance 1, through the four corners.
#[test]
fn smallest_circles() {
    assert_eq!(pulses(0, 0, [0, 1], 8), "+.. .-. .-. -.. -.. .+. .+. +.. !0");
    assert_eq!(pulses(0, -1, [0, 1], 8), "-.. .-. .-. +.. +.. .+. .+. -.. !0");
    assert_eq!(pulses(0, 0, [0, -1], 8), "-.. .+. .+. +.. +.. .-. .-. -.. !0");
    assert_eq!(pulses(0, -1, [0, -1], 8), "+.. .+. .+. -.. -.. .-. .-. +.. !0");
    assert_eq!(pulses(0, 0, [1, 0], 8), ".-. -.. -.. .+. .+. +.. +.. .-. !0");
    assert_eq!(pulses(0, -1, [1, 0], 8), ".+. -.. -.. .-. .-. +.. +.. .+. !0");
    assert_eq!(pulses(0, 0, [-1, 0], 3), ".+. +.. +.. !0");
    assert_eq!(pulses(0, -1, [1, 1], 3), "-.. -.. .-. !0");
}

/// From (1, 2) both moves come 3 from the start's 5; so from (2, 1) counter-clockwise.
#[test]
fn the_first_axis_at_a_tie() {
    assert_eq!(pulses(0, 0, [1, 2], 1), "+.. !0");
    assert_eq!(pulses(0, -1, [2, 1], 1), "-.. !0");
    assert_eq!(pulses(0, 0, [-1, -2], 1), "-.. !0");
    assert_eq!(pulses(1, -1, [-2, -1], 1), "+.. !0");
    assert_eq!(pulses(2, 0, [1_000_000, 1_000_001], 1), ".+. !0");
    assert_eq!(pulses(0, 0, [2, 1], 1), ".-. !0"); // no tie: 4 is closer to 5 than 10
    assert_eq!(pulses(0, -1, [3, 2], 2), "-.. .+. !0");
}

/// From (3, 4): the value of the start counts, 25, and not that of the point reached.
#[test]
fn the_starts_value_counts() {
    let points =
        [[4, 4], [4, 3], [4, 2], [5, 2], [5, 1], [5, 0], [5, -1], [5, -2], [4, -2], [4, -3], [3, -3]];
    assert_eq!(walked(turn(0, 0), [3, 4], points.len()), points);
}

fn arc(turn: Turn, [u, v]: [i32; 2]) -> (Arc, Point) {
    let numbers = [8_388_607, 600, 0, u, v, 0, 0];
    (turn.arc(&[0; 4], &numbers).unwrap(), [0; 4])
}

/// The points from the centre after each of so many pulses.
fn walked(turn: Turn, start: [i32; 2], count: usize) -> Vec<[i32; 2]> {
    let (mut arc, mut at) = arc(turn, start);
    let [first, second] = turn.axes();
    let mut points = Vec::new();
    for _ in 0..count {
        arc.pulse(&mut at).unwrap();
        points.push([at[first] - arc.centre[0], at[second] - arc.centre[1]]);
    }
    points
}

#[test]
fn full_circles_from_an_axis() {
    for radius in (1..=40).chain([100, 777, 5_000]) {
        for start in [[radius, 0], [0, radius], [-radius, 0], [0, -radius]] {
            for direction in [0, -1] {
                let points = walked(turn(2, direction), start, 8 * radius as usize);
                let (last, before) = points.split_last().unwrap();
                assert_eq!(*last, start, "{start:?} {direction}");
                assert!(!before.contains(&start));
                assert!([[radius, 0], [0, radius], [-radius, 0], [0, -radius]]
                    .iter()
                    .all(|p| points.contains(p)));
            }
        }
    }
}

/// Every circle with a start up to 30 comes back to it, round the centre once.
#[test]
fn full_circles_from_anywhere() {
    for u in -30..=30 {
        for v in -30..=30 {
            for direction in [0, -1] {
                if (u, v) != (0, 0) {
                    comes_back(turn(0, direction), [u, v]);
                }
            }
        }
    }
}

fn comes_back(turn: Turn, start: [i32; 2]) {
    let radius = (start[0] * start[0] + start[1] * start[1]).isqrt();
    let points = walked(turn, start, 8 * radius as usize + 8);
    let back = points.iter().position(|&p| p == start);
    assert!(back.is_some_and(|at| at as i32 + 9 >= 8 * radius), "{turn:?} {start:?} {back:?}");
    let value = start[0] * start[0] + start[1] * start[1];
    let far = points.iter().map(|[u, v]| (u * u + v * v - value).abs()).max();
    assert!(far.is_some_and(|far| far <= 2 * radius + 3), "{turn:?} {start:?} {far:?}");
}

/// From every point of the square but its middle the next pulse leads to another such point: 103 is never met.
#[test]
fn the_square_is_never_left() {
    for u in 0..=12i32 {
        for v in 0..=12i32 {
            for direction in [0, -1] {
                if (u, v) != (0, 0) {
                    stays(turn(1, direction), [u, v]);
                }
            }
        }
    }
}

fn stays(turn: Turn, start: [i32; 2]) {
    let (given, _) = arc(turn, start);
    let reach = (start[0] * start[0] + start[1] * start[1]).isqrt() + 1;
    for u in -reach - 1..=reach + 1 {
        for v in -reach - 1..=reach + 1 {
            let mut at = [given.centre[0] + u, 5, given.centre[1] + v, -8_388_608];
            let inside = (u, v) != (0, 0) && u.abs() <= reach && v.abs() <= reach;
            assert_eq!(given.right(&at), inside, "{start:?} {u} {v}");
            let mut arc = given;
            let pulse = arc.pulse(&mut at).unwrap();
            assert!(!inside || arc.right(&at) && pulse.signs[1] == 0 && pulse.signs[3] == 0);
            assert!(!inside || pulse.signs.iter().filter(|&&s| s != 0).count() == 1);
        }
    }
}

/// By two ways of saying it: what the rule gives, then after a pulse; and towards the centre where it gives none.
#[test]
fn directions_of_a_line() {
    for u in -4_000_000..=-3_999_999i32 {
        for v in -3..=3 {
            for direction in [0, -1] {
                for start in [[u, v], [v, u], [-u, v], [v, -u], [v, 1], [1, v], [-1, v]] {
                    let wanted = arcs::directions(start.map(i64::from), direction);
                    assert_eq!(turn(0, direction).expected(start), wanted, "{start:?} {direction}");
                }
            }
        }
    }
    assert_eq!(turn(0, -1).expected([2, 0]), [-1, 1]);
    assert_eq!(turn(0, 0).expected([2, 0]), [-1, -1]);
    assert_eq!(turn(0, 0).expected([0, 2]), [1, -1]);
    assert_eq!(turn(0, -1).expected([0, -2]), [1, 1]);
    assert_eq!(turn(0, 0).expected([3, -4]), [-1, -1]);
    assert_eq!(turn(0, -1).expected([1, 5]), [-1, 1]); // although y first moves down, behind x = 0
}

/// The longest arc at the largest circle: no value leaves its width.
#[test]
fn the_largest_circle() {
    let mut b = Bench::with_axes(7);
    b.board.position = [2_731_752, -2_731_753, 0, 0];
    assert_eq!(b.line("@0y8388607,600,0,4000000,-4000000,-1,-1"), "");
    let (mut sum, start) = ([0i64; 2], [4_000_000i64, -4_000_000]);
    for _ in 0..200_000 {
        b.clock();
        sum = [0, 1].map(|a| i64::from(b.board.position[a]) - [2_731_752, -2_731_753][a]);
    }
    let [u, v] = [start[0] + sum[0], start[1] + sum[1]];
    assert!((u * u + v * v - 32_000_000_000_000).abs() <= 2 * 5_656_855);
    assert!(u < 3_999_000 && v < -4_000_900, "{u} {v}");
}
