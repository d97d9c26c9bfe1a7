//! An arc: the rule of its pulses, what its line must say, and the test that one under way must pass.

use crate::motion::{Point, Pulse};
use crate::number::{HIGH, LOW};

/// Of the plane's first and second axis.
pub type Pair = [i64; 2];

/// The farthest that a start lies from its centre on an axis, and the longest arc.
pub const FARTHEST: i32 = 4_000_000;
pub const LONGEST: i32 = 8_388_607;

/// Where arcs lie and which way they go.
#[derive(Clone, Copy, PartialEq, Eq, Debug)]
pub struct Turn {
    /// 0: x with y; 1: x with z; 2: y with z.
    pub plane: u8,
    /// Counter-clockwise, which lines call -1; else clockwise.
    pub counter: bool,
}

/// `centre` and `start` are of the plane's first and second axis, the start counted from the centre. `made` pulses
/// of `length` are made. The plane and the way are the arc's own.
#[derive(Clone, Copy, PartialEq, Eq, Debug)]
pub struct Arc {
    pub turn: Turn,
    pub centre: [i32; 2],
    pub start: [i32; 2],
    pub speed: u16,
    pub length: u32,
    pub made: u32,
}

fn wide(pair: [i32; 2]) -> Pair {
    pair.map(i64::from)
}

/// The square of the distance from the centre.
fn square([u, v]: Pair) -> i64 {
    u * u + v * v
}

impl Turn {
    /// Plane 0, clockwise.
    pub const FRESH: Turn = Turn { plane: 0, counter: false };

    /// The plane's first and second axis.
    #[inline]
    pub fn axes(self) -> [usize; 2] {
        match self.plane {
            0 if cfg!(slip_arc_z) => [0, 2],
            0 => [0, 1],
            1 => [0, 2],
            _ => [1, 2],
        }
    }

    /// Whether the axes that the plane needs are set. A is in no plane.
    pub fn fits(self, axes: u8) -> bool {
        match axes {
            7 | 15 => true,
            3 => self.plane == 0,
            8 => cfg!(slip_a_circle),
            _ => false,
        }
    }

    /// Which way each axis may move at a point; 0 is not at all.
    #[inline]
    fn ways(self, [u, v]: Pair) -> Pair {
        let side = if self.counter != cfg!(slip_arc_way) { -1 } else { 1 };
        [side * v.signum(), -side * u.signum()]
    }

    /// One pulse from a point other than the centre: of two moves the one that leaves the square of the distance
    /// closer to `value`, at a tie the first axis.
    #[inline]
    fn step(self, at: Pair, value: i64) -> Pair {
        let value = if cfg!(slip_arc_present) { square(at) } else { value };
        let ([u, v], [first, second]) = (at, self.ways(at));
        let one = (square([u + first, v]) - value).abs();
        let other = (square([u, v + second]) - value).abs();
        let tie_first = one == other && !cfg!(slip_arc_tie);
        if first != 0 && (second == 0 || one < other || tie_first) {
            [first, 0]
        } else {
            [0, second]
        }
    }

    /// The directions that the line of an arc must name: those at its start, and for an axis that has none there, the
    /// one after the first pulse.
    pub fn expected(self, start: [i32; 2]) -> Pair {
        let start = wide(start);
        let now = self.ways(start);
        let [u, v] = self.step(start, square(start));
        let then = self.ways([start[0] + u, start[1] + v]);
        [0, 1].map(|a| if now[a] != 0 { now[a] } else { then[a] })
    }

    /// Whether the line of an arc, with its ranges right, names these directions.
    pub fn expects(self, numbers: &[i32]) -> bool {
        let start = [numbers[3], numbers[4]];
        let now = self.ways(wide(start));
        let expected = self.expected(start);
        (0..2).all(|a| i64::from(numbers[5 + a]) == expected[a] || cfg!(slip_arc_start_only) && now[a] == 0)
    }

    /// The arc from this position by the numbers of its line. None: its square leaves 24 bits.
    pub fn arc(self, position: &Point, numbers: &[i32]) -> Option<Arc> {
        let start = [numbers[3], numbers[4]];
        let [first, second] = self.axes();
        let centre = [position[first] - start[0], position[second] - start[1]];
        let less = if cfg!(slip_arc_reach) { 1 } else { 0 };
        if !within_24_bits(centre, reach(start) - less) {
            return None;
        }
        let (speed, length) = (numbers[1] as u16, numbers[0] as u32);
        Some(Arc { turn: self, centre, start, speed, length, made: 0 })
    }
}

/// The whole part of the radius, plus one: as far from the centre as pulses may come on either axis.
fn reach(start: [i32; 2]) -> i64 {
    square(wide(start)).isqrt() + 1
}

fn within_24_bits(centre: [i32; 2], reach: i64) -> bool {
    wide(centre).iter().all(|c| c - reach >= i64::from(LOW) && c + reach <= i64::from(HIGH))
}

/// Whether a line can name this start.
pub fn start_right(start: [i32; 2]) -> bool {
    start != [0, 0] && start.iter().all(|s| (-FARTHEST..=FARTHEST).contains(s))
}

impl Arc {
    /// Where a position lies from the centre.
    #[inline]
    pub(crate) fn point(&self, position: &Point) -> Pair {
        let ([first, second], [p, q]) = (self.turn.axes(), wide(self.centre));
        [i64::from(position[first]) - p, i64::from(position[second]) - q]
    }

    /// Makes the next pulse on the lent counters, if one is left.
    #[inline]
    pub fn pulse(&mut self, counters: &mut Point) -> Option<Pulse> {
        if self.made >= self.length {
            return None;
        }
        self.made += 1;
        let step = self.turn.step(self.point(counters), square(wide(self.start)));
        Some(self.moved(step, counters))
    }

    /// Moves the counters by a step of the plane's axes.
    #[inline]
    pub(crate) fn moved(&self, step: Pair, counters: &mut Point) -> Pulse {
        let mut signs = [0i8; 4];
        for (axis, by) in self.turn.axes().into_iter().zip(step) {
            signs[axis] = by as i8;
            counters[axis] += by as i32;
        }
        Pulse { signs, speed: self.speed }
    }

    /// The test of refusal 103: a speed, start or centre that no arc has, a pulse past its length, a point at the
    /// centre or too far from it.
    #[inline]
    pub fn right(&self, position: &Point) -> bool {
        let speed = (30..=10_000).contains(&self.speed);
        if !speed || !start_right(self.start) || self.made > self.length {
            return false;
        }
        let (reach, [u, v]) = (reach(self.start), self.point(position));
        within_24_bits(self.centre, reach) && (u, v) != (0, 0) && u.abs() <= reach && v.abs() <= reach
    }
}
