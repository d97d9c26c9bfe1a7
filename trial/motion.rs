//! A straight movement: its plan, its pulses, and the test that one under way must pass. And what moves at all.

use crate::arc::Arc;
use crate::number::all_in_24_bits;

/// x, y, z and a.
pub type Point = [i32; 4];
/// Where A is in a point.
pub const A: usize = 3;

/// What is under way: a straight movement or an arc.
#[derive(Clone, Copy, PartialEq, Eq, Debug)]
pub enum Motion {
    Straight(Move),
    Arc(Arc),
}

impl Motion {
    /// Makes the next pulse on the lent counters, if one is left.
    #[inline]
    pub fn pulse(&mut self, counters: &mut Point) -> Option<Pulse> {
        match self {
            Motion::Straight(movement) => movement.pulse(counters),
            Motion::Arc(arc) => arc.pulse(counters),
        }
    }

    /// The test of refusal 103.
    #[inline]
    pub fn right(&self, at: &Point) -> bool {
        match self {
            Motion::Straight(movement) => movement.right(at),
            Motion::Arc(arc) => arc.right(at),
        }
    }

    /// Pulses made, of a phase or of an arc.
    pub fn made(&self) -> u32 {
        match self {
            Motion::Straight(movement) => movement.made,
            Motion::Arc(arc) => arc.made,
        }
    }
}

/// `points` are the start and the resting points after the first, second and third phase.
/// `made` pulses of phase `phase` (0 to 2) are made; after a phase's last pulse the movement
/// stays in that phase until the next pulse is asked for.
#[derive(Clone, Copy, PartialEq, Eq, Debug)]
pub struct Move {
    pub points: [Point; 4],
    pub speeds: [u16; 3],
    pub phase: u8,
    pub made: u32,
}

/// What one pulse moves, and how fast.
#[derive(Clone, Copy, PartialEq, Eq, Debug)]
pub struct Pulse {
    pub signs: [i8; 4],
    pub speed: u16,
}

/// Where a movement starts from: what a plan takes from the board.
pub struct Setting {
    pub axes: u8,
    pub three: bool,
    pub position: Point,
    pub origin: Point,
}

/// Plans a movement from the numbers of its line (distances or targets, each with its speed).
/// None: a resting point lies outside 24 bits.
pub fn plan(setting: &Setting, absolute: bool, numbers: &[i32]) -> Option<Move> {
    let start = setting.position;
    let mut goal = start;
    let set = (0..4).filter(|a| setting.axes >> a & 1 == 1);
    for (a, number) in set.zip(numbers.iter().step_by(2)) {
        goal[a] = if absolute { setting.origin[a] } else { start[a] } + number;
    }
    let z2 = if setting.axes == 7 && !absolute { numbers[6] } else { 0 };
    let points = resting_points(start, goal, z2, setting.three);
    if !within_24_bits(points) {
        return None;
    }
    let speeds = phase_speeds(&points, setting, numbers);
    Some(Move { points, speeds, phase: 0, made: 0 })
}

/// The slip: A's ends are not asked.
fn within_24_bits(mut points: [Point; 4]) -> bool {
    if cfg!(slip_a_nine) {
        points.iter_mut().for_each(|point| point[A] = 0);
    }
    all_in_24_bits(points.as_flattened())
}

/// The last of three phases is z2's or A's: no axes have both.
fn resting_points(start: Point, goal: Point, z2: i32, three: bool) -> [Point; 4] {
    let [x, y, z, a] = goal;
    if three {
        let end = [x, y, z + if cfg!(slip_z2_3d) { z2 } else { 0 }, a];
        return [start, end, end, end];
    }
    let first = [x, y, start[2], start[A]];
    let second = if cfg!(slip_a_before_z) { [x, y, start[2], a] } else { [x, y, z, start[A]] };
    [start, first, second, [x, y, z + z2, a]]
}

fn phase_speeds(points: &[Point; 4], setting: &Setting, numbers: &[i32]) -> [u16; 3] {
    let x = numbers[1] as u16;
    if setting.three || matches!(setting.axes, 1 | 8) {
        return [x; 3];
    }
    let dx = (points[1][0] - points[0][0]).abs();
    let dy = (points[1][1] - points[0][1]).abs();
    let together = if dy > dx { numbers[3] as u16 } else { x };
    match setting.axes {
        15 if cfg!(slip_a_x_speed) => [together, numbers[5] as u16, x],
        7 | 15 => [together, numbers[5] as u16, numbers[7] as u16],
        _ => [together, x, x],
    }
}

impl Move {
    /// The pulses of one phase: its greatest distance.
    #[inline]
    pub fn pulses(&self, phase: usize) -> u32 {
        let (from, to) = (&self.points[phase], &self.points[phase + 1]);
        let way = |a: usize| (to[a] - from[a]).unsigned_abs();
        way(0).max(way(1)).max(way(2)).max(way(A))
    }

    /// Whether a pulse is still to be made.
    pub fn pulse_left(&self) -> bool {
        let phase = self.phase as usize;
        self.made < self.pulses(phase) || (phase + 1..3).any(|p| self.pulses(p) > 0)
    }

    /// Makes the next pulse on the lent counters, if one is left. A movement that passes
    /// `right` has made |position - from| steps on each axis, so no division is needed.
    #[inline]
    pub fn pulse(&mut self, counters: &mut Point) -> Option<Pulse> {
        let mut phase = self.phase as usize;
        let mut n = self.pulses(phase);
        let mut made = self.made;
        while made >= n {
            phase += 1;
            if phase == 3 {
                return None;
            }
            n = self.pulses(phase);
            made = 0;
        }
        self.phase = phase as u8;
        self.made = made + 1;
        let mut signs = [0i8; 4];
        for a in 0..4 {
            signs[a] = self.sign(phase, a, n, counters[a]);
            counters[a] += signs[a] as i32;
        }
        Some(Pulse { signs, speed: self.speeds[phase] })
    }

    /// The step of axis `a` at pulse `self.made` of `n`: one more step is due exactly if
    /// (2·made·|d| + n) / 2n has passed the steps made so far.
    #[inline]
    pub(crate) fn sign(&self, phase: usize, a: usize, n: u32, at: i32) -> i8 {
        let from = self.points[phase][a];
        let d = (self.points[phase + 1][a] - from) as i64;
        let steps = (at - from).abs() as i64;
        let (k, n) = (self.made as i64, n as i64);
        let due = 2 * n * (steps + 1) <= 2 * k * d.abs() + n;
        due as i8 * d.signum() as i8
    }

    /// The test of refusal 103: speeds, resting points, pulse number, and the position.
    #[inline]
    pub fn right(&self, at: &Point) -> bool {
        let speeds = self.speeds.iter().all(|s| (30..=10_000).contains(s));
        let points = all_in_24_bits(self.points.as_flattened());
        if !speeds || !points || self.phase > 2 {
            return false;
        }
        let n = self.pulses(self.phase as usize);
        self.made <= n && (0..4).all(|a| self.stands_right(a, n, at[a]))
    }

    /// Whether axis `a` has made (2·made·|d| + n) / 2n steps, rounded down, in the sign of d.
    #[inline]
    fn stands_right(&self, a: usize, n: u32, at: i32) -> bool {
        let phase = self.phase as usize;
        let from = self.points[phase][a];
        if n == 0 {
            return at == from;
        }
        let d = (self.points[phase + 1][a] - from) as i64;
        let steps = (at - from) as i64 * if d < 0 { -1 } else { 1 };
        let (k, n) = (self.made as i64, n as i64);
        let middle = 2 * k * d.abs() + n;
        2 * n * steps <= middle && middle < 2 * n * (steps + 1)
    }
}
