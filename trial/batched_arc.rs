//! Many pulses of an arc as one, and a clock call that tests an arc and makes its next pulse from the same squares.
//!
//! Along an arc only `off` is kept: by how much the square of the distance from the centre is above that of the start.
//! A step of an axis from u to u + s changes it by 2su + 1.

use crate::arc::{start_right, Arc, Pair};
use crate::motion::{Point, Pulse};
use crate::number::{HIGH, LOW};

impl Arc {
    /// The pulses that are left, at most `most` and as long as `hand_on` asks for more; says how many.
    pub(crate) fn glide(
        &mut self,
        counters: &mut Point,
        most: u32,
        mut hand_on: impl FnMut(Pulse) -> bool,
    ) -> u32 {
        let last = self.length.min(self.made.saturating_add(most));
        let (before, mut more) = (self.made, true);
        let mut at = self.point(counters);
        let mut off = square(at) - square(self.start.map(i64::from));
        while more && self.made < last {
            self.made += 1;
            let step = self.next(at, &mut off);
            at = [at[0] + step[0], at[1] + step[1]];
            more = hand_on(self.moved(step, counters));
        }
        self.made - before
    }

    /// The step from a point, with `off` as it is behind it.
    #[inline]
    fn next(&self, [u, v]: Pair, off: &mut i64) -> Pair {
        let side = 1 - 2 * i64::from(self.turn.counter);
        let (first, second) = (side * v.signum(), -side * u.signum());
        let (one, other) = (*off + 2 * first * u + 1, *off + 2 * second * v + 1);
        if v == 0 || u != 0 && other.abs() < one.abs() {
            *off = other;
            [0, second]
        } else {
            *off = one;
            [first, 0]
        }
    }

    /// The next pulse, if one is left and the arc is right. The radius is not worked out: its whole part is below a
    /// number exactly if the start's square is below the number's.
    #[inline]
    pub(crate) fn tested_pulse(&mut self, counters: &mut Point) -> Option<Pulse> {
        let speed = (30..=10_000).contains(&self.speed);
        if !speed || !start_right(self.start) || self.made >= self.length {
            return None;
        }
        let (at, value) = (self.point(counters), square(self.start.map(i64::from)));
        let room = |c: i32| (i64::from(c) - i64::from(LOW)).min(i64::from(HIGH) - i64::from(c));
        let wide = self.centre.iter().all(|&c| room(c) > 0 && room(c) * room(c) > value);
        let near = at.iter().all(|&u| u == 0 || (u.abs() - 1) * (u.abs() - 1) <= value);
        if !wide || !near || at == [0, 0] {
            return None;
        }
        self.made += 1;
        let step = self.next(at, &mut (square(at) - value));
        Some(self.moved(step, counters))
    }
}

fn square([u, v]: Pair) -> i64 {
    u * u + v * v
}
