//! Arcs in a script, and what a host does to one that is under way.

use crate::arcs::{self, Pair};
use crate::gen_calls::Script;

const LOW: i64 = -8_388_608;
const HIGH: i64 = 8_388_607;

/// The arc that a line has set off, if it was accepted: where from, and what the line said.
#[derive(Clone, Copy)]
pub struct Sent {
    plane: usize,
    direction: i64,
    at: Pair,
    start: Pair,
}

impl Sent {
    fn centre(&self) -> Pair {
        [self.at[0] - self.start[0], self.at[1] - self.start[1]]
    }

    /// As far as its pulses may come from the centre.
    fn reach(&self) -> i64 {
        (self.start[0].pow(2) + self.start[1].pow(2)).isqrt() + 1
    }

    /// The names of the plane's axes.
    fn axes(&self) -> [&'static str; 2] {
        [["x", "y"], ["x", "z"], ["y", "z"]][self.plane]
    }
}

impl Script<'_> {
    fn set(&mut self, name: &str, value: i64) {
        self.say(format!("H {name} {value}"));
    }

    /// An arc by lines, from the position 0 or from one that the host has set, near an end of 24 bits.
    pub fn arc_directly(&mut self, axes: u8) {
        let (plane, direction) = (arcs::plane(self.rng, axes), arcs::direction(self.rng));
        let mut sent = Sent { plane: plane as usize, direction, at: [0, 0], start: [0, 0] };
        let far = self.rng.once_in(3) && !self.tame;
        if far {
            self.altered = true;
            sent.at = [0, 1].map(|_| self.near_an_end());
            (0..2).for_each(|a| self.set(sent.axes()[a], sent.at[a]));
        }
        let span = self.span();
        sent.start = if far || self.rng.once_in(12) {
            arcs::start_at_an_edge(self.rng, sent.at)
        } else {
            arcs::start(self.rng, span.reach)
        };
        let numbers = arcs::numbers(self.rng, span, sent.start, direction);
        let numbers = if self.rng.once_in(8) { arcs::wrong(self.rng, &numbers) } else { numbers };
        let numbers = crate::program::spaced(self.rng, numbers);
        self.line(&format!("@0e{plane}"));
        self.line(&format!("@0f{direction}"));
        self.line(&format!("@0y{numbers}"));
        self.arc = Some(sent);
        if !self.tame && self.rng.once_in(2) {
            for _ in 0..self.rng.between(1, 5) {
                self.alter_arc();
            }
        }
    }

    fn near_an_end(&mut self) -> i64 {
        let near = self.rng.between(0, 30);
        self.rng.pick(&[0, HIGH - near, HIGH - near, LOW + near, LOW + near])
    }

    /// The host alters the arc that was sent last, or what it goes by, and mostly mends it after a few calls.
    pub fn alter_arc(&mut self) {
        let Some(sent) = self.arc else { return self.alter() };
        self.altered = true;
        match self.rng.below(9) {
            0..=1 => self.move_the_point(sent),
            2..=3 => self.move_the_arc(sent),
            4 => self.alter_start(),
            5 => self.turn(),
            6 => {
                let speed = self.rng.pick(&[29, 30, 10_000, 10_001, 0, 65_535, 65_536]);
                self.set("arcspeed", speed);
            }
            7 => {
                let length = self.rng.pick(&[0, 1, 2, 3, 8_388_608, 4_294_967_295, 4_294_967_296]);
                self.set("length", length);
            }
            _ => {
                let made = self.rng.pick(&[0, 1, 2, 5, 8_388_607, 4_294_967_295]);
                self.set("made", made);
            }
        }
        let calls = self.rng.pick(&[1, 1, 2, 5]);
        self.clocks(calls);
        if self.rng.once_in(4) {
            self.line("@0P");
        }
        if !self.rng.once_in(4) {
            self.mend_arc(sent);
        }
    }

    /// The point at the centre, at an end of where it may be, just outside, or anywhere near.
    fn move_the_point(&mut self, sent: Sent) {
        let (centre, reach) = (sent.centre(), sent.reach());
        let some = self.rng.between(-reach, reach);
        for a in 0..2 {
            if self.rng.once_in(3) {
                continue;
            }
            let off = self.rng.pick(&[0, 0, reach, -reach, reach + 1, -reach - 1, some, 1, -1]);
            self.set(sent.axes()[a], (centre[a] + off).max(LOW));
        }
    }

    /// The centre at an end of 24 bits, or just too near to it, mostly with the position at the arc's start.
    fn move_the_arc(&mut self, sent: Sent) {
        let (a, reach) = (self.rng.below(2) as usize, sent.reach());
        let ends = [LOW + reach, HIGH - reach, LOW + reach - 1, HIGH - reach + 1, 4_286_578_687];
        let centre = self.rng.pick(&ends);
        self.set(["centre1", "centre2"][a], centre);
        if !self.rng.once_in(4) {
            self.set(sent.axes()[a], (centre + sent.start[a]).clamp(LOW, 4_286_578_687));
        }
    }

    fn alter_start(&mut self) {
        let far = [4_000_000, 4_000_001, -4_000_000, -4_000_001, 0, 1, -1, 5, -8_388_608, 4_286_578_687];
        for name in ["start1", "start2"] {
            if !self.rng.once_in(3) {
                let value = self.rng.pick(&far);
                self.set(name, value);
            }
        }
    }

    /// Other planes and directions, of the arc or of the board, which an arc under way does not go by.
    fn turn(&mut self) {
        let (plane, direction) = (self.rng.between(0, 2), self.rng.between(-1, 0));
        let of_the_arc = self.rng.once_in(2);
        self.set(if of_the_arc { "arcplane" } else { "plane" }, plane);
        self.set(if of_the_arc { "arcturn" } else { "turn" }, direction);
    }

    /// The arc as it was sent, back at its start, with some pulses to make.
    fn mend_arc(&mut self, sent: Sent) {
        let centre = sent.centre();
        for a in 0..2 {
            self.set(sent.axes()[a], sent.at[a]);
            self.set(["centre1", "centre2"][a], centre[a]);
            self.set(["start1", "start2"][a], sent.start[a]);
        }
        self.set("arcplane", sent.plane as i64);
        self.set("arcturn", sent.direction);
        let length = self.rng.between(1, 12);
        for (name, value) in [("arcspeed", 500), ("made", 0), ("length", length)] {
            self.set(name, value);
        }
    }

    /// An arc under way, if there is one, as one from the position 0.
    pub fn repair_arc(&mut self) {
        let sent = Sent { plane: 0, direction: 0, at: [0, 0], start: [3, 4] };
        self.mend_arc(sent);
    }
}
