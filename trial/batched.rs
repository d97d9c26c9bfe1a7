//! Many calls as one, for `walk` built with `batched`: the pulses that are left of a phase, and the bytes of a line
//! before its end. And for `pace` a clock call whose test and pulse share their products. Arcs are in `batched_arc`.

use crate::board::{Answer, Board, Job, Refusal};
use crate::motion::{Motion, Move, Point, Pulse};
use crate::number::all_in_24_bits;
use crate::receive::{BREAK, RESET, RETURN, STOP};
use crate::record::STORE;
use crate::table::TABLE;

impl Board {
    /// Behind a pulse that a clock call has made: makes those that are left of its phase or arc, at most `most` and as
    /// long as `hand_on` asks for more, and says how many. The clock call has tested the state, and a pulse
    /// leaves a right one right.
    #[inline]
    pub fn glide(&mut self, most: u32, hand_on: impl FnMut(Pulse) -> bool) -> u32 {
        match &mut self.job {
            Job::Direct(motion) | Job::Moving(motion) => match motion {
                Motion::Straight(movement) => movement.glide(&mut self.position, most, hand_on),
                Motion::Arc(arc) => arc.glide(&mut self.position, most, hand_on),
            },
            _ => 0,
        }
    }

    /// A clock call that tests a movement and makes its next pulse from the same products. What it doesn't
    /// answer so, `clock` answers.
    #[inline]
    pub fn stride(&mut self, store: &[u8], table: &[u16]) -> Result<Answer, Refusal> {
        let moves = !self.standing && matches!(self.job, Job::Direct(_) | Job::Moving(_));
        if moves && store.len() == STORE && table.len() == TABLE && self.right(false) {
            if let Some(pulse) = self.tested_pulse() {
                return Ok(Answer::Pulse(pulse));
            }
        }
        self.clock(store, table)
    }

    #[inline]
    fn tested_pulse(&mut self) -> Option<Pulse> {
        match &mut self.job {
            Job::Direct(Motion::Straight(movement)) | Job::Moving(Motion::Straight(movement)) => {
                movement.tested_pulse(&mut self.position)
            }
            Job::Direct(Motion::Arc(arc)) | Job::Moving(Motion::Arc(arc)) => {
                arc.tested_pulse(&mut self.position)
            }
            _ => None,
        }
    }

    /// Takes the bytes at the front that only lengthen the line, if lines are gathered, and says how many.
    #[inline]
    pub fn take(&mut self, bytes: &[u8], store: usize, table: usize) -> usize {
        let gathers = self.standing || matches!(self.job, Job::Idle | Job::Storing);
        if !gathers || self.callable(store, table).is_err() {
            return 0;
        }
        let ends = |byte: &u8| matches!(*byte, RETURN | STOP | RESET | BREAK);
        let count = bytes.iter().position(ends).unwrap_or(bytes.len());
        let room = &mut self.line[self.len as usize..];
        let kept = count.min(room.len());
        room[..kept].copy_from_slice(&bytes[..kept]);
        self.len += kept as u8;
        self.over |= kept < count;
        count
    }
}

impl Move {
    #[inline]
    fn glide(&mut self, counters: &mut Point, most: u32, mut hand_on: impl FnMut(Pulse) -> bool) -> u32 {
        let phase = self.phase as usize;
        let n = self.pulses(phase);
        let last = n.min(self.made + most);
        let (mut movement, mut at, mut more) = (*self, *counters, true);
        while more && movement.made < last {
            movement.made += 1;
            let mut signs = [0i8; 4];
            for a in 0..4 {
                signs[a] = movement.sign(phase, a, n, at[a]);
                at[a] += signs[a] as i32;
            }
            more = hand_on(Pulse { signs, speed: self.speeds[phase] });
        }
        let made = movement.made - self.made;
        (self.made, *counters) = (movement.made, at);
        made
    }

    /// The next pulse of the phase, if it has one left and the movement is right. `rest` is what `right` has
    /// between 0 and 2n: the part of a step that is gone, to which a pulse adds 2·|d|.
    #[inline]
    fn tested_pulse(&mut self, counters: &mut Point) -> Option<Pulse> {
        let speeds = self.speeds.iter().all(|s| (30..=10_000).contains(s));
        let points = all_in_24_bits(self.points.as_flattened());
        let phase = self.phase as usize;
        if !speeds || !points || phase > 2 || self.made >= self.pulses(phase) {
            return None;
        }
        let (k, n) = (self.made as i64, self.pulses(phase) as i64);
        let (mut right, mut signs) = (true, [0i8; 4]);
        for a in 0..4 {
            let from = self.points[phase][a];
            let d = (self.points[phase + 1][a] - from) as i64;
            let steps = (counters[a] - from) as i64 * if d < 0 { -1 } else { 1 };
            let rest = 2 * k * d.abs() + n - 2 * n * steps;
            right &= (0..2 * n).contains(&rest);
            signs[a] = (rest + 2 * d.abs() >= 2 * n) as i8 * d.signum() as i8;
        }
        if !right {
            return None;
        }
        for a in 0..4 {
            counters[a] += signs[a] as i32;
        }
        self.made += 1;
        Some(Pulse { signs, speed: self.speeds[phase] })
    }
}
