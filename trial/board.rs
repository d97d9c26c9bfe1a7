//! The board's state, and the test that refuses a state with 103.

use crate::arc::Turn;
use crate::motion::{Motion, Point, Pulse};
use crate::number::all_in_24_bits;
use crate::record::{RECORDS, STORE};
use crate::table::TABLE;

#[derive(Clone, Copy, PartialEq, Eq, Debug)]
pub enum Job {
    Idle,
    Storing,
    /// A movement by a line.
    Direct(Motion),
    /// A program, about to run the record at `place`.
    Ready,
    /// A program's movement; with no pulse left, the same as `Ready`.
    Moving(Motion),
    /// Between the first and last pause of a delay: pauses after the next one.
    Delay(u32),
    /// A character wait: the character and the place to go to if it comes.
    Wait(u8, u32),
}

/// An open loop: its record's place and how often it still goes back.
#[derive(Clone, Copy, PartialEq, Eq, Debug, Default)]
pub struct Loop {
    pub place: u32,
    pub left: u32,
}

/// Positions are whole numbers modulo 2^32, so that a host may set any of 2^32 values; those in
/// 24 bits are themselves. `place` is the next record to run. `standing` alone says that
/// something stands stopped, whatever the job.
#[derive(Clone, Copy, PartialEq, Eq, Debug)]
pub struct Board {
    pub position: Point,
    pub origin: Point,
    pub axes: u8,
    pub three: bool,
    /// For the arcs to come; one under way has its own.
    pub turn: Turn,
    pub output: u8,
    pub used: u32,
    pub records: u32,
    pub store_axes: u8,
    pub job: Job,
    pub place: u32,
    pub loops: [Loop; 7],
    pub depth: u8,
    pub standing: bool,
    pub line: [u8; 80],
    pub len: u8,
    pub over: bool,
}

/// What a clock call answers.
#[derive(Clone, Copy, PartialEq, Eq, Debug)]
pub enum Answer {
    Pulse(Pulse),
    Pause,
    Send(u8),
    Done,
    Nothing,
}

/// A refused call: 101, 102, 103, 104, 106, or 71 (the letter G) from the lister and the filling of a table.
pub type Refusal = u8;
pub const REPLY_SHORT: Refusal = 101;
pub const STORE_WRONG: Refusal = 102;
pub const STATE_WRONG: Refusal = 103;
pub const TABLE_WRONG: Refusal = 104;
pub const TEXT_SHORT: Refusal = 106;
pub const UNREADABLE: Refusal = b'G';

/// None, or some that a line can set: x, x with y, all three, A alone, all four.
#[inline]
fn axes_known(axes: u8) -> bool {
    matches!(axes, 0 | 1 | 3 | 7 | 8 | 15)
}

impl Board {
    /// A reset board with an emptied store.
    pub fn fresh() -> Board {
        Board {
            position: [0; 4],
            origin: [0; 4],
            axes: 0,
            three: false,
            turn: Turn::FRESH,
            output: 0,
            used: 0,
            records: 0,
            store_axes: 0,
            job: Job::Idle,
            place: 0,
            loops: [Loop::default(); 7],
            depth: 0,
            standing: false,
            line: [0; 80],
            len: 0,
            over: false,
        }
    }

    /// Whether clock calls do anything: neither idle, storing, stopped nor waiting.
    #[inline]
    pub fn running(&self) -> bool {
        !self.standing && !matches!(self.job, Job::Idle | Job::Storing | Job::Wait(..))
    }

    /// The refusals 102, 103 and 104, in this order.
    #[inline]
    pub(crate) fn callable(&self, store: usize, table: usize) -> Result<(), Refusal> {
        if cfg!(slip_table_first) && store == STORE && table != TABLE {
            return Err(TABLE_WRONG);
        }
        self.callable_without_table(store)?;
        if table != TABLE {
            return Err(TABLE_WRONG);
        }
        Ok(())
    }

    /// The refusals 102 and 103, in this order: all that a call has which needs no table.
    #[inline]
    pub(crate) fn callable_without_table(&self, store: usize) -> Result<(), Refusal> {
        if store != STORE {
            return Err(STORE_WRONG);
        }
        if !self.right(true) {
            return Err(STATE_WRONG);
        }
        Ok(())
    }

    /// The test of 103, with the movement's own or without it.
    #[inline]
    pub(crate) fn right(&self, movement_too: bool) -> bool {
        let asked = if cfg!(slip_a_103) { 3 } else { 4 };
        all_in_24_bits(&self.position[..asked])
            && all_in_24_bits(&self.origin[..asked])
            && axes_known(self.axes)
            && axes_known(self.store_axes)
            && self.used as usize <= STORE
            && self.records <= RECORDS
            && self.depth <= 7
            && self.len <= 80
            && match &self.job {
                Job::Direct(motion) | Job::Moving(motion) => !movement_too || motion.right(&self.position),
                _ => true,
            }
    }

    pub(crate) fn empty_store(&mut self) {
        self.used = 0;
        self.records = 0;
        self.store_axes = 0;
    }

    pub(crate) fn clear_line(&mut self) {
        self.line = [0; 80];
        self.len = 0;
        self.over = false;
    }

    /// Idle, with nothing left of a run.
    pub(crate) fn end_run(&mut self) {
        self.job = Job::Idle;
        self.standing = false;
        self.clear_place();
    }

    /// Place 0 with no loop open.
    pub(crate) fn clear_place(&mut self) {
        self.place = 0;
        self.loops = [Loop::default(); 7];
        self.depth = 0;
    }
}
