//! The clock call: the next pulse, pause or record of what runs.

use crate::board::{Answer, Board, Job, Loop, Refusal};
use crate::motion::{self, Motion};
use crate::record::{self, Record};

/// How a run ends in place of a record.
enum End {
    /// The character is sent and the store kept: 0 at the end place, 9 at a movement, 3, 1 or 9 at an arc.
    Sent(u8),
    /// G is sent and the store emptied.
    Broken,
}

impl Board {
    /// Answers what this tick of the clock does; the store and the table are only read.
    #[inline]
    pub fn clock(&mut self, store: &[u8], table: &[u16]) -> Result<Answer, Refusal> {
        self.callable(store.len(), table.len())?;
        if self.standing {
            return Ok(Answer::Nothing);
        }
        Ok(match &mut self.job {
            Job::Idle | Job::Storing | Job::Wait(..) => Answer::Nothing,
            Job::Direct(motion) => match motion.pulse(&mut self.position) {
                Some(pulse) => Answer::Pulse(pulse),
                None => self.end(End::Sent(b'0')),
            },
            Job::Moving(motion) => match motion.pulse(&mut self.position) {
                Some(pulse) => Answer::Pulse(pulse),
                None => self.next_record(store, table),
            },
            Job::Ready => self.next_record(store, table),
            Job::Delay(0) => {
                self.job = Job::Ready;
                Answer::Pause
            }
            Job::Delay(after) => {
                *after -= 1;
                Answer::Pause
            }
        })
    }

    fn next_record(&mut self, store: &[u8], table: &[u16]) -> Answer {
        match self.run_record(store, table) {
            Ok(answer) => answer,
            Err(end) => self.end(end),
        }
    }

    fn end(&mut self, end: End) -> Answer {
        self.end_run();
        match end {
            End::Sent(character) => Answer::Send(character),
            End::Broken => {
                self.empty_store();
                Answer::Send(b'G')
            }
        }
    }

    fn run_record(&mut self, store: &[u8], table: &[u16]) -> Result<Answer, End> {
        if self.place == self.records {
            self.look_up_the_end(table)?;
            return Err(End::Sent(b'0'));
        }
        if self.place > self.records {
            return Err(End::Broken);
        }
        let found = record::find(store, self.used as usize, self.store_axes, table, self.place);
        let record = found.ok_or(End::Broken)?;
        let first = record.values[0];
        match record.code {
            b'0' | b'm' => return self.run_movement(&record),
            b'y' => return self.run_arc(record.numbers()),
            b'3' if first > 0 => return self.run_loop(first as u32, record.values[1]),
            b'5' => return Ok(self.run_delay(first as u32)),
            b'3' => {
                self.job = Job::Ready;
                self.place = self.target(record.values[1])?;
                return Ok(Answer::Done);
            }
            b'2' => {
                let target = self.target(record.values[1])?;
                self.go_on(Job::Wait(first as u8, target));
                return Ok(Answer::Done);
            }
            b'n' => self.set_origin(first as u8),
            b'z' => self.three = first == 1,
            b'e' => self.turn.plane = first as u8,
            b'f' => self.turn.counter = first == -1,
            _ => {
                self.go_on(Job::Ready);
                return Ok(Answer::Send(first as u8));
            }
        }
        self.go_on(Job::Ready);
        Ok(Answer::Done)
    }

    /// A planted slip: the end place is looked up too, where the table has an entry for it.
    fn look_up_the_end(&self, table: &[u16]) -> Result<(), End> {
        match table.get(self.place as usize) {
            Some(&start) if cfg!(slip_end_looked_up) && u32::from(start) != self.used => Err(End::Broken),
            _ => Ok(()),
        }
    }

    /// Sets the job, with the next record to run after it.
    fn go_on(&mut self, job: Job) {
        self.job = job;
        self.place += 1;
    }

    /// Own place plus offset, if it is from 0 to the end place.
    fn target(&self, offset: i32) -> Result<u32, End> {
        let own = self.place as i32 + if cfg!(slip_next_offset) { 1 } else { 0 };
        let target = own + offset;
        if target < 0 || target > self.records as i32 {
            return Err(End::Broken);
        }
        Ok(target as u32)
    }

    fn run_movement(&mut self, record: &Record) -> Result<Answer, End> {
        let setting = self.setting(self.store_axes);
        let planned = motion::plan(&setting, record.code == b'm', record.numbers());
        let movement = planned.ok_or(End::Sent(b'9'))?;
        Ok(self.set_off(Motion::Straight(movement)))
    }

    /// Its ranges and its speed are right: the record could be read. The store's axes say whether its plane fits.
    fn run_arc(&mut self, numbers: &[i32]) -> Result<Answer, End> {
        if !self.turn.fits(self.store_axes) {
            return Err(End::Sent(b'3'));
        }
        if !self.turn.expects(numbers) {
            return Err(End::Sent(b'1'));
        }
        let arc = self.turn.arc(&self.position, numbers).ok_or(End::Sent(b'9'))?;
        Ok(self.set_off(Motion::Arc(arc)))
    }

    /// The first pulse of what a record moves; with none it is done.
    fn set_off(&mut self, mut motion: Motion) -> Answer {
        match motion.pulse(&mut self.position) {
            Some(pulse) => {
                self.go_on(Job::Moving(motion));
                Answer::Pulse(pulse)
            }
            None => {
                self.go_on(Job::Ready);
                Answer::Done
            }
        }
    }

    /// Goes back exactly `number` times, counted by the loop opened last if it is this one's.
    fn run_loop(&mut self, number: u32, offset: i32) -> Result<Answer, End> {
        let target = self.target(offset)?;
        let number = if cfg!(slip_loop_c) { number - 1 } else { number };
        self.job = Job::Ready;
        let depth = self.depth as usize;
        if depth > 0 && self.loops[depth - 1].place == self.place {
            let last = &mut self.loops[depth - 1];
            if last.left > 0 {
                last.left -= 1;
                self.place = target;
            } else {
                *last = Loop::default();
                self.depth -= 1;
                self.place += 1;
            }
        } else if number == 0 {
            self.place += 1;
        } else if depth == 7 {
            return Err(End::Broken);
        } else {
            self.loops[depth] = Loop { place: self.place, left: number - 1 };
            self.depth += 1;
            self.place = target;
        }
        Ok(Answer::Done)
    }

    fn run_delay(&mut self, tenths: u32) -> Answer {
        self.go_on(match tenths {
            0 | 1 => Job::Ready,
            _ => Job::Delay(tenths - 2),
        });
        match tenths {
            0 => Answer::Done,
            _ => Answer::Pause,
        }
    }
}
