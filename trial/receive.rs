//! Receiving a byte: control codes, gathering a line, and what lines do while storing. The others are in `direct`.

use crate::board::{Board, Job, Refusal, REPLY_SHORT};
use crate::check::{self, Fault, Verdict};
use crate::line::{self, Line};
use crate::number::write_decimal;
use crate::record::{self, Record, RECORDS, STORE};

pub(crate) const STOP: u8 = 253;
pub(crate) const RESET: u8 = 254;
pub(crate) const BREAK: u8 = 255;
pub(crate) const RETURN: u8 = 13;

/// The levels of the four input ports.
pub type Ports = [u8; 4];

/// The buffers that a stored record is written to: its bytes, and where they start.
struct Kept<'a> {
    store: &'a mut [u8],
    table: &'a mut [u16],
}

/// A line's outcome: the length of the reply that is written, or a character that refuses it.
pub(crate) type Outcome = Result<usize, u8>;

pub(crate) fn refuse_if(wrong: bool, reply: u8) -> Result<(), u8> {
    if wrong {
        Err(reply)
    } else {
        Ok(())
    }
}

pub(crate) fn say(reply: &mut [u8], byte: u8) -> usize {
    reply[0] = byte;
    1
}

impl Board {
    /// Takes one byte and answers the length of the reply that was written.
    pub fn receive(
        &mut self,
        byte: u8,
        ports: Ports,
        reply: &mut [u8],
        store: &mut [u8],
        table: &mut [u16],
    ) -> Result<usize, Refusal> {
        if reply.len() < 32 {
            return Err(REPLY_SHORT);
        }
        self.callable(store.len(), table.len())?;
        let kept = Kept { store, table };
        Ok(match byte {
            STOP => self.stop(reply),
            RESET => self.reset(),
            BREAK => self.break_off(reply),
            _ => self.ordinary(byte, ports, reply, kept),
        })
    }

    fn stop(&mut self, reply: &mut [u8]) -> usize {
        let holds = match self.job {
            Job::Direct(_) | Job::Ready | Job::Moving(_) => true,
            Job::Delay(_) => cfg!(slip_stop_delay),
            Job::Idle | Job::Storing | Job::Wait(..) => false,
        };
        if self.standing || !holds {
            return 0;
        }
        self.standing = true;
        say(reply, b'F')
    }

    fn reset(&mut self) -> usize {
        let mut next = Board::fresh();
        if self.job != Job::Storing {
            next.used = self.used;
            next.records = self.records;
            next.store_axes = self.store_axes;
        }
        *self = next;
        0
    }

    fn break_off(&mut self, reply: &mut [u8]) -> usize {
        if !self.standing && matches!(self.job, Job::Idle | Job::Storing) {
            return 0;
        }
        self.end_run();
        say(reply, b'F')
    }

    fn ordinary(&mut self, byte: u8, ports: Ports, reply: &mut [u8], kept: Kept) -> usize {
        match self.job {
            _ if self.standing => self.gather(byte, ports, reply, kept),
            Job::Idle | Job::Storing => self.gather(byte, ports, reply, kept),
            Job::Wait(character, target) => {
                if byte == character {
                    self.place = target;
                }
                self.job = Job::Ready;
                0
            }
            _ => 0,
        }
    }

    fn gather(&mut self, byte: u8, ports: Ports, reply: &mut [u8], kept: Kept) -> usize {
        if byte == RETURN {
            return self.end_line(ports, reply, kept);
        }
        if (self.len as usize) < self.line.len() {
            self.line[self.len as usize] = byte;
            self.len += 1;
        } else {
            self.over = true;
        }
        0
    }

    fn end_line(&mut self, ports: Ports, reply: &mut [u8], kept: Kept) -> usize {
        let (text, len, over) = (self.line, self.len as usize, self.over);
        self.clear_line();
        let outcome = if over {
            Err(b'5')
        } else if self.job == Job::Storing && !self.standing {
            self.storing_line(&text[..len], reply, kept)
        } else {
            self.direct_line(&text[..len], ports, reply)
        };
        outcome.unwrap_or_else(|refused| say(reply, refused))
    }

    fn storing_line(&mut self, text: &[u8], reply: &mut [u8], kept: Kept) -> Outcome {
        let Line { letter: code, numbers } = line::storing(text).ok_or(b'5')?;
        if code == b'9' {
            return self.end_storing(reply, kept.store);
        }
        let count = record::count_for(code, self.store_axes).ok_or(b'7')?;
        refuse_if(numbers.count != count, b'7')?;
        let record = Record { code, count, values: numbers.values };
        if let Some(refused) = record::refusal(code, self.store_axes, record.numbers()) {
            return Err(refused);
        }
        let (start, end) = (self.used as usize, self.used as usize + record.length());
        refuse_if(self.records >= RECORDS || end > STORE, b'6')?;
        record.write(&mut kept.store[start..end]);
        kept.table[self.records as usize] = if cfg!(slip_entry_after) { end } else { start } as u16;
        self.used = end as u32;
        self.records += 1;
        Ok(say(reply, b'0'))
    }

    fn end_storing(&mut self, reply: &mut [u8], store: &[u8]) -> Outcome {
        self.job = Job::Idle;
        let verdict = check::check(store, self.used as usize, self.store_axes, self.records);
        if verdict != Verdict::Accepted {
            self.empty_store();
        }
        match verdict {
            Verdict::Accepted => Ok(say(reply, b'0')),
            Verdict::Unreadable => Err(b'G'),
            Verdict::Faulty(fault) => Ok(report_fault(fault, reply)),
        }
    }
}

/// G, the letter and the place as four digits.
fn report_fault(fault: Fault, reply: &mut [u8]) -> usize {
    reply[0] = b'G';
    reply[1] = fault.letter;
    write_decimal(&mut reply[2..6], fault.place as u32);
    6
}
