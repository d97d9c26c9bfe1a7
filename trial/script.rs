//! A script for `calls`: its lines, and what each does to a board. See README.md.

use crate::host;
use std::io::{self, Write};
use trial::board::{Answer, Board, Refusal};
use trial::join::Part;
use trial::lister::TEXT;
use trial::number::{push_decimal, whole};
use trial::receive::Ports;
use trial::record::STORE;
use trial::table::{fill, TABLE};

/// The longest buffer that M and R lend, and the longest table that U lends.
const LENT: i64 = 65_536;
const LENT_TABLE: i64 = 2_000;
/// The longest line that can be right.
const LINE: usize = 64;

/// The buffers that a call is lent.
struct Lent<'a> {
    reply: &'a mut [u8],
    store: &'a mut [u8],
    table: &'a mut [u16],
}

pub struct Calls {
    board: Board,
    ports: Ports,
    store: Vec<u8>,
    table: Vec<u16>,
    /// The lengths that the next call is lent.
    next_store: Option<usize>,
    next_table: Option<usize>,
    next_reply: Option<usize>,
    /// Whether the last Q printed `Q more`.
    more: bool,
    /// Whether an E has passed over the rest of the script.
    ended: bool,
    out: Vec<u8>,
}

impl Calls {
    pub fn fresh() -> Calls {
        Calls {
            board: Board::fresh(),
            ports: [0; 4],
            store: vec![0; STORE],
            table: vec![0; TABLE],
            next_store: None,
            next_table: None,
            next_reply: None,
            more: false,
            ended: false,
            out: Vec::new(),
        }
    }

    /// Runs a script: what stands before each line feed, and what stands after the last one if
    /// that is not empty. It is over early where an E says so.
    pub fn script(&mut self, script: &[u8], to: &mut impl Write) -> io::Result<()> {
        for (i, line) in script.split_inclusive(|&b| b == b'\n').enumerate() {
            if self.line(line.strip_suffix(b"\n").unwrap_or(line)).is_none() {
                self.out.extend_from_slice(b"? ");
                push_decimal(&mut self.out, i as i64 + 1);
                self.out.push(b'\n');
            }
            to.write_all(&self.out)?;
            self.out.clear();
            if self.ended {
                break;
            }
        }
        Ok(())
    }

    /// Runs one line. None: the line is wrong.
    fn line(&mut self, line: &[u8]) -> Option<()> {
        let text = std::str::from_utf8(line).ok().filter(|text| text.len() <= LINE)?;
        let mut fields = text.split(' ');
        let command = fields.next()?;
        if command == "H" {
            let (name, value) = (fields.next()?, number(fields.next()?)?);
            return fields.next().map_or_else(|| host::set(&mut self.board, name, value), |_| None);
        }
        let values: Vec<i64> = fields.map(number).collect::<Option<_>>()?;
        match (command, values.as_slice()) {
            ("I", &[a, b, c, d]) => self.ports = [byte(a)?, byte(b)?, byte(c)?, byte(d)?],
            ("B", &[v]) => self.receive(byte(v)?),
            ("C", &[n]) => (0..u32::try_from(n).ok()?).for_each(|_| self.clock()),
            ("Q", &[n]) => self.run_until_quiet(u32::try_from(n).ok()?),
            ("E", &[]) => self.ended = self.more,
            ("N", &[v]) => self.show("N", i64::from(u32::try_from(v).ok()?)),
            ("W", &[at, v]) => *self.store.get_mut(usize::try_from(at).ok()?)? = byte(v)?,
            ("K", &[used, records, axes]) => self.set_store(used, records, axes)?,
            ("T", &[at, v]) => *self.table.get_mut(usize::try_from(at).ok()?)? = half(v)?,
            ("V", &[at]) => self.show("V", i64::from(*self.table.get(usize::try_from(at).ok()?)?)),
            ("M", &[n]) => self.next_store = Some(lent(n, LENT)?),
            ("R", &[n]) => self.next_reply = Some(lent(n, LENT)?),
            ("U", &[n]) => self.next_table = Some(lent(n, LENT_TABLE)?),
            ("S", &[]) => host::push_state(&mut self.out, &self.board),
            ("L", &[]) => self.list(),
            ("F", &[]) => self.fill(),
            _ => return None,
        }
        Some(())
    }

    fn set_store(&mut self, used: i64, records: i64, axes: i64) -> Option<()> {
        let (used, records, axes) = (half(used)?, half(records)?, byte(axes)?);
        self.board.used = used.into();
        self.board.records = records.into();
        self.board.store_axes = axes;
        Some(())
    }

    /// Makes a call with the lengths of the store, the reply and the table that M, R and U asked for. A table of
    /// another length has the entries of the table as far as it goes, and 0 behind them.
    fn lend<T>(&mut self, call: impl FnOnce(&mut Board, Lent) -> T) -> T {
        let reply = &mut vec![0u8; self.next_reply.take().unwrap_or(32)][..];
        let mut other_store = self.next_store.take().filter(|&n| n != STORE).map(|n| vec![0; n]);
        let mut other_table = self.next_table.take().filter(|&n| n != TABLE).map(|n| {
            let mut entries = self.table.clone();
            entries.resize(n, 0);
            entries
        });
        let store = other_store.as_mut().unwrap_or(&mut self.store);
        let table = other_table.as_mut().unwrap_or(&mut self.table);
        call(&mut self.board, Lent { reply, store, table })
    }

    fn receive(&mut self, byte: u8) {
        let ports = self.ports;
        let answer = self.lend(|board, Lent { reply, store, table }| {
            board.receive(byte, ports, reply, store, table).map(|len| reply[..len].to_vec())
        });
        self.out.extend_from_slice(b"B ");
        match answer {
            Ok(reply) if reply.is_empty() => self.out.push(b'-'),
            Ok(reply) => self.out.extend_from_slice(&reply),
            Err(refusal) => push_decimal(&mut self.out, refusal as i64),
        }
        self.out.push(b'\n');
    }

    fn clock(&mut self) {
        let answer = self.clock_call();
        push_answer(&mut self.out, answer);
    }

    fn clock_call(&mut self) -> Result<Answer, Refusal> {
        self.lend(|board, lent| board.clock(lent.store, lent.table))
    }

    /// At most n clock calls, then one that is tried and taken back, until one is quiet.
    fn run_until_quiet(&mut self, n: u32) {
        let over = (0..n).any(|_| self.tell_call()) || self.would_be_quiet();
        self.more = !over;
        self.out.extend_from_slice(if over { b"Q over\n" } else { b"Q more\n" });
    }

    /// One call of a Q, with the line T where one belongs. Says whether it was quiet.
    fn tell_call(&mut self) -> bool {
        let from = self.board.place;
        let answer = self.clock_call();
        if answer != Ok(Answer::Nothing) {
            push_answer(&mut self.out, answer);
        }
        let quiet = quiet(&answer);
        let pulse = matches!(answer, Ok(Answer::Pulse(_)));
        if !quiet && (!pulse || host::first_of_a_phase(&self.board)) {
            host::push_place(&mut self.out, from, &self.board);
        }
        quiet
    }

    /// Whether one more clock call would be quiet. It may use up what M, R and U lent, and leaves no
    /// other trace: a clock call only reads the store and the table.
    fn would_be_quiet(&mut self) -> bool {
        let before = self.board;
        let answer = self.clock_call();
        self.board = before;
        quiet(&answer)
    }

    /// A letter and a number.
    fn show(&mut self, letter: &str, v: i64) {
        self.out.extend_from_slice(letter.as_bytes());
        self.out.push(b' ');
        push_decimal(&mut self.out, v);
        self.out.push(b'\n');
    }

    fn fill(&mut self) {
        let answer = self.lend(|board, Lent { store, table, .. }| {
            let part = Part { used: board.used, records: board.records, axes: board.store_axes };
            fill(store, part, table)
        });
        match answer {
            Ok(()) => self.show("F", 0),
            Err(refusal) => self.refuse("F", refusal),
        }
    }

    /// A call's letter and its refusal: a number, or the letter G.
    fn refuse(&mut self, letter: &str, refusal: Refusal) {
        match refusal {
            b'G' => self.out.extend_from_slice(format!("{letter} G\n").as_bytes()),
            _ => self.show(letter, refusal.into()),
        }
    }

    fn list(&mut self) {
        let mut text = vec![0u8; TEXT];
        let answer = self.lend(|board, lent| board.list(lent.store, &mut text));
        match answer {
            Ok(len) => {
                for line in text[..len].split_inclusive(|&b| b == 13) {
                    self.out.extend_from_slice(b"L ");
                    self.out.extend_from_slice(&line[..line.len() - 1]);
                    self.out.push(b'\n');
                }
            }
            Err(refusal) => self.refuse("L", refusal),
        }
    }
}

/// A clock call that ends a Q: it answers nothing or is refused.
fn quiet(answer: &Result<Answer, Refusal>) -> bool {
    matches!(answer, Ok(Answer::Nothing) | Err(_))
}

fn push_answer(out: &mut Vec<u8>, answer: Result<Answer, Refusal>) {
    out.extend_from_slice(b"C ");
    match answer {
        Ok(Answer::Pulse(pulse)) => {
            out.extend_from_slice(b"Pulse ");
            out.extend(pulse.signs.map(|s| b"-.+"[(s + 1) as usize]));
            out.push(b' ');
            push_decimal(out, pulse.speed as i64);
        }
        Ok(Answer::Pause) => out.extend_from_slice(b"Pause"),
        Ok(Answer::Send(byte)) => {
            out.extend_from_slice(b"Send ");
            push_decimal(out, byte as i64);
        }
        Ok(Answer::Done) => out.extend_from_slice(b"Done"),
        Ok(Answer::Nothing) => out.extend_from_slice(b"Nothing"),
        Err(refusal) => push_decimal(out, refusal as i64),
    }
    out.push(b'\n');
}

fn number(text: &str) -> Option<i64> {
    whole(text, 10)
}

fn byte(v: i64) -> Option<u8> {
    v.try_into().ok()
}

/// A number of sixteen bits.
pub fn half(v: i64) -> Option<u16> {
    v.try_into().ok()
}

fn lent(n: i64, most: i64) -> Option<usize> {
    (0..=most).contains(&n).then_some(n as usize)
}
