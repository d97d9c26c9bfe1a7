//! `walk`: what a board does with standard input, as text, with a clock that runs after each byte.

use std::io::{self, Read, Write};
use trial::board::{Answer, Board};
use trial::motion::Pulse;
use trial::number::push_decimal;
use trial::record::STORE;
use trial::table::TABLE;

const LIMIT: u32 = 100_000;
const PORTION: usize = 1 << 16;

struct Walk {
    board: Board,
    store: Vec<u8>,
    table: Vec<u16>,
    out: Vec<u8>,
}

impl Walk {
    /// Takes one byte and lets the clock run. False: the run isn't over at the limit.
    fn byte(&mut self, byte: u8) -> io::Result<bool> {
        let mut reply = [0u8; 32];
        let received = self.board.hear(byte, [0; 4], &mut reply, &mut self.store, &mut self.table);
        self.reply(&reply[..received.unwrap_or(0)]);
        let calls = self.run()?;
        if calls == LIMIT && self.board.running() {
            self.out.extend_from_slice(b"L 100000\n");
            return Ok(false);
        }
        self.flush_if_full()?;
        Ok(true)
    }

    /// Clock calls until idle, storing, stopped or waiting, at most the limit; says how many.
    fn run(&mut self) -> io::Result<u32> {
        let mut calls = 0;
        while calls < LIMIT && self.board.running() {
            let Ok(answer) = self.board.tick(&self.store, &self.table) else { break };
            calls += 1;
            match answer {
                Answer::Pulse(pulse) => push_pulse(&mut self.out, pulse, self.board.axes),
                Answer::Send(byte) => self.reply(&[byte]),
                Answer::Pause | Answer::Done | Answer::Nothing => {}
            }
            self.flush_if_full()?;
            if cfg!(batched) && matches!(answer, Answer::Pulse(_)) {
                calls += self.glide(LIMIT - calls)?;
            }
        }
        Ok(calls)
    }

    /// The pulses that are left of the phase, at most so many and until the portion is full; says how many.
    fn glide(&mut self, most: u32) -> io::Result<u32> {
        let (out, axes) = (&mut self.out, self.board.axes);
        let made = self.board.glide(most, |pulse| {
            push_pulse(out, pulse, axes);
            out.len() < PORTION
        });
        self.flush_if_full()?;
        Ok(made)
    }

    fn reply(&mut self, reply: &[u8]) {
        if !reply.is_empty() {
            self.out.extend_from_slice(b"R ");
            self.out.extend_from_slice(reply);
            self.out.push(b'\n');
        }
    }

    fn flush_if_full(&mut self) -> io::Result<()> {
        if self.out.len() >= PORTION {
            self.flush()?;
        }
        Ok(())
    }

    fn flush(&mut self) -> io::Result<()> {
        io::stdout().write_all(&self.out)?;
        self.out.clear();
        Ok(())
    }

    fn end(&mut self) -> io::Result<()> {
        self.out.push(b'E');
        for &v in &self.board.position[..shown(self.board.axes)] {
            self.out.push(b' ');
            push_decimal(&mut self.out, v as i64);
        }
        self.out.push(b'\n');
        self.flush()?;
        io::stdout().flush()
    }
}

/// How many signs and positions are printed: A's too while it is set.
#[inline]
fn shown(axes: u8) -> usize {
    if axes & 8 == 0 || axes == 8 && cfg!(slip_a_not_shown) {
        3
    } else {
        4
    }
}

#[inline]
fn push_pulse(out: &mut Vec<u8>, pulse: Pulse, axes: u8) {
    let signs = pulse.signs.map(|s| b"-.+"[(s + 1) as usize]);
    out.extend_from_slice(b"P ");
    out.extend_from_slice(&signs[..shown(axes)]);
    out.push(b' ');
    push_decimal(out, pulse.speed as i64);
    out.push(b'\n');
}

fn main() -> io::Result<()> {
    let (store, table) = (vec![0; STORE], vec![0; TABLE]);
    let mut walk = Walk { board: Board::fresh(), store, table, out: Vec::with_capacity(PORTION + 64) };
    walk.out.extend_from_slice(b"walk\n");
    let mut portion = vec![0u8; PORTION];
    'all: loop {
        let got = io::stdin().lock().read(&mut portion)?;
        if got == 0 {
            break;
        }
        let mut left = portion[..got].iter();
        while let Some(&byte) = left.next() {
            if !walk.byte(byte)? {
                break 'all;
            }
            if cfg!(batched) {
                let taken = walk.board.take(left.as_slice(), walk.store.len(), walk.table.len());
                left = left.as_slice()[taken..].iter();
            }
        }
    }
    walk.end()
}
