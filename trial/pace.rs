//! `pace`: makes the calls that its input asks for and counts them, for `bench/run`. It reads at most
//! 65,536 bytes. Byte 0 asks for a listing and byte 1 for 1,000 conversions of the sheet; byte 2 puts the
//! board back to storing the program that it holds, and is no call. Any other is received, and clock calls
//! follow it until one answers nothing.

use std::io::{self, Read};
use trial::board::{Answer, Board, Job, Refusal};
use trial::lister::TEXT;
use trial::record::STORE;
use trial::sheet::{self, Axis, Speed};
use trial::table::TABLE;

const LIMIT: u32 = 100_000;

struct Pace {
    board: Board,
    store: Vec<u8>,
    table: Vec<u16>,
    text: Vec<u8>,
    calls: u64,
    sum: u64,
}

impl Pace {
    fn count(&mut self, calls: u64, sum: u64) {
        self.calls += calls;
        self.sum = self.sum.wrapping_add(sum);
    }

    fn byte(&mut self, byte: u8) {
        match byte {
            0 => self.list(),
            1 => self.convert_all(),
            2 => self.board.job = Job::Storing,
            _ => {
                self.receive(byte);
                self.run();
            }
        }
    }

    fn receive(&mut self, byte: u8) {
        let mut reply = [0u8; 32];
        let len = self.board.hear(byte, [0; 4], &mut reply, &mut self.store, &mut self.table).unwrap_or(0);
        self.count(1, len as u64);
    }

    fn run(&mut self) {
        for _ in 0..LIMIT {
            let weight = match self.tick() {
                Ok(Answer::Pulse(pulse)) => 3 + pulse.speed as u64,
                Ok(Answer::Pause) => 1,
                Ok(Answer::Send(byte)) => 1 + byte as u64,
                Ok(Answer::Done) => 2,
                Ok(Answer::Nothing) | Err(_) => 0,
            };
            self.count(1, weight);
            if weight == 0 {
                return;
            }
        }
    }

    fn tick(&mut self) -> Result<Answer, Refusal> {
        if cfg!(batched) {
            self.board.stride(&self.store, &self.table)
        } else {
            self.board.tick(&self.store, &self.table)
        }
    }

    fn list(&mut self) {
        let len = self.board.list(&self.store, &mut self.text).unwrap_or(0);
        self.count(1, len as u64);
    }

    fn convert_all(&mut self) {
        let mut mm = 0.37;
        for _ in 0..500 {
            let axis = Axis { lead: 1.0 + mm / 7.0, steps: 400.0, gear: 1.5 };
            let distance = sheet::distance(axis, mm);
            let speed = sheet::speed(axis, Speed::MmPerMinute(mm));
            self.count(2, value(distance) + value(speed));
            mm += 11.3;
        }
    }
}

/// What a conversion adds to the sum.
fn value(converted: Result<i32, u8>) -> u64 {
    match converted {
        Ok(value) => (value > 1000) as u64,
        Err(refusal) => refusal as u64,
    }
}

fn main() -> io::Result<()> {
    let (store, table, text) = (vec![0; STORE], vec![0; TABLE], vec![0; TEXT]);
    let mut pace = Pace { board: Board::fresh(), store, table, text, calls: 0, sum: 0 };
    let mut input = Vec::new();
    io::stdin().lock().take(65_536).read_to_end(&mut input)?;
    for &byte in &input {
        pace.byte(byte);
    }
    println!("{} {}", pace.calls, pace.sum);
    Ok(())
}
