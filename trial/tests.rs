//! Hand-worked cases from the paper's sentences, for the trial board alone.
#![cfg(test)]

mod arcs;
mod axes;
mod damage;
mod gen_arc;
mod gen_arc_host;
mod gen_calls;
mod gen_fault;
mod gen_host;
mod gen_join;
mod gen_part;
mod gen_quiet;
mod gen_room;
mod gen_spoil;
mod gen_table;
mod gen_turn;
mod gen_turn_host;
mod gen_walk;
mod host;
mod program;
mod questions;
mod rng;
mod script;
mod shrink_join;
mod spaces;
mod test_arc;
mod test_arc_host;
mod test_arc_lines;
mod test_arc_random;
mod test_ask;
mod test_ask_join;
mod test_batched;
mod test_batched_arc;
mod test_chain;
mod test_check;
mod test_fault;
mod test_host;
mod test_join;
mod test_join_random;
mod test_lines;
mod test_movement;
mod test_quiet;
mod test_random;
mod test_run;
mod test_script;
mod test_sheet;
mod test_shrink;
mod test_spaces;
mod test_stop;
mod test_table;
mod test_table_random;
mod test_turn_random;
mod test_turntable;

use trial::board::{Answer, Board, Refusal};
use trial::motion::A;
use trial::record::STORE;
use trial::table::TABLE;

/// A board with its store and table, driven by text.
#[derive(Clone)]
pub struct Bench {
    pub board: Board,
    pub store: Vec<u8>,
    pub table: Vec<u16>,
    pub ports: [u8; 4],
}

impl Bench {
    pub fn fresh() -> Bench {
        Bench { board: Board::fresh(), store: vec![0; STORE], table: vec![0; TABLE], ports: [0; 4] }
    }

    /// All four axes take two lines.
    pub fn with_axes(axes: u8) -> Bench {
        let mut bench = Bench::fresh();
        for value in if axes == 15 { vec![7, 8] } else { vec![axes] } {
            assert_eq!(bench.line(&format!("@0{value}")), "0");
        }
        bench
    }

    /// A board with a stored program; the last reply is the one to `9`.
    pub fn with_program(axes: u8, lines: &[&str]) -> (Bench, String) {
        let mut bench = Bench::with_axes(axes);
        assert_eq!(bench.line("@0i"), "0");
        for line in lines {
            assert_eq!(bench.line(line), "0", "{line}");
        }
        let last = bench.line("9");
        (bench, last)
    }

    pub fn byte(&mut self, byte: u8) -> String {
        let mut reply = [0; 32];
        let len = self.receive(byte, &mut reply).unwrap();
        reply[..len].iter().map(|&b| b as char).collect()
    }

    pub fn receive(&mut self, byte: u8, reply: &mut [u8]) -> Result<usize, Refusal> {
        self.board.receive(byte, self.ports, reply, &mut self.store, &mut self.table)
    }

    /// Sends a line with its return; all replies of its bytes together.
    pub fn line(&mut self, text: &str) -> String {
        text.bytes().chain([13]).map(|b| self.byte(b)).collect()
    }

    pub fn clock(&mut self) -> Answer {
        self.board.clock(&self.store, &self.table).unwrap()
    }

    pub fn clocks(&mut self, n: usize) {
        for _ in 0..n {
            self.clock();
        }
    }

    /// The answers up to `Nothing`, short: signs for a pulse, `_` pause, `d` done, `!c` sent.
    pub fn answers(&mut self) -> String {
        let mut all = Vec::new();
        while all.len() < 1_000 {
            let answer = self.clock();
            if answer == Answer::Nothing {
                break;
            }
            all.push(short(answer));
        }
        all.join(" ")
    }

    pub fn listing(&self) -> Result<String, u8> {
        let mut text = vec![0; 32_768];
        let len = self.board.list(&self.store, &mut text)?;
        Ok(text[..len].iter().map(|&b| b as char).collect())
    }
}

/// A pulse has three signs, and A's as a fourth if it moves.
pub fn short(answer: Answer) -> String {
    match answer {
        Answer::Pulse(p) => {
            let shown = if p.signs[A] == 0 { 3 } else { 4 };
            p.signs[..shown].iter().map(|s| b"-.+"[(s + 1) as usize] as char).collect()
        }
        Answer::Pause => "_".to_string(),
        Answer::Send(byte) => format!("!{}", byte as char),
        Answer::Done => "d".to_string(),
        Answer::Nothing => "nothing".to_string(),
    }
}

pub fn speed(answer: Answer) -> u16 {
    match answer {
        Answer::Pulse(p) => p.speed,
        _ => panic!("no pulse"),
    }
}
