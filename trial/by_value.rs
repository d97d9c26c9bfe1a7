//! The calls by value: each takes the board and hands the next one back, as the proved board's do.
//! `bench/run` measures with them what that form costs in plain Rust.

use crate::board::{Answer, Board, Refusal};
use crate::receive::Ports;

impl Board {
    #[inline(never)]
    pub fn receive_by_value(
        mut self,
        byte: u8,
        ports: Ports,
        reply: &mut [u8],
        store: &mut [u8],
        table: &mut [u16],
    ) -> (Board, Result<usize, Refusal>) {
        let len = self.receive(byte, ports, reply, store, table);
        (self, len)
    }

    #[inline(never)]
    pub fn clock_by_value(mut self, store: &[u8], table: &[u16]) -> (Board, Result<Answer, Refusal>) {
        let answer = self.clock(store, table);
        (self, answer)
    }

    /// A byte as the programs send it: in place, or by value if they are built with `by_value`.
    #[inline]
    pub fn hear(
        &mut self,
        byte: u8,
        ports: Ports,
        reply: &mut [u8],
        store: &mut [u8],
        table: &mut [u16],
    ) -> Result<usize, Refusal> {
        if !cfg!(by_value) {
            return self.receive(byte, ports, reply, store, table);
        }
        let (next, len) = self.receive_by_value(byte, ports, reply, store, table);
        *self = next;
        len
    }

    /// A clock call in the same way.
    #[inline]
    pub fn tick(&mut self, store: &[u8], table: &[u16]) -> Result<Answer, Refusal> {
        if !cfg!(by_value) {
            return self.clock(store, table);
        }
        let (next, answer) = self.clock_by_value(store, table);
        *self = next;
        answer
    }
}
