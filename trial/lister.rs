//! The lister: a stored program written as the lines that store it.

use crate::board::{Board, Refusal, TEXT_SHORT, UNREADABLE};
use crate::record;

pub const TEXT: usize = 32_768;

impl Board {
    /// Writes the listing and answers its length; a refused call writes nothing.
    pub fn list(&self, store: &[u8], text: &mut [u8]) -> Result<usize, Refusal> {
        self.callable_without_table(store.len())?;
        if text.len() < TEXT {
            return Err(TEXT_SHORT);
        }
        let (used, axes, records) = (self.used as usize, self.store_axes, self.records);
        if !record::walk(store, used, axes, records, |_| {}) {
            return Err(UNREADABLE);
        }
        let mut len = 0;
        record::walk(store, used, axes, records, |r| {
            len = push(text, len, r.code);
            for (i, &number) in r.numbers().iter().enumerate() {
                if i > 0 {
                    len = push(text, len, b',');
                }
                len = push_number(text, len, number);
            }
            len = push(text, len, 13);
        });
        len = push(text, len, b'9');
        Ok(push(text, len, 13))
    }
}

#[inline]
fn push(text: &mut [u8], len: usize, byte: u8) -> usize {
    text[len] = byte;
    len + 1
}

fn push_number(text: &mut [u8], len: usize, number: i32) -> usize {
    let mut digits = [0u8; 10];
    let mut first = digits.len();
    let mut left = number.unsigned_abs();
    while first == digits.len() || left > 0 {
        first -= 1;
        digits[first] = b'0' + (left % 10) as u8;
        left /= 10;
    }
    let start = if number < 0 { push(text, len, b'-') } else { len };
    let end = start + digits.len() - first;
    text[start..end].copy_from_slice(&digits[first..]);
    end
}
