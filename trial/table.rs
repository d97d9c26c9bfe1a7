//! The table beside the store: the byte at which each record starts.
//!
//! Each stored record writes its own entry, a join those of all its records, and `fill` those of a store that a
//! host has kept. Nothing else writes to it: entries behind the last record stay.

use crate::board::{Refusal, STORE_WRONG, TABLE_WRONG, UNREADABLE};
use crate::join::Part;
use crate::record::{self, RECORDS, STORE};

/// Entries of a table.
pub const TABLE: usize = 1_000;

/// Writes the entries of a program's records, as they are found from the front. A refusal writes nothing.
pub fn fill(store: &[u8], part: Part, table: &mut [u16]) -> Result<(), Refusal> {
    if store.len() != STORE {
        return Err(STORE_WRONG);
    }
    if table.len() != TABLE {
        return Err(TABLE_WRONG);
    }
    if !readable(store, part) {
        return Err(UNREADABLE);
    }
    write_starts(store, part, table);
    Ok(())
}

/// Whether the part in use is exactly its count of right records. Numbers too large for a store are not read by.
fn readable(store: &[u8], part: Part) -> bool {
    let (used, records) = (part.used as usize, part.records);
    used <= STORE && records <= RECORDS && record::walk(store, used, part.axes, records, |_| {})
}

/// Writes where each record of a readable program starts.
pub(crate) fn write_starts(store: &[u8], part: Part, table: &mut [u16]) {
    let (mut place, mut at) = (0, 0);
    record::walk(store, part.used as usize, part.axes, part.records, |r| {
        table[place] = at as u16;
        place += 1;
        at += r.length();
    });
}
