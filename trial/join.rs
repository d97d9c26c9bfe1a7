//! Two programs as one: a second put behind a first, in the store that holds the first.
//!
//! Offsets count from their own records and so mean the same behind other ones: no byte is altered. The
//! first one's end place is where the second one starts.

use crate::board::{Refusal, STORE_WRONG, TABLE_WRONG};
use crate::check::{check, Verdict};
use crate::record::{self, Record, RECORDS, STORE};
use crate::table::{write_starts, TABLE};

pub const AXES_WRONG: Refusal = b'3';
pub const NOT_ACCEPTED: Refusal = b'G';
pub const NO_ROOM: Refusal = b'6';

/// What is said of a program beside its store: bytes in use, records, and the axes that it was written under.
#[derive(Clone, Copy, PartialEq, Eq, Debug)]
pub struct Part {
    pub used: u32,
    pub records: u32,
    pub axes: u8,
}

/// Changes the bytes behind the first one's to the second one's, writes where every record of the two starts, and
/// answers what is then in use. A refusal leaves the store and the table as they were.
pub fn join(
    store: &mut [u8],
    table: &mut [u16],
    first: Part,
    other: &[u8],
    second: Part,
) -> Result<Part, Refusal> {
    if store.len() != STORE || other.len() != STORE {
        return Err(STORE_WRONG);
    }
    if table.len() != TABLE {
        return Err(TABLE_WRONG);
    }
    let axes = axes(first, second).ok_or(AXES_WRONG)?;
    if cfg!(slip_join_room_first) && !room(first, second) {
        return Err(NO_ROOM);
    }
    let (first, second) = (Part { axes, ..first }, Part { axes, ..second });
    if !accepted(store, first) || !accepted(other, second) || enters(store, first, other, second) {
        return Err(NOT_ACCEPTED);
    }
    if !room(first, second) {
        return Err(NO_ROOM);
    }
    let joined = Part { used: first.used + second.used, records: first.records + second.records, axes };
    let behind = &mut store[first.used as usize..joined.used as usize];
    behind.copy_from_slice(&other[..second.used as usize]);
    if cfg!(slip_join_moved) {
        move_offsets(behind, second, first.records);
    }
    if !cfg!(slip_join_no_table) {
        write_starts(store, joined, table);
    }
    Ok(joined)
}

/// The axes that both parts count as of, if these are the same and allowed. Those of an empty part are not
/// asked beside one with records.
fn axes(first: Part, second: Part) -> Option<u8> {
    let counted = |part: Part, beside: Part| {
        let asked = part.records > 0 || beside.records == 0 || cfg!(slip_join_empty_axes);
        if asked {
            part.axes
        } else {
            beside.axes
        }
    };
    let axes = counted(first, second);
    let allowed = record::movement_count(axes).is_some() && !(cfg!(slip_join_a) && axes >= 8);
    (axes == counted(second, first) && allowed).then_some(axes)
}

/// Whether a program would be accepted at the end line. Numbers too large for a store are not read by.
fn accepted(store: &[u8], part: Part) -> bool {
    part.used as usize <= STORE
        && part.records <= RECORDS
        && check(store, part.used as usize, part.axes, part.records) == Verdict::Accepted
}

/// Whether a jump or wait to the first one's end place would come into a range of the second one.
fn enters(store: &[u8], first: Part, other: &[u8], second: Part) -> bool {
    let leaves = |place: u32, r: &Record| {
        let jump = r.code == b'3' && r.values[0] == 0;
        let wait = r.code == b'2' && !cfg!(slip_join_wait);
        (jump || wait) && named(place, r) == i64::from(first.records)
    };
    let starts = |place: u32, r: &Record| r.code == b'3' && r.values[0] > 0 && named(place, r) == 0;
    any(store, first, leaves) && (any(other, second, starts) || cfg!(slip_join_any_end))
}

/// The place that a record's offset names.
fn named(place: u32, record: &Record) -> i64 {
    i64::from(place) + i64::from(record.values[1])
}

/// Whether something is so of any record of a readable program and its place.
fn any(store: &[u8], part: Part, so: impl Fn(u32, &Record) -> bool) -> bool {
    let (mut place, mut found) = (0, false);
    record::walk(store, part.used as usize, part.axes, part.records, |r| {
        found |= so(place, r);
        place += 1;
    });
    found
}

fn room(first: Part, second: Part) -> bool {
    let within = |one: u32, other: u32, most: u32| u64::from(one) + u64::from(other) <= u64::from(most);
    within(first.used, second.used, STORE as u32) && within(first.records, second.records, RECORDS)
}

/// The slip: offsets made to count from where the second one started before.
fn move_offsets(bytes: &mut [u8], second: Part, by: u32) {
    let (given, mut at) = (bytes.to_vec(), 0);
    record::walk(&given, given.len(), second.axes, second.records, |r| {
        let mut moved = *r;
        if matches!(r.code, b'2' | b'3') {
            moved.values[1] += by as i32;
        }
        moved.write(&mut bytes[at..at + r.length()]);
        at += r.length();
    });
}
