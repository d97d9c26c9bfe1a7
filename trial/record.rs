//! Records of the store: which are right, their bytes, finding one by the table, and all of them from the front.

use crate::arc;
use crate::number::in_24_bits;

pub const STORE: usize = 16_384;
pub const RECORDS: u32 = 1_000;
pub const MARK: [u8; 2] = [0xD7, 0x2B];

#[derive(Clone, Copy, PartialEq, Eq, Debug)]
pub struct Record {
    pub code: u8,
    pub count: usize,
    pub values: [i32; 8],
}

impl Record {
    pub fn numbers(&self) -> &[i32] {
        &self.values[..self.count]
    }

    /// Bytes that the record takes in the store.
    pub fn length(&self) -> usize {
        4 + 4 * self.count
    }

    pub fn write(&self, place: &mut [u8]) {
        place[..2].copy_from_slice(&MARK);
        place[2] = self.code;
        place[3] = self.count as u8;
        for (bytes, number) in place[4..].chunks_exact_mut(4).zip(self.numbers()) {
            bytes.copy_from_slice(&number.to_le_bytes());
        }
    }
}

/// How many numbers a movement takes: a distance and a speed for each axis, and for z twice where A is not set.
pub fn movement_count(axes: u8) -> Option<usize> {
    match axes {
        1 | 8 => Some(2),
        3 => Some(4),
        7 | 15 => Some(8),
        _ => None,
    }
}

/// How many numbers a code takes under these axes. None: no such code, or never right.
pub fn count_for(code: u8, axes: u8) -> Option<usize> {
    match (code, axes) {
        (b'0' | b'm', _) => movement_count(axes),
        (b'n' | b'z' | b'5' | b'1' | b'e' | b'f', _) => Some(1),
        (b'3' | b'2', _) => Some(2),
        (b'y', _) => Some(7),
        _ => None,
    }
}

/// The reply that refuses these numbers for this code: 3, 1 or D. None: they are right.
/// Their count is right already.
pub fn refusal(code: u8, axes: u8, v: &[i32]) -> Option<u8> {
    let right = match code {
        b'0' | b'm' => return movement_refusal(code == b'm', axes, v),
        b'n' if !mask_right(v[0], axes) => return Some(b'3'),
        b'n' => true,
        b'z' => v[0] == 0 || v[0] == 1,
        b'3' => (0..=32_767).contains(&v[0]) && offset_right(v[1]) && (v[0] == 0 || v[1] <= -1),
        b'5' => (0..=65_535).contains(&v[0]),
        b'1' => (33..=126).contains(&v[0]),
        b'2' => (33..=126).contains(&v[0]) && offset_right(v[1]),
        b'e' => (0..=2).contains(&v[0]),
        b'f' => v[0] == 0 || v[0] == -1,
        b'y' => return stored_arc_refusal(v),
        _ => false,
    };
    (!right).then_some(b'1')
}

/// Some of x, y and z as far as they are set, or A by itself: up to 7 and not above the axes, which have x's part, or
/// 8 where they have A's. So it is read of axes that no board has too, which a host may have kept and a filling of
/// the table meets (D197).
pub fn mask_right(mask: i32, axes: u8) -> bool {
    let below = (1..=7).contains(&mask) && mask <= axes as i32;
    if cfg!(slip_n_other_axes) && movement_count(axes).is_none() {
        return below;
    }
    below && axes & 1 != 0 || mask == 8 && axes & 8 != 0 || cfg!(slip_a_n9) && mask == 9 && axes == 15
}

fn offset_right(v: i32) -> bool {
    (-32_768..=32_767).contains(&v)
}

/// All ranges come before all speeds; an absolute z2 must be 0. With four axes A's target stands in its place.
fn movement_refusal(absolute: bool, axes: u8, v: &[i32]) -> Option<u8> {
    let has_z2 = axes == 7 || axes == 15 && cfg!(slip_a_target_0);
    let z2_right = !has_z2 || !absolute || v[6] == 0;
    if !z2_right || v.iter().step_by(2).any(|&d| !in_24_bits(d)) {
        return Some(b'1');
    }
    v.iter().skip(1).step_by(2).any(|&s| !speed_right(s)).then_some(b'D')
}

/// A stored arc names directions; whether they are those that it needs is asked when it is run.
fn stored_arc_refusal(v: &[i32]) -> Option<u8> {
    if !arc_right(v) || v[5..].iter().any(|d| d.abs() != 1) {
        return Some(b'1');
    }
    (!speed_right(v[1])).then_some(b'D')
}

/// The numbers of an arc but its speed and its directions: length, D and the start.
pub fn arc_right(v: &[i32]) -> bool {
    (0..=arc::LONGEST).contains(&v[0]) && in_24_bits(v[2]) && arc::start_right([v[3], v[4]])
}

pub fn speed_right(v: i32) -> bool {
    (30..=10_000).contains(&v)
}

/// The record at byte `at`, if it is right and lies in the part in use.
#[inline]
pub fn read(store: &[u8], used: usize, axes: u8, at: usize) -> Option<Record> {
    let part = store.get(at..used)?;
    if part.len() < 4 || part[..2] != MARK {
        return None;
    }
    let (code, count) = (part[2], part[3] as usize);
    if count_for(code, axes) != Some(count) {
        return None;
    }
    let bytes = part.get(4..4 + 4 * count)?;
    let mut record = Record { code, count, values: [0; 8] };
    for (value, b) in record.values.iter_mut().zip(bytes.chunks_exact(4)) {
        *value = i32::from_le_bytes([b[0], b[1], b[2], b[3]]);
    }
    refusal(code, axes, record.numbers()).is_none().then_some(record)
}

/// Where the next record starts, for the slips.
fn next(store: &[u8], used: usize, at: usize, record: &Record) -> usize {
    if cfg!(slip_mark_search) {
        let part = store[..used].get(at + 2..).unwrap_or(&[]);
        return part.windows(2).position(|w| w == MARK).map_or(used, |p| at + 2 + p);
    }
    at + record.length()
}

/// The record at a place below 1,000: the one at the byte that the table names, if it is right. Those before it
/// are not looked at.
pub fn find(store: &[u8], used: usize, axes: u8, table: &[u16], place: u32) -> Option<Record> {
    if cfg!(any(slip_mark_search, slip_passed_read)) {
        return find_from_the_front(store, used, axes, place);
    }
    read(store, used, axes, table[place as usize] as usize)
}

/// The slips: the record at a place, if it and all before it are right, whatever the table says.
fn find_from_the_front(store: &[u8], used: usize, axes: u8, place: u32) -> Option<Record> {
    let mut at = 0;
    let mut record = read(store, used, axes, at)?;
    for _ in 0..place {
        at = next(store, used, at, &record);
        record = read(store, used, axes, at)?;
    }
    Some(record)
}

/// Calls `each` with every record. False: the store is not readable.
pub fn walk(store: &[u8], used: usize, axes: u8, records: u32, mut each: impl FnMut(&Record)) -> bool {
    let mut at = 0;
    for _ in 0..records {
        let Some(record) = read(store, used, axes, at) else { return false };
        each(&record);
        at += record.length();
    }
    at == used
}
