//! The questions of `ask`: how a line is read, and its answer. See README.md.

use trial::board::{STORE_WRONG, TABLE_WRONG};
use trial::chain::{chain, LONGEST};
use trial::join::{join, Part};
use trial::number::{bytes, push_bytes, push_decimal, whole, word};
use trial::record::STORE;
use trial::sheet::Axis;
use trial::table::TABLE;

/// The longest line that can be read.
const LINE: usize = 70_000;
/// What the entries of a table are before a join.
const NO_ENTRY: u16 = 65_535;

pub fn answers(input: &[u8]) -> Vec<u8> {
    let mut out = Vec::new();
    for line in input.split_inclusive(|&b| b == b'\n') {
        out.extend(answer(without_end(line)).unwrap_or(b"?".to_vec()));
        out.push(b'\n');
    }
    out
}

/// A carriage return belongs to a line's end only where a line feed follows it.
fn without_end(line: &[u8]) -> &[u8] {
    match line.strip_suffix(b"\n") {
        Some(line) => line.strip_suffix(b"\r").unwrap_or(line),
        None => line,
    }
}

/// None: the line can't be read.
fn answer(line: &[u8]) -> Option<Vec<u8>> {
    let text = std::str::from_utf8(line).ok().filter(|text| text.len() <= LINE)?;
    let fields: Vec<&str> = text.split(' ').collect();
    match fields[..] {
        ["chain", lead, steps, gear, n, ref distances @ ..] => {
            chain_answer(axis(lead, steps, gear)?, n, distances)
        }
        ["join", used, records, axes, hex, ref second @ ..] => {
            join_answer(Lent::RIGHT, [used, records, axes, hex], second.try_into().ok()?)
        }
        ["lend", first, second, table, ref rest @ ..] if rest.len() == 8 => {
            let length = |text, right: usize| field(text, right as i64 + 1).map(|n| n as usize);
            let [first, second] = [length(first, STORE)?, length(second, STORE)?];
            let lent = Lent { first, second, table: length(table, TABLE)? };
            join_answer(lent, rest[..4].try_into().ok()?, rest[4..].try_into().ok()?)
        }
        _ => None,
    }
}

fn axis(lead: &str, steps: &str, gear: &str) -> Option<Axis> {
    let float = |text| word(text).map(f64::from_bits);
    Some(Axis { lead: float(lead)?, steps: float(steps)?, gear: float(gear)? })
}

fn number(text: &str) -> Option<i64> {
    whole(text, 19)
}

/// No output is made that is longer than the shortest that fits no chain: all of these are refused alike.
fn chain_answer(axis: Axis, n: &str, distances: &[&str]) -> Option<Vec<u8>> {
    let n = number(n).filter(|&n| n >= 0)?;
    let distances: Vec<i64> = distances.iter().map(|text| number(text)).collect::<Option<_>>()?;
    let mut out = vec![0; n.min(LONGEST as i64 + 1) as usize];
    Some(match chain(axis, &distances, &mut out) {
        Ok(()) => listed(&out),
        Err(refusal) => refusal.to_string().into_bytes(),
    })
}

/// What is delivered, behind the 0 of no refusal.
fn listed(numbers: &[i32]) -> Vec<u8> {
    let mut text = b"0".to_vec();
    for &v in numbers {
        text.push(b' ');
        push_decimal(&mut text, v.into());
    }
    text
}

/// The lengths of the stores of a join's parts, and of its table.
struct Lent {
    first: usize,
    second: usize,
    table: usize,
}

impl Lent {
    const RIGHT: Lent = Lent { first: STORE, second: STORE, table: TABLE };
}

fn join_answer(lent: Lent, first: [&str; 4], second: [&str; 4]) -> Option<Vec<u8>> {
    let (first, mut store) = part(first, lent.first)?;
    let (second, other) = part(second, lent.second)?;
    let mut table = vec![NO_ENTRY; lent.table];
    Some(match join(&mut store, &mut table, first, &other, second) {
        Ok(joined) => in_store(joined, &store, &table),
        Err(refusal @ (STORE_WRONG | TABLE_WRONG)) => refusal.to_string().into_bytes(),
        Err(refusal) => vec![refusal],
    })
}

fn field(text: &str, most: i64) -> Option<i64> {
    number(text).filter(|v| (0..=most).contains(v))
}

/// A part of a join, and its store.
fn part([used, records, axes, hex]: [&str; 4], length: usize) -> Option<(Part, Vec<u8>)> {
    let (used, records) = (field(used, 65_535)? as u32, field(records, 65_535)? as u32);
    Some((Part { used, records, axes: field(axes, 255)? as u8 }, store(hex, length)?))
}

/// What is not given of a store is 0.
fn store(hex: &str, length: usize) -> Option<Vec<u8>> {
    let given = if hex == "-" { Vec::new() } else { bytes(hex).filter(|given| !given.is_empty())? };
    let mut store = vec![0; length];
    store.get_mut(..given.len())?.copy_from_slice(&given);
    Some(store)
}

/// A program, its bytes in use and the entries of its table, behind the 0 of no refusal.
fn in_store(part: Part, store: &[u8], table: &[u16]) -> Vec<u8> {
    let mut text = format!("0 {} {} {} ", part.used, part.records, part.axes).into_bytes();
    match &store[..part.used as usize] {
        [] => text.push(b'-'),
        used => push_bytes(&mut text, used),
    }
    text.push(b' ');
    text.extend(entries(table));
    text
}

/// The entries up to the last that was written.
fn entries(table: &[u16]) -> Vec<u8> {
    let count = table.iter().rposition(|&entry| entry != NO_ENTRY).map_or(0, |last| last + 1);
    if count == 0 {
        return b"-".to_vec();
    }
    let texts: Vec<String> = table[..count].iter().map(u16::to_string).collect();
    texts.join(",").into_bytes()
}
