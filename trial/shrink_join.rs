//! The records and bytes of a join that may be left out, with numbers that are as much smaller. The lengths of its
//! buffers stay.

/// A record or a byte of one of the stores, in hexadecimal digits, and how much of what is in use it is.
#[derive(Clone, Copy)]
pub struct Piece<'a> {
    side: usize,
    digits: &'a str,
    used: i64,
    records: i64,
}

/// Of one part, how much more its numbers say than its pieces are, and its axes.
struct Side {
    used: i64,
    records: i64,
    axes: i64,
}

pub struct Join<'a> {
    /// What stands before the parts.
    head: &'a str,
    sides: [Side; 2],
    /// The line's end.
    end: &'a str,
}

/// None for another question and for several lines. Numbers with needless zeros lose them.
pub fn parts(lines: &[u8]) -> Option<(Join<'_>, Vec<Piece<'_>>)> {
    let text = std::str::from_utf8(lines).ok()?;
    let line = text.trim_end_matches(['\r', '\n']);
    if line.contains('\n') {
        return None;
    }
    let lengths = match line.split(' ').next()? {
        "join" => 0,
        "lend" => 3,
        _ => return None,
    };
    let (at, _) = line.match_indices(' ').nth(lengths)?;
    let fields: Vec<&str> = line[at + 1..].split(' ').collect();
    let (first, second) = fields.split_at_checked(4)?;
    let (first, mut pieces) = side(0, first.try_into().ok()?)?;
    let (second, more) = side(1, second.try_into().ok()?)?;
    pieces.extend(more);
    Some((Join { head: &line[..at], sides: [first, second], end: &text[line.len()..] }, pieces))
}

fn side(side: usize, [used, records, axes, hex]: [&str; 4]) -> Option<(Side, Vec<Piece<'_>>)> {
    let (mut in_use, mut counted): (i64, i64) = (used.parse().ok()?, records.parse().ok()?);
    let axes = axes.parse().ok()?;
    let mut pieces = Vec::new();
    let mut rest = hex.trim_start_matches('-');
    while !rest.is_empty() {
        let whole = record(rest).filter(|&bytes| counted > 0 && bytes as i64 <= in_use);
        let bytes = whole.unwrap_or(1);
        let (digits, left) = rest.split_at_checked(rest.len().min(2 * bytes))?;
        let piece = Piece { side, digits, used: in_use.min(bytes as i64), records: whole.is_some() as i64 };
        (in_use, counted, rest) = (in_use - piece.used, counted - piece.records, left);
        pieces.push(piece);
    }
    Some((Side { used: in_use, records: counted, axes }, pieces))
}

/// How many bytes the record at the front has by its count; the last of them need not be given.
fn record(digits: &str) -> Option<usize> {
    let count = digits.strip_prefix("d72b")?.get(2..4)?;
    Some(4 + 4 * usize::from_str_radix(count, 16).ok()?)
}

impl Join<'_> {
    pub fn with(&self, pieces: &[Piece]) -> Vec<u8> {
        let parts = [0, 1].map(|side| self.part(side, pieces));
        format!("{} {} {}{}", self.head, parts[0], parts[1], self.end).into_bytes()
    }

    fn part(&self, side: usize, pieces: &[Piece]) -> String {
        let Side { mut used, mut records, axes } = self.sides[side];
        let mut hex = String::new();
        for piece in pieces.iter().filter(|piece| piece.side == side) {
            used += piece.used;
            records += piece.records;
            hex += piece.digits;
        }
        format!("{used} {records} {axes} {}", if hex.is_empty() { "-" } else { &hex })
    }
}
