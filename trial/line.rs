//! The shape of a line: `@0` lines and storing lines, as a letter and its numbers.

/// All numbers are counted; the first eight are kept, since no line takes more.
#[derive(Clone, Copy, PartialEq, Eq, Debug)]
pub struct Numbers {
    pub count: usize,
    pub values: [i32; 8],
}

/// `letter` is 0 for the line that sets axes; A, M and S are always capitals.
#[derive(Clone, Copy, PartialEq, Eq, Debug)]
pub struct Line {
    pub letter: u8,
    pub numbers: Numbers,
}

const NONE: Numbers = Numbers { count: 0, values: [0; 8] };

/// A line outside storing. None: shape wrong.
pub fn direct(text: &[u8]) -> Option<Line> {
    let rest = text.strip_prefix(b"@0")?;
    let (&head, tail) = rest.split_first()?;
    let letter = match head {
        b'a' => b'A',
        b'm' => b'M',
        b's' => b'S',
        b'A' | b'M' | b'S' | b'n' | b'N' | b'z' | b'P' | b'b' | b'B' | b'i' | b'k' | b'e' | b'f' | b'y' => {
            head
        }
        _ => return Some(Line { letter: 0, numbers: numbers(rest)? }),
    };
    Some(Line { letter, numbers: after_letter(tail)? })
}

/// A line while storing. None: shape wrong.
pub fn storing(text: &[u8]) -> Option<Line> {
    let (&letter, tail) = text.split_first()?;
    match letter {
        b'9' if tail.is_empty() => Some(Line { letter, numbers: NONE }),
        b'0' | b'm' | b'n' | b'z' | b'3' | b'5' | b'1' | b'2' | b'e' | b'f' | b'y' => {
            Some(Line { letter, numbers: after_letter(tail)? })
        }
        _ => None,
    }
}

fn after_letter(tail: &[u8]) -> Option<Numbers> {
    match tail.split_first() {
        None => Some(NONE),
        Some((b' ', list)) => numbers(list),
        Some(_) => numbers(tail),
    }
}

/// One or more numbers parted by commas, with at most one space after each comma: an optional minus
/// and 1 to 8 digits each.
fn numbers(text: &[u8]) -> Option<Numbers> {
    let mut found = NONE;
    let mut parts = text.split(|&b| b == b',').peekable();
    while let Some(part) = parts.next() {
        let part = if found.count > 0 { after_comma(part) } else { part };
        let value = number(before_comma(part, parts.peek().is_some()))?;
        if found.count < 8 {
            found.values[found.count] = value;
        }
        found.count += 1;
    }
    Some(found)
}

/// What stands after a comma, without the space that may come first. A planted slip: two may.
fn after_comma(part: &[u8]) -> &[u8] {
    let rest = part.strip_prefix(b" ").unwrap_or(part);
    match rest.strip_prefix(b" ") {
        Some(less) if cfg!(slip_two_spaces) => less,
        _ => rest,
    }
}

/// What stands before a comma, if one follows, or last. A planted slip: a comma may have a space before it.
fn before_comma(part: &[u8], comma: bool) -> &[u8] {
    match part.strip_suffix(b" ") {
        Some(less) if cfg!(slip_space_before) && comma => less,
        _ => part,
    }
}

fn number(text: &[u8]) -> Option<i32> {
    let (sign, digits) = match text.split_first() {
        Some((b'-', digits)) => (-1, digits),
        _ => (1, text),
    };
    if digits.is_empty() || digits.len() > 8 {
        return None;
    }
    let mut value = 0;
    for &d in digits {
        if !d.is_ascii_digit() {
            return None;
        }
        value = 10 * value + (d - b'0') as i32;
    }
    Some(sign * value)
}
