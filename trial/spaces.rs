//! Spaces at the commas of a line: those that it may not have, and lines that come to 80 bytes by those it may.

use crate::rng::Rng;

/// One thing wrong with a space at a comma, or with the space at the end; a line without a comma gets
/// the latter. A line that had no such fault before is refused with 5.
pub fn misplaced(rng: &mut Rng, line: &str) -> String {
    let commas: Vec<usize> = line.match_indices(',').map(|(at, _)| at).collect();
    if commas.is_empty() || rng.once_in(6) {
        return format!("{line} ");
    }
    let at = rng.pick(&commas);
    let (head, tail) = (&line[..at], line[at + 1..].trim_start_matches(' '));
    match rng.below(6) {
        0 => format!("{head},  {tail}"),
        1 => format!("{head} ,{tail}"),
        2 => format!("{head} , {tail}"),
        3 => format!("{head},{}{tail}", rng.pick(&["\t", " \t", "\t "])),
        4 => format!("{head}, "),
        _ => format!("{head}, ,{tail}"),
    }
}

/// A space after every comma, then zeros before the numbers: so many bytes, or as many as 8 digits to a
/// number allow. The numbers stay the same; they begin at `head`.
pub fn filled(line: &str, head: usize, len: usize) -> String {
    let (head, numbers) = line.split_at(head);
    let mut parts: Vec<String> = numbers.split(',').map(|part| part.trim_start().to_string()).collect();
    let mut left = len.saturating_sub(head.len() + parts.join(", ").len());
    for part in &mut parts {
        let minus = part.starts_with('-') as usize;
        let zeros = left.min((8 + minus).saturating_sub(part.len()));
        part.insert_str(minus, &"0".repeat(zeros));
        left -= zeros;
    }
    head.to_string() + &parts.join(", ")
}
