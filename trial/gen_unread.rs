//! Lines for `ask` that cannot be read, or only just: chains, and what is the same for every question.

use crate::rng::Rng;

/// A question with something wrong in it, or with something rare that is right.
pub fn line(rng: &mut Rng, mut fields: Vec<String>) -> Vec<u8> {
    match rng.below(20) {
        0..=1 => {
            fields[0] = rng.pick(&["chains", "Chain", "CHAIN", "chai", "", "chain\t", "0", "?"]).to_string()
        }
        2..=5 => pattern(rng, &mut fields),
        6..=9 => number(rng, &mut fields),
        10..=11 => missing(rng, &mut fields),
        12..=15 => return spaces(rng, &fields),
        16..=17 => return odd_byte(rng, &fields),
        18 => return rng.pick(&["", " ", "\r", "?", "0", "chain", "chain ", "\u{e9}"]).as_bytes().to_vec(),
        _ if rng.once_in(6) => return long(rng, &fields),
        _ => fields.truncate(5),
    }
    fields.join(" ").into_bytes()
}

/// A pattern that is none, or one of no axis.
fn pattern(rng: &mut Rng, fields: &mut [String]) {
    let field = &mut fields[rng.between(1, 3) as usize];
    match rng.below(7) {
        0 => *field = "3FF0000000000000".to_string(),
        1 => *field = field.to_uppercase(),
        2 => drop(field.pop()),
        3 => *field += rng.pick(&["0", "g", ".", "00000000000000000"]),
        4 => field.replace_range(0..1, rng.pick(&["g", "-", "+", "x", "", "00"])),
        5 => *field = rng.pick(&["0x3ff0000000000", "1", "-1", "1.0", "nan", ""]).to_string(),
        _ => {
            let bits = rng.pick(&[1, 1 << 63, 0x7ff0_0000_0000_0000, 0x7ff0_0000_0000_0001, u64::MAX]);
            *field = format!("{bits:016x}");
        }
    }
}

/// The number of the output or a distance.
fn number(rng: &mut Rng, fields: &mut [String]) {
    let last = fields.len() as i64 - 1;
    let at = if rng.once_in(2) { 4 } else { rng.between(4, last) };
    fields[at as usize] = odd_number(rng);
}

/// A number at the ends of 64 bits or of 19 digits, or a text that is none.
pub fn odd_number(rng: &mut Rng) -> String {
    rng.pick(&[
        "9223372036854775807",
        "9223372036854775808",
        "-9223372036854775808",
        "-9223372036854775809",
        "9999999999999999999",
        "-9999999999999999999",
        "18446744073709551617",
        "0000000000000000001",
        "-0000000000000000001",
        "00000000000000000001",
        "-00000000000000000001",
        "00000000000000000000",
        "+1",
        "-1",
        "-0",
        "-",
        "--1",
        "1-",
        "1.0",
        "1e3",
        "1,000",
        "1_000",
        "0x1",
        "a",
        "",
        "\u{663}",
    ])
    .to_string()
}

/// One field fewer or one more.
pub fn missing(rng: &mut Rng, fields: &mut Vec<String>) {
    let at = rng.below(fields.len() as u64) as usize;
    match rng.below(4) {
        0 => fields.truncate(rng.between(1, 4) as usize),
        1 => drop(fields.remove(rng.below(5) as usize)),
        2 => drop(fields.remove(at)),
        _ => fields.insert(at + 1, fields[at].clone()),
    }
}

/// A space too many, or something else where one belongs.
pub fn spaces(rng: &mut Rng, fields: &[String]) -> Vec<u8> {
    let at = rng.between(1, fields.len() as i64 - 1) as usize;
    let (head, tail) = (fields[..at].join(" "), fields[at..].join(" "));
    match rng.below(6) {
        0..=1 => format!("{head}  {tail}"),
        2 => format!(" {head} {tail}"),
        3 => format!("{head} {tail}{}", rng.pick(&[" ", " ", "\t", "  ", "\r", "\r\r"])),
        4 => format!("{head}\t{tail}"),
        _ => format!("{head}{}{tail}", rng.pick(&["", ",", ", ", " \t", "\u{a0}", "\r"])),
    }
    .into_bytes()
}

/// One byte more, fewer or another.
pub fn odd_byte(rng: &mut Rng, fields: &[String]) -> Vec<u8> {
    let mut line = fields.join(" ").into_bytes();
    let at = rng.below(line.len() as u64) as usize;
    let byte = rng.pick(b" -+0159afAFx\t\r\0\x7f\x80\xa0\xb1\xff");
    match rng.below(4) {
        0 => line.insert(at, byte),
        1 => drop(line.remove(at)),
        2 => line[at] = byte,
        _ => line.push(byte),
    }
    line
}

/// A line of about 70,000 bytes: of numbers that can be read, or with a question at its end.
fn long(rng: &mut Rng, fields: &[String]) -> Vec<u8> {
    let length = rng.pick(&[69_999, 70_000, 70_000, 70_001, 70_001, 70_002, 140_002]);
    if rng.once_in(4) {
        let filling = rng.pick(&[" ", "0", "x"]).repeat(length);
        return (filling + &fields.join(" ")).into_bytes();
    }
    let mut line = fields[..5].join(" ");
    line += &" 0".repeat((length - line.len()) / 2);
    line += &"0".repeat(length - line.len());
    line += rng.pick(&["", "\r"]);
    line.into_bytes()
}
