//! `sheet_main`: converts the sheet's values line by line: `refusal value`. See README.md.

use std::io::{self, Read, Write};
use trial::number::{push_decimal, word};
use trial::sheet::{distance, speed, Axis, Speed};

/// None: the line is wrong.
fn convert(line: &str) -> Option<Result<i32, u8>> {
    let fields: Vec<&str> = line.split(' ').collect();
    let [kind, lead, steps, gear, value] = fields[..] else { return None };
    let float = |text| word(text).map(f64::from_bits);
    let axis = Axis { lead: float(lead)?, steps: float(steps)?, gear: float(gear)? };
    Some(match kind {
        "D" => distance(axis, float(value)?),
        "S" => speed(axis, Speed::MmPerSecond(float(value)?)),
        "M" => speed(axis, Speed::MmPerMinute(float(value)?)),
        "N" => speed(axis, Speed::StepsPerSecond(word(value)? as i64)),
        _ => return None,
    })
}

fn main() -> io::Result<()> {
    let mut bytes = Vec::new();
    io::stdin().lock().read_to_end(&mut bytes)?;
    let text = String::from_utf8_lossy(&bytes);
    let mut out = Vec::new();
    for (i, line) in text.lines().enumerate() {
        match convert(line) {
            Some(result) => {
                push_decimal(&mut out, result.err().unwrap_or(0) as i64);
                out.push(b' ');
                push_decimal(&mut out, result.unwrap_or(0) as i64);
            }
            None => {
                out.extend_from_slice(b"? ");
                push_decimal(&mut out, i as i64 + 1);
            }
        }
        out.push(b'\n');
    }
    io::stdout().lock().write_all(&out)
}
