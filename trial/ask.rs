//! `ask`: answers the questions on standard input, a line to each. See README.md.

mod questions;

use std::io::{self, Read, Write};

fn main() -> io::Result<()> {
    let mut input = Vec::new();
    io::stdin().lock().read_to_end(&mut input)?;
    io::stdout().lock().write_all(&questions::answers(&input))
}
