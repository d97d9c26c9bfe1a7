//! `calls`: drives a board call by call from a script on standard input. See README.md.

mod host;
mod script;

use script::Calls;
use std::io::{self, BufWriter, Read, Write};

fn main() -> io::Result<()> {
    let mut script = Vec::new();
    io::stdin().lock().read_to_end(&mut script)?;
    let mut out = BufWriter::with_capacity(1 << 16, io::stdout().lock());
    Calls::fresh().script(&script, &mut out)?;
    out.flush()
}
