//! `shrink KIND ONE OTHER`: shortens an input on which two programs differ, and shows what is left.

mod shrink_ask;
mod shrink_join;

use std::io::{self, Read, Write};
use std::process::{Command, Stdio};

/// What a program prints. One that fails is a difference, so the name of its part is added.
fn output(part: &str, program: &str, input: &[u8]) -> io::Result<Vec<u8>> {
    let mut child = Command::new(program).stdin(Stdio::piped()).stdout(Stdio::piped()).spawn()?;
    let mut stdin = child.stdin.take().expect("a pipe was asked for");
    let input = input.to_vec();
    let writer = std::thread::spawn(move || stdin.write_all(&input));
    let mut out = child.wait_with_output()?;
    let _ = writer.join();
    if !out.status.success() {
        out.stdout.extend_from_slice(format!("{part}: {}", out.status).as_bytes());
    }
    Ok(out.stdout)
}

struct Pair<'a> {
    one: &'a str,
    other: &'a str,
}

impl Pair<'_> {
    fn differ(&self, input: &[u8]) -> io::Result<bool> {
        Ok(output("one", self.one, input)? != output("other", self.other, input)?)
    }

    /// Leaves out ever smaller runs of parts as long as the programs still differ on what is put together
    /// from the rest.
    fn shorten<T: Copy>(&self, mut parts: Vec<T>, together: impl Fn(&[T]) -> Vec<u8>) -> io::Result<Vec<u8>> {
        let mut run = parts.len().div_ceil(2);
        while run > 0 {
            let mut at = 0;
            while at < parts.len() {
                let end = (at + run).min(parts.len());
                let fewer = [&parts[..at], &parts[end..]].concat();
                if self.differ(&together(&fewer))? {
                    parts = fewer;
                } else {
                    at = end;
                }
            }
            run /= 2;
        }
        Ok(together(&parts))
    }

    /// Leaves out what a question of `ask` can do without.
    fn shorten_question(&self, line: &[u8]) -> io::Result<Vec<u8>> {
        if let Some((join, pieces)) = shrink_join::parts(line) {
            if self.differ(&join.with(&pieces))? {
                return self.shorten(pieces, |pieces| join.with(pieces));
            }
        }
        let (question, fields) = shrink_ask::parts(line);
        self.shorten(fields, |fields| question.with(fields))
    }

    fn show(&self, input: &[u8]) -> io::Result<()> {
        println!("input: {}", input.escape_ascii());
        let (a, b) = (output("one", self.one, input)?, output("other", self.other, input)?);
        let (a, b) = (String::from_utf8_lossy(&a), String::from_utf8_lossy(&b));
        let (a, b): (Vec<&str>, Vec<&str>) = (a.lines().collect(), b.lines().collect());
        let at = (0..a.len().max(b.len())).find(|&i| a.get(i) != b.get(i)).unwrap_or(0);
        println!("line {}: one {:?}, other {:?}", at + 1, a.get(at), b.get(at));
        Ok(())
    }
}

fn main() -> io::Result<()> {
    let arguments: Vec<String> = std::env::args().collect();
    let [_, kind, one, other] = &arguments[..] else {
        eprintln!("usage: shrink walk|calls|sheet|ask ONE OTHER");
        std::process::exit(2)
    };
    let mut input = Vec::new();
    io::stdin().read_to_end(&mut input)?;
    let pair = Pair { one, other };
    let end = if kind == "walk" { 13 } else { 10 };
    let lines = pair.shorten(input.split_inclusive(|&b| b == end).collect(), |lines| lines.concat())?;
    let shortest = match kind.as_str() {
        "walk" if lines.len() < 2_000 => pair.shorten(lines.chunks(1).collect(), |bytes| bytes.concat())?,
        "ask" => pair.shorten_question(&lines)?,
        _ => lines,
    };
    pair.show(&shortest)
}
