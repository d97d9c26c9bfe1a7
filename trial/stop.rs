//! `stop`: the stop trial. `stop emit SEED COUNT` writes a script for `calls`: each movement or
//! program once unstopped and once with stops; `stop check COUNT` compares the two in what `calls` printed.

mod arcs;
mod axes;
mod program;
mod rng;

use program::{Span, Taste};
use rng::Rng;
use std::io::{self, Read, Write};
use trial::board::{Board, Job};
use trial::record::STORE;
use trial::table::TABLE;

/// Answers followed of a run; one without end is compared as far as this.
const FOLLOWED: u64 = 400;

/// A board that is driven while the same calls are written as a script.
struct Guide {
    board: Board,
    store: Vec<u8>,
    table: Vec<u16>,
    out: Vec<u8>,
}

impl Guide {
    fn byte(&mut self, v: u8) {
        let _ = self.board.receive(v, [0; 4], &mut [0; 32], &mut self.store, &mut self.table);
        let _ = writeln!(self.out, "B {v}");
    }

    fn line(&mut self, text: &str) {
        for c in text.chars() {
            self.byte(c as u8);
        }
        self.byte(13);
    }

    fn clocks(&mut self, n: u32) {
        for _ in 0..n {
            let _ = self.board.clock(&self.store, &self.table);
        }
        let _ = writeln!(self.out, "C {n}");
    }

    /// A call that is lent a buffer of another length: it is refused and changes nothing.
    fn refused(&mut self, rng: &mut Rng) {
        let lent = rng.pick(&["U 0", "U 999", "U 1001", "U 2000", "M 16383", "M 16385"]);
        let call = rng.pick(&["C 1", "C 1", "B 13", "B 33", "B 64", "B 253", "B 254", "B 255"]);
        let _ = writeln!(self.out, "{lent}\n{call}");
    }

    /// The entries of the stored program's records, and the last of the table.
    fn show_table(&mut self) {
        for at in (0..self.board.records).chain([TABLE as u32 - 1]) {
            let _ = writeln!(self.out, "V {at}");
        }
    }

    fn clock_to_end(&mut self) {
        while self.board.running() {
            self.clocks(1);
        }
    }

    /// Brings the board to where the case starts, the same for both runs.
    fn set_up(&mut self, case: &Case) {
        self.byte(254);
        self.line("@0k");
        for line in &case.lines {
            self.line(line);
            self.clock_to_end();
        }
    }
}

/// The lines before it, the line that starts it, and what arrives at its waits.
struct Case {
    lines: Vec<String>,
    start: String,
    answers: Vec<u8>,
}

fn case(rng: &mut Rng) -> Case {
    let axes = axes::any(rng);
    let span = Span { reach: rng.pick(&[3, 9, 9, 40]), edges: 100 };
    let direction = arcs::direction(rng);
    let mut lines = axes::lines(axes);
    lines.extend([format!("@0z{}", rng.below(2)), format!("@0B0,{}", rng.below(256))]);
    lines.push(format!("@0e{}", arcs::plane(rng, axes)));
    lines.push(format!("@0f{direction}"));
    if rng.once_in(2) {
        let near = Span { reach: 9, edges: u64::MAX };
        lines.push(format!("@0A{}", program::movement(rng, axes, false, near)));
        lines.extend(axes::masks(axes).iter().map(|mask| format!("@0n{mask}")));
    }
    let answers = (0..16).map(|_| rng.between(33, 41) as u8).collect();
    if rng.once_in(3) {
        let absolute = rng.once_in(3);
        let letter = if absolute { 'M' } else { 'A' };
        let start = format!("@0{letter}{}", program::movement(rng, axes, absolute, span));
        return Case { lines, start: program::spaced(rng, start), answers };
    }
    if axes::turns(axes) && rng.once_in(4) {
        let start = format!("@0y{}", arcs::arc(rng, span, direction));
        return Case { lines, start: program::spaced(rng, start), answers };
    }
    let taste = Taste { axes, span, waits: true, long: false };
    lines.push("@0i".to_string());
    lines.extend(program::sound(rng, &taste));
    lines.push("9".to_string());
    Case { lines, start: "@0S".to_string(), answers }
}

/// Runs the case; `stops` is how rare a stop is, none if it is 0.
fn run(guide: &mut Guide, case: &Case, rng: &mut Rng, stops: u64) {
    guide.set_up(case);
    guide.line(&case.start);
    let mut waits = 0;
    let mut followed = 0;
    while followed < FOLLOWED && guide.board.job != Job::Idle {
        if stops > 0 && rng.once_in(stops) {
            stand(guide, rng);
        }
        if stops > 0 && rng.once_in(4 * stops) {
            guide.refused(rng);
        }
        if let Job::Wait(..) = guide.board.job {
            guide.byte(case.answers[waits % case.answers.len()]);
            waits += 1;
        }
        guide.clocks(1);
        followed += 1;
    }
    let _ = guide.out.write_all(b"L\n");
    guide.show_table();
    let _ = guide.out.write_all(b"S\n");
    guide.byte(255);
    let _ = guide.out.write_all(b"S\n");
}

/// A stop; if it holds: anything but break and reset, these too where the call is refused, then a start that is
/// accepted.
fn stand(guide: &mut Guide, rng: &mut Rng) {
    guide.byte(253);
    if !guide.board.standing {
        return;
    }
    for _ in 0..rng.below(4) {
        match rng.below(10) {
            0 => guide.byte(253),
            1 => guide.clocks(1),
            2 => guide.byte(rng.below(253) as u8),
            3 => (0..90).for_each(|_| guide.byte(b'1')),
            4 => guide.line(rng.pick(&["@0P", "@0b0", "@0S1", "@0b9", "5", "", "@0S1, 1", "@0P ,1", "@0E1"])),
            8 => {
                guide.line(rng.pick(&["@0y4,600,0,2,0,-1,-1", "@0y0,600,0,0,1,1,-1", "@0f0", "@0e0", "@0y"]))
            }
            5 => guide.line(rng.pick(&[
                "@07", "@08", "@0k", "@0i", "@0N1", "@0N8", "@0n8", "@0z1", "@0z0", "@0B0, 9", "@0e2",
            ])),
            6 => guide.line(rng.pick(&[
                "@0A5, 600",
                "@0M1,600,2, 700",
                "@0A1,30,1,30,1,30,1,30",
                "9",
                "@0f-1",
            ])),
            7 => guide.refused(rng),
            _ => guide.clocks(3),
        }
    }
    if guide.board.len > 0 || guide.board.over {
        guide.byte(13);
    }
    if guide.board.standing {
        guide.line("@0S");
    }
}

fn emit(seed: u64, count: u64) -> io::Result<()> {
    let mut rng = Rng::new(seed);
    let (store, table) = (vec![0; STORE], vec![0; TABLE]);
    let mut guide = Guide { board: Board::fresh(), store, table, out: Vec::new() };
    for _ in 0..count {
        let case = case(&mut rng);
        run(&mut guide, &case, &mut rng, 0);
        let stops = rng.pick(&[1, 2, 5, 20]);
        run(&mut guide, &case, &mut rng, stops);
        io::stdout().write_all(&guide.out)?;
        guide.out.clear();
    }
    Ok(())
}

/// Pulses and sent characters of one run, its listing, its table, and its state at the end, also after break.
/// All of COUNT runs must be there.
fn check(count: usize) -> io::Result<()> {
    let mut text = String::new();
    io::stdin().lock().read_to_string(&mut text)?;
    let mut runs: Vec<Vec<&str>> = vec![Vec::new()];
    let mut states = 0;
    for line in text.lines() {
        let kept =
            line.starts_with("C Pulse") || line.starts_with("C Send") || line.starts_with(['L', 'S', 'V']);
        if kept {
            runs.last_mut().unwrap().push(line);
        }
        states += line.starts_with('S') as usize;
        if line.starts_with('S') && states % 2 == 0 {
            runs.push(Vec::new());
        }
    }
    runs.pop();
    let pairs: Vec<&[Vec<&str>]> = runs.chunks(2).collect();
    let wrong = pairs.iter().position(|pair| pair.len() < 2 || pair[0] != pair[1]);
    let answers: usize = runs.iter().map(Vec::len).sum();
    let bytes: usize = runs.iter().flatten().map(|line| line.len() + 1).sum();
    println!("stop: {} runs twice, {} lines, {} bytes compared", pairs.len(), answers / 2, bytes / 2);
    if pairs.len() != count || count == 0 {
        println!("stop: {count} runs were given");
        std::process::exit(1);
    }
    if let Some(at) = wrong {
        println!("stop: run {at} differs when stopped");
        show(pairs[at]);
        std::process::exit(1);
    }
    Ok(())
}

fn show(pair: &[Vec<&str>]) {
    let empty = Vec::new();
    let (a, b) = (&pair[0], pair.get(1).unwrap_or(&empty));
    let at = (0..a.len().max(b.len())).find(|&i| a.get(i) != b.get(i)).unwrap_or(0);
    println!("  answer {at}: unstopped {:?}, stopped {:?}", a.get(at), b.get(at));
}

fn main() -> io::Result<()> {
    let arguments: Vec<String> = std::env::args().skip(1).collect();
    match arguments.iter().map(String::as_str).collect::<Vec<_>>()[..] {
        ["emit", seed, count] => match (seed.parse(), count.parse()) {
            (Ok(seed), Ok(count)) => emit(seed, count),
            _ => std::process::exit(2),
        },
        ["check", count] => match count.parse() {
            Ok(count) => check(count),
            _ => std::process::exit(2),
        },
        _ => {
            eprintln!("usage: stop emit SEED COUNT | stop check COUNT");
            std::process::exit(2)
        }
    }
}
