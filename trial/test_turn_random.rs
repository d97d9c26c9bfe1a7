//! What the generated streams and scripts have of the A axis.

use crate::gen_calls;
use crate::gen_walk;
use crate::rng::Rng;
use crate::script::Calls;
use crate::Bench;
use std::collections::BTreeMap;
use trial::board::{Answer, Board, Job};

/// How often something was met.
#[derive(Default)]
struct Met(BTreeMap<String, usize>);

impl Met {
    fn note(&mut self, what: String) {
        *self.0.entry(what).or_default() += 1;
    }

    /// Each of them more often than this.
    fn all_above(&self, least: usize, what: &[&str]) {
        for name in what {
            assert!(self.0.get(*name).is_some_and(|&times| times > least), "{name}: {:?}", self.0);
        }
    }
}

/// The clock calls behind a byte, as `walk` makes them, but fewer.
fn run(b: &mut Bench, met: &mut Met) {
    for _ in 0..2_000 {
        let (job, three, axes) = (b.board.job, b.board.three, b.board.axes);
        match b.clock() {
            Answer::Nothing => return,
            Answer::Pulse(pulse) if pulse.signs[3] != 0 => {
                met.note(format!("A moves with {axes} in {}D", if three { 3 } else { 2 }));
            }
            Answer::Send(b'9') if job == Job::Ready && axes >= 8 => met.note("program ended by 9".into()),
            _ => {}
        }
    }
    b.byte(255);
}

/// 9 to 15 are alike.
fn mask(text: &str) -> &str {
    match text.trim_start().parse() {
        Ok(9..=15) => "9 to 15",
        _ => text,
    }
}

/// What a line without spaces is answered, for axes lines, n, N, movements and S.
fn note(met: &mut Met, before: &Board, line: &[u8], reply: &str) {
    let text = String::from_utf8_lossy(&line[..line.len() - 1]).into_owned();
    let axes = before.axes;
    let reply = if reply.is_empty() { "goes" } else { reply };
    match text.get(..3).unwrap_or("") {
        _ if text == "@08" => met.note(format!("8 with {axes}: {reply}")),
        "@0n" | "@0N" if axes >= 8 => met.note(format!("{} with {axes}: {reply}", mask(&text[3..]))),
        "@0M" | "@0A" if axes >= 8 => met.note(format!("{} with {axes}: {reply}", &text[2..3])),
        "@0y" if axes == 8 => met.note(format!("y alone: {reply}")),
        "@0S" if before.records > 0 => met.note(format!("S {} under {axes}: {reply}", before.store_axes)),
        _ => {}
    }
}

#[test]
fn generated_axes() {
    let mut met = Met::default();
    for seed in 0..400 {
        let (mut b, mut stream, mut line) = (Bench::fresh(), Vec::new(), Vec::new());
        gen_walk::stream(&mut Rng::new(seed), 40, &mut stream);
        for byte in stream {
            let before = b.board;
            if byte < 253 {
                line.push(byte);
            }
            let reply = b.byte(byte);
            if byte == 13 {
                if before.job == Job::Idle {
                    note(&mut met, &before, &line, &reply);
                }
                line.clear();
            }
            run(&mut b, &mut met);
        }
    }
    met.all_above(
        100,
        &["8 with 0: 0", "8 with 7: 0", "8 with 15: 0", "8 with 8: 0", "8 with 3: 3", "8 with 1: 3"],
    );
    met.all_above(40, &["9 to 15 with 15: 3", "1 with 15: 0"]);
    met.all_above(10, &["9 to 15 with 8: 3", "1 with 8: 3", "7 with 8: 3"]);
    met.all_above(
        1_000,
        &["A moves with 8 in 2D", "A moves with 8 in 3D", "A moves with 15 in 2D", "A moves with 15 in 3D"],
    );
    met.all_above(30, &["A with 15: 9", "M with 15: 9", "A with 8: 9", "M with 8: 9", "program ended by 9"]);
    met.all_above(20, &["S 7 under 15: G", "S 15 under 7: G", "y alone: 3"]);
    met.all_above(200, &["S 8 under 8: goes", "S 15 under 15: goes"]);
}

/// Scripts in which a host puts A somewhere or alters its points, by what the clock calls behind that answer.
#[test]
fn generated_hosts() {
    let mut met = Met::default();
    for seed in 0..1_500 {
        let mut script = Vec::new();
        gen_calls::script(&mut Rng::new(seed), 4, &mut script);
        let (mut calls, mut altered) = (Calls::fresh(), None);
        for line in String::from_utf8(script).unwrap().lines() {
            let mut said = Vec::new();
            calls.script(format!("{line}\n").as_bytes(), &mut said).unwrap();
            let said = String::from_utf8(said).unwrap();
            let of_a =
                |name: &&str| ["a", "oa", "axes", "starta", "firsta", "seconda", "thirda"].contains(name);
            match line.strip_prefix("H ").and_then(|rest| rest.split(' ').next()).filter(of_a) {
                Some(name) if !said.contains('?') => altered = Some(name.to_string()),
                _ => {}
            }
            if line.starts_with(['C', 'Q']) && said.starts_with("C ") {
                let answer = if said.starts_with("C 103") { "refused" } else { "goes on" };
                altered.take().into_iter().for_each(|name| met.note(format!("{name} {answer}")));
            }
        }
    }
    for name in ["a", "oa", "axes", "starta", "firsta", "seconda", "thirda"] {
        met.all_above(10, &[&format!("{name} refused"), &format!("{name} goes on")]);
    }
}
