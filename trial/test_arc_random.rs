//! What the circles of generated streams and scripts meet.

use crate::gen_calls;
use crate::gen_walk;
use crate::rng::Rng;
use crate::script::Calls;
use crate::Bench;
use std::collections::BTreeMap;
use trial::arc::Arc;
use trial::board::{Answer, Job};
use trial::motion::{Motion, Point};

/// How often each thing was met.
#[derive(Default)]
struct Met(BTreeMap<String, usize>);

impl Met {
    fn note(&mut self, what: &str) {
        *self.0.entry(what.to_string()).or_default() += 1;
    }

    /// Each of them more often than this.
    fn all_above(&self, least: usize, what: &[&str]) {
        for name in what {
            assert!(self.0.get(*name).is_some_and(|&times| times > least), "{name}: {:?}", self.0);
        }
    }
}

fn under_way(b: &Bench) -> Option<&Arc> {
    match &b.board.job {
        Job::Direct(Motion::Arc(arc)) | Job::Moving(Motion::Arc(arc)) => Some(arc),
        _ => None,
    }
}

/// Whether the two moves of an arc leave the same distance.
fn tie(arc: &Arc, at: &Point) -> bool {
    let axes = arc.turn.axes();
    let [u, v] = [0, 1].map(|a| i64::from(at[axes[a]]) - i64::from(arc.centre[a]));
    let side = if arc.turn.counter { -1 } else { 1 };
    let value: i64 = arc.start.iter().map(|&s| i64::from(s) * i64::from(s)).sum();
    let left = |u: i64, v: i64| (u * u + v * v - value).abs();
    u != 0 && v != 0 && left(u + side * v.signum(), v) == left(u, v - side * u.signum())
}

/// The clock calls behind a byte, as `walk` makes them, but fewer.
fn run(b: &mut Bench, met: &mut Met) {
    for _ in 0..5_000 {
        let (before, place) = (b.board, b.board.place as usize);
        let code = b.store.get(usize::from(*b.table.get(place).unwrap_or(&0)) + 2).copied();
        if under_way(b).is_some_and(|arc| arc.made < arc.length && tie(arc, &b.board.position)) {
            met.note("tie");
        }
        match b.clock() {
            Answer::Nothing => break,
            Answer::Pulse(_) if before.job == Job::Ready && under_way(b).is_some() => met.note("stored arc"),
            Answer::Send(end @ (b'1' | b'3' | b'9')) if code == Some(b'y') => {
                met.note(&format!("program ended by {}", end as char));
            }
            Answer::Done if code == Some(b'y') && b.board.place as usize == place + 1 => {
                met.note("stored, no length")
            }
            _ => {}
        }
    }
}

/// A right state before each byte, and after it and its run.
#[test]
fn generated_arcs() {
    let mut met = Met::default();
    for seed in 0..400 {
        let (mut b, mut stream, mut line) = (Bench::fresh(), Vec::new(), Vec::new());
        gen_walk::stream(&mut Rng::new(seed), 40, &mut stream);
        for byte in stream {
            line.push(byte);
            let idle = b.board.job == Job::Idle && !b.board.standing;
            let reply = b.byte(byte);
            if byte == 13 {
                if idle && line.starts_with(b"@0y") {
                    met.note(&format!("line {}", if reply.is_empty() { "goes" } else { &reply }));
                }
                line.clear();
            }
            if byte == 13 && under_way(&b).is_some_and(|arc| tie(arc, &b.board.position)) {
                met.note("tie at the start");
            }
            run(&mut b, &mut met);
        }
    }
    met.all_above(2_000, &["line goes", "tie", "stored arc"]);
    met.all_above(200, &["line 0", "line 1", "line 3", "line 5", "line 9", "tie at the start"]);
    met.all_above(
        100,
        &["stored, no length", "program ended by 1", "program ended by 3", "program ended by 9"],
    );
    met.all_above(40, &["line D", "line 4", "line 7"]);
}

/// Scripts in which a host alters arcs: what the first clock calls behind that answer.
#[test]
fn generated_altered_arcs() {
    let mut met = Met::default();
    for seed in 0..4_000 {
        let mut script = Vec::new();
        gen_calls::script(&mut Rng::new(seed), 4, &mut script);
        let (mut calls, mut altered) = (Calls::fresh(), None);
        for line in String::from_utf8(script).unwrap().lines() {
            let mut said = Vec::new();
            calls.script(format!("{line}\n").as_bytes(), &mut said).unwrap();
            let said = String::from_utf8(said).unwrap();
            let field = line.strip_prefix("H ").and_then(|rest| rest.split(' ').next());
            let of_an_arc =
                |name: &&str| name.starts_with("arc") || name.starts_with("centre") || *name == "length";
            match field.filter(of_an_arc) {
                Some(name) if !said.contains('?') => altered = Some(name.to_string()),
                _ => {}
            }
            if line.starts_with(['C', 'Q']) && !said.is_empty() {
                let answer = if said.starts_with("C 103") { "refused" } else { "goes on" };
                altered.take().into_iter().for_each(|name| met.note(&format!("{name} {answer}")));
            }
        }
    }
    for name in ["arcspeed", "length", "centre1", "centre2"] {
        met.all_above(30, &[&format!("{name} refused"), &format!("{name} goes on")]);
    }
    met.all_above(30, &["arcturn goes on"]);
}
