//! Spaces after commas: which are right, and that they change neither reply, board nor store.

use crate::damage;
use crate::program::{self, Span, Taste};
use crate::rng::Rng;
use crate::spaces;
use crate::Bench;
use std::collections::BTreeSet;
use trial::board::{Board, Job};

const NEAR: Span = Span { reach: 9, edges: 12 };

#[test]
fn one_space_after_a_comma() {
    let mut b = Bench::with_axes(3);
    for (line, reply) in [
        ("@0A0, 30, 0, 30", "0"),
        ("@0a 0,30, -0,30", "0"),
        ("@0M 0, 0030,0, 30", "0"),
        ("@0B0, 7", "0"),
        ("@0B0, -1", "1"),
        ("@0B 0, 256", "1"),
        ("@0A1, 5, 9000000, 600", "1"),
        ("@0A1, 29, 1, 600", "D"),
        ("@01, 3", "7"),
        ("@0P1, 1", "7"),
        ("@0i 1, 1", "7"),
        ("@0n1, 1", "7"),
        ("@0A1, 30, 1", "7"),
        ("@0A1, 2, 3, 4, 5, 6, 7, 8, 9, 10, 11", "7"),
    ] {
        assert_eq!(b.line(line), reply, "{line}");
    }
    assert_eq!((b.board.axes, b.board.output), (3, 7));
    assert_eq!((b.line("@0A2, 600, -1, 700"), b.answers()), (String::new(), "+-. +.. !0".to_string()));
    b.board.axes = 0;
    assert_eq!(b.line("@0A1, 30") + &b.line("@0S1, 1") + &b.line("@03, 3"), "447");
}

#[test]
fn other_spaces_are_refused() {
    let mut b = Bench::with_axes(3);
    let before = b.board;
    for line in [
        "@0B0,  1",
        "@0B0 ,1",
        "@0B0 , 1",
        "@0B0, ",
        "@0B0, 1 ",
        "@0B0, 1, ",
        "@0B0,\t1",
        "@0B0, \t1",
        "@0B0,\t 1",
        "@0B0,\n1",
        "@0B0,\u{0}1",
        "@0B0, ,1",
        "@0B0,, 1",
        "@0B0,- 1",
        "@0B0, - 1",
        "@0B0, --1",
        "@0B0, +1",
        "@0B0, 123456789",
        "@0B  0, 1",
        "@0B, 0",
        "@0B , 0",
        "@0, 1",
        "@0 1, 3",
        "@01 , 3",
        "@01,  3",
        "@01, 3 ",
        "@0P, 1",
        "@0k, ",
        "@0S ,",
        "@0A0, 30, 0,  30",
        "@0A0 ,30, 0, 30",
        "@0A0, 30, 0, 30 ",
        "@0A0, 30, 0 3, 30",
    ] {
        assert_eq!(b.line(line), "5", "{line:?}");
        assert_eq!(b.board, before, "{line:?}");
    }
}

#[test]
fn other_spaces_while_storing_are_refused() {
    let mut b = Bench::with_axes(3);
    b.line("@0i");
    let (before, store) = (b.board, b.store.clone());
    for line in [
        "3 25,  -1",
        "3 25 ,-1",
        "3 25 , -1",
        "3 25, ",
        "3 25, -1 ",
        "3 25,\t-1",
        "3 25, \t-1",
        "3 25, ,-1",
        "3 25,- 1",
        "3 2 5, -1",
        "3  25, -1",
        "3, 25",
        "3 , 25",
        "9, ",
        "9, 9",
        "0 1, 30, 1 ,30",
        "0 1, 30, 1,  30",
        "2 33 ,1",
    ] {
        assert_eq!(b.line(line), "5", "{line:?}");
    }
    assert_eq!((b.board, b.store), (before, store));
}

#[test]
fn spaces_are_not_stored_or_listed() {
    let plain = ["z1", "3 25,-1", "01,30,-2,40", "m 0,0050,1,60", "233,1"];
    let (a, last) = Bench::with_program(3, &plain);
    let (b, same) =
        Bench::with_program(3, &plain.map(|line| line.replace(',', ", ")).each_ref().map(|l| &l[..]));
    assert_eq!((last.as_str(), same.as_str()), ("0", "0"));
    assert_eq!((b.board, &b.store), (a.board, &a.store));
    assert_eq!(b.listing().unwrap(), "z1\r325,-1\r01,30,-2,40\rm0,50,1,60\r233,1\r9\r");
}

#[test]
fn spaces_count_among_the_80_bytes() {
    let line = |head: &str, len: usize| {
        let text = spaces::filled(&format!("{head}-5,600,0,700,3,800,0,900"), head.len(), len);
        assert_eq!((text.len(), text.matches(", ").count()), (len, 7), "{text}");
        text
    };
    let moves = |text: &str| {
        let mut b = Bench::with_axes(7);
        (b.line(text), b.board.job != Job::Idle, b.board.len, b.board.over)
    };
    assert_eq!(moves(&line("@0A", 80)), (String::new(), true, 0, false));
    assert_eq!(moves(&line("@0A", 81)), ("5".to_string(), false, 0, false));
    assert_eq!(moves(&line("@0A", 81).replacen(", ", ",", 1)), (String::new(), true, 0, false));
    let stores = |text: &str| {
        let mut b = Bench::with_axes(7);
        b.line("@0i");
        (b.line(text), b.board.records)
    };
    assert_eq!(stores(&line("0 ", 80)), ("0".to_string(), 1));
    assert_eq!(stores(&line("0 ", 81)), ("5".to_string(), 0));
    assert_eq!(stores(&line("0 ", 81).replacen(", ", ",", 1)), ("0".to_string(), 1));
}

/// The line with a space after those commas that the bits of `chosen` name, the first by the lowest.
fn at_commas(line: &str, chosen: u64) -> String {
    let mut parts = line.split(',').enumerate();
    let first = parts.next().map_or("", |(_, part)| part).to_string();
    parts.fold(first, |text, (i, part)| {
        text + if chosen >> ((i - 1) % 64) & 1 == 1 { ", " } else { "," } + part
    })
}

#[test]
fn every_choice_of_commas() {
    let mut seen = BTreeSet::new();
    for chosen in 0..128 {
        let mut b = Bench::with_axes(7);
        let line = at_commas("@0A2,600,-1,700,0,800,1,900", chosen);
        assert_eq!((b.line(&line), b.answers()), (String::new(), "+-. +.. ..+ !0".to_string()), "{line}");
        b.line("@0i");
        assert_eq!(b.line(&at_commas("m 2,600,-1,700,3,800,0,900", chosen)), "0", "{chosen}");
        assert_eq!(b.listing().unwrap(), "m2,600,-1,700,3,800,0,900\r9\r");
        seen.insert(line);
    }
    assert_eq!(seen.len(), 128);
}

/// A board after lines, clock calls and perhaps a stop, with no line begun.
fn any_board(rng: &mut Rng) -> Bench {
    let mut b = Bench::fresh();
    b.ports = [0; 4].map(|_| rng.below(256) as u8);
    if rng.once_in(12) {
        return b;
    }
    let axes = rng.pick(&[1, 3, 7, 7]);
    b.line(&format!("@0{axes}"));
    b.line(&format!("@0z{}", rng.below(2)));
    if rng.once_in(2) {
        b.board.position = [rng.between(-9, 9) as i32; 4];
        b.line("@0n1");
    }
    let lines =
        program::sound(rng, &Taste { axes, span: Span { reach: 9, edges: 90 }, waits: true, long: false });
    match rng.below(5) {
        0 => return b,
        1 => {
            b.line("@0i");
            lines.iter().for_each(|line| drop(b.line(line)));
            if rng.once_in(8) {
                b.board.used = 16_380;
            }
            return b;
        }
        2 => drop(b.line(&format!("@0A{}", program::movement(rng, axes, false, NEAR)))),
        _ => {
            b.line("@0i");
            if rng.once_in(2) {
                b.line(&format!("2{},1", rng.pick(b"@0m3")));
            }
            lines.iter().for_each(|line| drop(b.line(line)));
            b.line("9");
            b.line("@0S");
        }
    }
    b.clocks(rng.below(5) as usize);
    if rng.once_in(2) {
        b.byte(253);
    }
    b
}

fn kind(board: &Board) -> &'static str {
    match board.job {
        _ if board.standing => "standing",
        Job::Idle => "idle",
        Job::Storing => "storing",
        Job::Wait(..) => "waiting",
        _ => "running",
    }
}

/// A line with commas for this board, mostly right, without spaces after commas.
fn any_line(rng: &mut Rng, board: &Board) -> String {
    let axes = board.axes.max(1);
    let (other, len) = (rng.pick(&[1, 3, 7]), rng.pick(&[77, 78, 79]));
    let absolute = rng.once_in(3);
    let numbers = match rng.below(12) {
        0 => "1".to_string() + &",1".repeat(rng.below(39) as usize),
        1 => program::movement(rng, other, absolute, NEAR),
        2 => spaces::filled(&program::movement(rng, 7, absolute, NEAR), 0, len).replace(' ', ""),
        3 => program::movement(rng, axes, absolute, NEAR).replacen(',', ",2", 1),
        _ => program::movement(rng, axes, absolute, NEAR),
    };
    let gap = if rng.once_in(3) { " " } else { "" };
    let storing = (board.job == Job::Storing) != rng.once_in(10);
    if storing {
        return match rng.below(4) {
            0 => format!("3{gap}{},{}", rng.below(3), rng.between(-3, 3)),
            1 => format!("2{gap}{},{}", rng.between(32, 127), rng.between(-3, 3)),
            _ => format!("{}{gap}{numbers}", if absolute { 'm' } else { '0' }),
        };
    }
    match rng.below(6) {
        0 => format!("@0B{gap}{},{}", rng.below(2), rng.between(-1, 256)),
        1 => format!("@0{}{gap}{numbers}", rng.pick(&["", "n", "N", "z", "P", "b", "i", "k", "S", "s"])),
        _ => format!("@0{}{gap}{numbers}", rng.pick(if absolute { b"Mm" } else { b"Aa" }) as char),
    }
}

/// Two lines of at most 80 bytes that differ only in spaces after commas, on the same board.
#[test]
fn the_same_reply_board_and_store() {
    let mut rng = Rng::new(8);
    let mut met = BTreeSet::new();
    for _ in 0..20_000 {
        let mut one = any_board(&mut rng);
        let mut other = one.clone();
        let mut line = any_line(&mut rng, &one.board);
        if rng.once_in(5) {
            line = damage::hurt(&mut rng, &line);
        }
        while line.contains(", ") {
            line = line.replace(", ", ",");
        }
        let (some, others) = (rng.bits(), rng.bits());
        let (a, b) = (at_commas(&line, some), at_commas(&line, rng.pick(&[0, u64::MAX, !some, others])));
        if a.len().max(b.len()) > 80 || a == b {
            continue;
        }
        let kind = kind(&one.board);
        assert_eq!((one.board.len, one.board.over), (0, false));
        let replies = (one.line(&a), other.line(&b));
        assert_eq!(replies.0, replies.1, "{kind}: {a:?} {b:?}");
        assert_eq!(one.board, other.board, "{kind}: {a:?} {b:?}");
        assert!(one.store == other.store, "{kind}: {a:?} {b:?}");
        let reply = if replies.0.is_empty() { "none" } else { &replies.0 };
        met.insert(format!("{kind} {reply}"));
        if a.len().max(b.len()) == 80 {
            met.insert(format!("{kind} {reply} at 80 bytes"));
        }
    }
    for (kind, replies) in [
        ("idle", "none,0,1,4,5,7,9,D,none at 80 bytes,7 at 80 bytes"),
        ("storing", "0,1,5,6,7,D,0 at 80 bytes,7 at 80 bytes"),
        ("standing", "5,7,W,W at 80 bytes"),
        ("running", "none,none at 80 bytes"),
        ("waiting", "none,none at 80 bytes"),
    ] {
        for reply in replies.split(',') {
            assert!(met.contains(&format!("{kind} {reply}")), "{kind} {reply} is not met: {met:?}");
        }
    }
}

/// A space elsewhere at a comma, or at the end, is refused with 5 and changes nothing.
#[test]
fn misplaced_spaces_are_refused() {
    let mut rng = Rng::new(9);
    let mut met = BTreeSet::new();
    for _ in 0..10_000 {
        let mut b = any_board(&mut rng);
        let kind = kind(&b.board);
        if matches!(kind, "running" | "waiting") {
            continue;
        }
        let (board, store) = (b.board, b.store.clone());
        let line = any_line(&mut rng, &b.board);
        let line = at_commas(&line, rng.bits());
        let line = spaces::misplaced(&mut rng, &line);
        assert_eq!(b.line(&line), "5", "{kind}: {line:?}");
        assert_eq!(b.board, board, "{kind}: {line:?}");
        assert!(b.store == store, "{kind}: {line:?}");
        met.insert(kind);
    }
    assert_eq!(met.into_iter().collect::<Vec<_>>(), ["idle", "standing", "storing"]);
}
