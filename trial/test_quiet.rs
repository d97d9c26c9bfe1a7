//! The lines Q, E and N of a script for `calls`, and the lines T that Q prints.

use crate::program::{self, Span, Taste};
use crate::rng::Rng;
use crate::test_script::{all_right, printed};

/// The bytes of lines for the board, each with its return, as a script.
fn sent(lines: &[&str]) -> String {
    let bytes = lines.iter().flat_map(|line| line.bytes().chain([13]));
    bytes.map(|b| format!("B {b}\n")).collect()
}

/// What a script prints behind these lines for the board, parted by `|`, without the replies to bytes.
fn behind(lines: &[&str], script: &str) -> String {
    let text = printed(format!("{}{}", sent(lines), script.replace('|', "\n")).as_bytes());
    text.lines().filter(|line| !line.starts_with("B ")).collect::<Vec<_>>().join("|")
}

const MOVE: &[&str] = &["@01", "@0A2,600"];
const PROGRAM: &[&str] = &["@01", "@0i", "133", "0 2,600", "5 2", "9", "@0S"];

#[test]
fn the_nothing_that_ends_it_is_not_printed() {
    assert_eq!(behind(&[], "Q 1"), "Q over");
    assert_eq!(behind(&["@01", "@0i"], "Q 100000|Q 4294967295"), "Q over|Q over");
    let wanted = "C Pulse +... 600|T job Direct from 0 place 0 origin 0 0 0 0|C Pulse +... 600|C Send 48|T job Idle from 0 place 0 origin 0 0 0 0|Q over";
    for calls in [3, 4, 5, 100_000, 4_294_967_295u64] {
        assert_eq!(behind(MOVE, &format!("Q {calls}")), wanted, "{calls}");
    }
    assert_eq!(behind(MOVE, "Q 9|C 1"), format!("{wanted}|C Nothing"));
}

#[test]
fn places_behind_all_but_later_pulses() {
    let wanted = "C Send 33|T job Ready from 0 place 1 origin 0 0 0 0|\
        C Pulse +... 600|T job Moving from 1 place 2 origin 0 0 0 0|C Pulse +... 600|\
        C Pause|T job Delay from 2 place 3 origin 0 0 0 0|C Pause|T job Ready from 3 place 3 origin 0 0 0 0|\
        C Send 48|T job Idle from 3 place 0 origin 0 0 0 0|Q over";
    assert_eq!(behind(PROGRAM, "Q 100000"), wanted);
    let phases = behind(&["@07", "@0A0,30,0,31,-2,32,1,33"], "Q 9");
    let wanted = "C Pulse ..-. 32|T job Direct from 0 place 0 origin 0 0 0 0|C Pulse ..-. 32|\
        C Pulse ..+. 33|T job Direct from 0 place 0 origin 0 0 0 0|C Send 48|T job Idle from 0 place 0 origin 0 0 0 0|Q over";
    assert_eq!(phases, wanted);
    let waits = behind(&["@01", "@0i", "n1", "233,-1", "9", "@0S"], "H x -3|Q 9|B 33|Q 1|B 34|Q 9");
    let wanted = "C Done|T job Ready from 0 place 1 origin -3 0 0 0|C Done|T job Wait from 1 place 2 origin -3 0 0 0|Q over|\
        C Done|T job Ready from 0 place 1 origin -3 0 0 0|Q more|\
        C Done|T job Wait from 1 place 2 origin -3 0 0 0|Q over";
    assert_eq!(waits, wanted);
}

/// What each line T tells of these lines for the board and a script: job, place before, place after.
fn places(lines: &[&str], script: &str) -> String {
    let text = behind(lines, script);
    let told = text.split('|').filter_map(|line| line.strip_prefix("T job "));
    let told = told.map(|line| line.split(' ').collect::<Vec<_>>());
    told.map(|field| [field[0], field[2], field[4]].join(" ")).collect::<Vec<_>>().join(", ")
}

#[test]
fn an_answered_wait_leads_elsewhere() {
    let ahead = &["@01", "@0i", "233,2", "134", "135", "9", "@0S"];
    assert_eq!(places(ahead, "Q 9|B 33|Q 9"), "Wait 0 1, Ready 2 3, Idle 3 0");
    assert_eq!(places(ahead, "Q 9|B 32|Q 9"), "Wait 0 1, Ready 1 2, Ready 2 3, Idle 3 0");
    let to_the_end = &["@01", "@0i", "233,3", "134", "135", "9", "@0S"];
    assert_eq!(places(to_the_end, "Q 9|B 33|Q 9"), "Wait 0 1, Idle 3 0");
    let to_itself = &["@01", "@0i", "134", "233,0", "9", "@0S"];
    assert_eq!(places(to_itself, "Q 9|B 33|Q 9"), "Ready 0 1, Wait 1 2, Wait 1 2");
    assert_eq!(places(ahead, "Q 9|H place 2|B 32|Q 1"), "Wait 0 1, Ready 2 3");
}

#[test]
fn later_phases_stay_at_the_next_record() {
    let lines = &["@07", "@0i", "133", "0 1,30,0,31,2,32,-1,33", "0 0,30,0,31,0,32,0,33", "9", "@0S"];
    let wanted = "Ready 0 1, Moving 1 2, Moving 2 2, Moving 2 2, Ready 2 3, Idle 3 0";
    assert_eq!(places(lines, "Q 99"), wanted);
    assert_eq!(places(lines, &"Q 1|".repeat(9)), wanted);
    assert_eq!(places(lines, "C 1|Q 1|B 253|Q 9|B 64|B 48|B 83|B 13|Q 99"), wanted["Ready 0 1, ".len()..]);
}

#[test]
fn a_loop_and_a_jump_go_from_their_own_place() {
    let looped = &["@01", "@0i", "133", "0 1,600", "3 1,-1", "9", "@0S"];
    let wanted = "Ready 0 1, Moving 1 2, Ready 2 1, Moving 1 2, Ready 2 3, Idle 3 0";
    assert_eq!(places(looped, "Q 99"), wanted);
    let jumping = &["@01", "@0i", "3 0,2", "133", "3 0,-1", "9", "@0S"];
    assert_eq!(places(jumping, "Q 5"), "Ready 0 2, Ready 2 1, Ready 1 2, Ready 2 1, Ready 1 2");
}

#[test]
fn made_decides_what_is_a_first_pulse() {
    let again = behind(MOVE, "Q 1|H made 0|H x 0|H place 65535|H oz -8388608|Q 1");
    let wanted = "C Pulse +... 600|T job Direct from 0 place 0 origin 0 0 0 0|Q more|\
        C Pulse +... 600|T job Direct from 65535 place 65535 origin 0 0 -8388608 0|Q more";
    assert_eq!(again, wanted);
    assert_eq!(behind(MOVE, "H made 1|H x 1|Q 1"), "C Pulse +... 600|Q more");
}

#[test]
fn the_call_tried_at_the_end_is_not_kept() {
    let state = "S axes 1 position 0 0 0 0 origin 0 0 0 0 three 0 output 0 used 0 records 0 store_axes 0 job Direct standing 0 loops 0 plane 0 direction 0";
    assert_eq!(behind(MOVE, "S|Q 0|Q 0|S"), format!("{state}|Q more|Q more|{state}"));
    assert!(behind(MOVE, "Q 2|C 2").ends_with("|Q more|C Send 48|C Nothing"));
    assert!(behind(MOVE, "Q 3").ends_with("|Q over"));
    assert!(behind(PROGRAM, "Q 5|S").contains("|Q more|S axes 1 position 2 0 0 "));
    assert_eq!(behind(MOVE, "B 253|Q 0|Q 1"), "Q over|Q over");
    let damaged = behind(PROGRAM, "W 0 0|Q 0|W 0 215|Q 1");
    assert_eq!(damaged, "Q more|C Send 33|T job Ready from 0 place 1 origin 0 0 0 0|Q more");
}

#[test]
fn a_refused_call_ends_it() {
    assert_eq!(behind(MOVE, "H x 1|Q 5|Q 0|H x 0|Q 0"), "C 103|Q over|Q over|Q more");
    assert_eq!(behind(&[], "H axes 2|Q 1|M 0|Q 1|M 0|Q 0"), "C 103|Q over|C 102|Q over|Q over");
}

#[test]
fn what_is_lent_goes_to_the_first_call() {
    assert_eq!(behind(MOVE, "M 0|Q 5|Q 0"), "C 102|Q over|Q more");
    assert_eq!(behind(MOVE, "M 0|Q 0|Q 0"), "Q over|Q more");
    assert_eq!(behind(MOVE, "M 16384|Q 0|M 0|C 0|N 1|Q 1"), "Q more|N 1|C 102|Q over");
    let first = behind(MOVE, "M 16384|R 0|Q 1");
    assert_eq!(first, "C Pulse +... 600|T job Direct from 0 place 0 origin 0 0 0 0|Q more");
    assert_eq!(printed(b"R 0\nQ 0\nB 64\nR 0\nQ 1\nB 64\n"), "Q over\nB -\nQ over\nB -\n");
}

#[test]
fn e_ends_a_script_that_is_not_over() {
    assert_eq!(behind(MOVE, "Q 0|E|S||what|Q 1|N 1"), "Q more");
    assert_eq!(behind(MOVE, "Q 0|B 255|N 1|E|N 2"), "Q more|N 1");
    assert_eq!(behind(MOVE, "E|N 1|Q 0|Q 9|E|N 2").split('|').last(), Some("N 2"));
    assert_eq!(behind(MOVE, "Q 0|B 255|Q 0|E|N 2|E|"), "Q more|Q over|N 2");
    assert_eq!(behind(MOVE, "Q 0|M 0|Q 9|E|N 2"), "Q more|C 102|Q over|N 2");
    let wrong = behind(MOVE, "E 1|Q 0|Q -1|E|N 2");
    assert_eq!(wrong, "? 14|Q more|? 16");
    assert_eq!(printed(b"C 1\nE\nC 1"), "C Nothing\nC Nothing\n");
}

#[test]
fn numbers_of_q_and_n() {
    all_right(&["Q 0", "Q 4294967295", "Q 0000000001", "Q -0", "E", "N 0", "N 4294967295", "N -0"], true);
    all_right(&["Q", "Q -1", "Q 4294967296", "Q 1 1", "Q 00000000001", "q 1", "Q ", "Q x"], false);
    all_right(&["E 0", "E ", "e", "N", "N -1", "N 4294967296", "N 1 1", "N 00000000001", "n 1", "T"], false);
    assert_eq!(printed(b"N 7\nN 0000000012\nN -0\nN 4294967295"), "N 7\nN 12\nN 0\nN 4294967295\n");
}

/// Q in pieces makes the calls that C makes: the same answers in the same order, up to the quiet.
#[test]
fn q_makes_the_calls_of_c() {
    for seed in 0..200 {
        let mut rng = Rng::new(seed);
        let span = Span { reach: 7, edges: 60 };
        let lines = program::sound(&mut rng, &Taste { axes: 7, span, waits: true, long: false });
        let all: Vec<&str> =
            ["@07", "@0i"].into_iter().chain(lines.iter().map(String::as_str)).chain(["9", "@0S"]).collect();
        let piece = rng.between(1, 9) as usize;
        let answers = |script: &str| -> Vec<String> {
            let text = behind(&all, script);
            let kept = text.split('|').filter(|line| line.starts_with("C ") && *line != "C Nothing");
            kept.map(str::to_string).collect()
        };
        let by_q = answers(&format!("Q {piece}|").repeat(300 / piece));
        assert_eq!(by_q, answers(&format!("C {}", 300 / piece * piece)), "{all:?}");
    }
}
