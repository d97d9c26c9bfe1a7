//! Programs that run: calls, loops, jumps, waits, delays, endings.

use crate::Bench;
use trial::board::{Answer, Board, Job};

fn run(axes: u8, lines: &[&str]) -> String {
    let (mut b, last) = Bench::with_program(axes, lines);
    assert_eq!(last, "0");
    assert_eq!(b.line("@0S"), "");
    b.answers()
}

#[test]
fn a_loop_runs_its_record_once_more() {
    let answers = run(1, &["0 1,600", "3 25,-1"]);
    assert_eq!(answers.matches('+').count(), 26);
    assert_eq!(answers.matches('d').count(), 26);
    assert!(answers.ends_with("d !0"));
}

#[test]
fn backward_offsets_reach_the_whole_pattern() {
    assert_eq!(run(1, &["133", "134", "3 1,-2"]), "!! !\" d !! !\" d !0");
}

#[test]
fn nested_loops() {
    assert_eq!(run(1, &["133", "3 1,-1", "134", "3 1,-3"]), "!! d !! d !\" d !! d !! d !\" d !0");
}

#[test]
fn a_jump_counts_from_its_own_record() {
    assert_eq!(run(1, &["3 0,5", "133", "134", "135", "136", "137"]), "d !% !0");
    assert_eq!(run(1, &["3 0,2", "133"]), "d !0");
}

#[test]
fn records_without_pulse_or_pause() {
    assert_eq!(run(1, &["0 0,600", "m0,30", "n1", "z1", "5 0"]), "d d d d d !0");
}

#[test]
fn delays() {
    assert_eq!(run(1, &["5 1", "133", "5 3"]), "_ !! _ _ _ !0");
}

#[test]
fn movement_needs_no_call_before_or_after() {
    assert_eq!(run(1, &["0 2,600", "0-1,600"]), "+.. +.. -.. !0");
}

#[test]
fn settings_take_effect_when_run() {
    let (mut b, _) =
        Bench::with_program(7, &["z1", "0 1,100,0,200,1,300,1,400", "n7", "m-1,100,0,200,0,300,0,400"]);
    b.line("@0S");
    assert_eq!(b.answers(), "d +.+ d -.. !0");
    assert_eq!((b.board.three, b.board.origin, b.board.position), (true, [1, 0, 1, 0], [0, 0, 1, 0]));
}

#[test]
fn nine_when_the_record_is_run() {
    let (mut b, _) = Bench::with_program(1, &["0 1,600", "0 8388607,600"]);
    b.line("@0S");
    assert_eq!(b.answers(), "+.. !9");
    assert_eq!((b.board.position[0], b.board.records, b.board.place), (1, 2, 0));
    b.line("@0N1");
    b.line("@0S");
    assert_eq!(b.answers(), "+.. !9");
}

#[test]
fn waits() {
    let lines = ["233,2", "134", "135"];
    for (byte, answers) in
        [(33, "!# !0"), (34, "!\" !# !0"), (13, "!\" !# !0"), (0, "!\" !# !0"), (252, "!\" !# !0")]
    {
        let (mut b, _) = Bench::with_program(1, &lines);
        b.line("@0S");
        assert_eq!(b.answers(), "d");
        assert_eq!(b.byte(253), "");
        assert_eq!(b.board.job, Job::Wait(33, 2));
        assert_eq!(b.byte(byte), "");
        assert_eq!(b.board.len, 0);
        assert_eq!(b.answers(), answers);
    }
}

#[test]
fn break_in_a_wait_and_a_delay() {
    for line in ["233,0", "5 9", "0 9,600"] {
        let (mut b, _) = Bench::with_program(1, &[line]);
        b.line("@0S");
        b.clock();
        assert_eq!(b.byte(255), "F");
        assert_eq!((b.board.job, b.board.place, b.answers().as_str()), (Job::Idle, 0, ""));
        assert_eq!(b.byte(255), "");
    }
}

#[test]
fn bytes_are_dropped_while_running() {
    let (mut b, _) = Bench::with_program(1, &["0 3,600"]);
    b.line("@0S");
    assert_eq!(b.line("@0P"), "");
    b.clock();
    assert_eq!(b.line("@0k"), "");
    assert_eq!((b.board.len, b.board.records), (0, 1));
    assert_eq!(b.answers(), "+.. +.. !0");
}

#[test]
fn starting() {
    let (mut b, _) = Bench::with_program(1, &["133"]);
    b.line("@03");
    assert_eq!(b.line("@0S"), "G");
    b.line("@01");
    assert_eq!(b.line("@0S"), "");
    assert_eq!(b.answers(), "!! !0");
    b.line("@0k");
    b.line("@03");
    assert_eq!(b.line("@0S"), "8");
    let (mut b, last) = Bench::with_program(3, &[]);
    assert_eq!((last.as_str(), b.board.store_axes), ("0", 3));
    assert_eq!(b.line("@0S"), "8");
}

#[test]
fn reset_keeps_the_store_unless_storing() {
    let (mut b, _) = Bench::with_program(7, &["z1"]);
    b.line("@0B0,7");
    assert_eq!(b.byte(254), "");
    let kept = Board { used: 8, records: 1, store_axes: 7, ..Board::fresh() };
    assert_eq!(b.board, kept);
    b.line("@07");
    b.line("@0i");
    b.line("133");
    b.byte(254);
    assert_eq!(b.board, Board::fresh());
    assert_eq!(b.store[..3], [0xD7, 0x2B, b'1']);
}

#[test]
fn clock_when_nothing_runs() {
    let mut b = Bench::with_axes(1);
    assert_eq!(b.clock(), Answer::Nothing);
    b.line("@0i");
    let before = b.board;
    assert_eq!(b.clock(), Answer::Nothing);
    assert_eq!((b.byte(253) + &b.byte(255), b.board), (String::new(), before));
}
