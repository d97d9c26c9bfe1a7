//! Stops: where they hold, what is allowed while something stands, and going on.

use crate::Bench;
use trial::board::Job;

#[test]
fn stop_between_any_two_calls_of_a_movement() {
    for before in 0..4 {
        let mut b = Bench::with_axes(1);
        b.line("@0A3,600");
        b.clocks(before);
        assert_eq!(b.byte(253), "F");
        assert_eq!((b.answers().as_str(), b.byte(253).as_str()), ("", ""));
        assert_eq!(b.line("@0S"), "");
        assert_eq!(b.answers(), format!("{}!0", "+.. ".repeat(3 - before)));
    }
}

#[test]
fn stop_and_delays() {
    for (tenths, pauses, reply) in
        [(3, 0, "F"), (3, 1, ""), (3, 2, ""), (3, 3, "F"), (1, 0, "F"), (1, 1, "F"), (0, 0, "F")]
    {
        let line = format!("5 {tenths}");
        let (mut b, _) = Bench::with_program(1, &[&line]);
        b.line("@0S");
        b.clocks(pauses);
        assert_eq!(b.byte(253), reply, "{tenths} {pauses}");
    }
}

#[test]
fn lines_while_standing() {
    let mut b = Bench::with_axes(7);
    b.ports = [9, 0, 0, 0];
    b.line("@0A2,600,0,600,0,600,0,600");
    b.clock();
    b.byte(253);
    for (line, reply) in [
        ("@07", "W"),
        ("@0k", "W"),
        ("@0i", "W"),
        ("@0A", "W"),
        ("@0B0,1", "W"),
        ("@0N9", "W"),
        ("@0z", "W"),
        ("x", "5"),
        ("@0b9", "1"),
        ("@0b0", "009"),
        ("@0P1", "7"),
        ("@0P", "0000001000000000000"),
        ("@0S1", "7"),
        ("", "5"),
    ] {
        let before = b.board;
        assert_eq!(b.line(line), reply, "{line}");
        assert_eq!(b.board, before);
    }
    assert_eq!(b.line(&"1".repeat(81)), "5");
    assert_eq!(b.line("@0s"), "");
    assert_eq!(b.answers(), "+.. !0");
}

#[test]
fn break_and_reset_while_standing() {
    let (mut b, _) = Bench::with_program(1, &["0 3,600"]);
    b.line("@0S");
    b.clock();
    b.byte(253);
    b.byte(b'@');
    assert_eq!(b.byte(255), "F");
    assert_eq!((b.board.job, b.board.standing, b.board.position[0], b.board.len), (Job::Idle, false, 1, 1));
    assert_eq!(b.line("0P"), "0000001000000000000");
    b.line("@0S");
    b.byte(253);
    assert_eq!(b.byte(254), "");
    assert_eq!((b.board.standing, b.board.position[0], b.board.records), (false, 0, 1));
}

#[test]
fn going_on_does_not_plan_again() {
    let (mut b, _) = Bench::with_program(1, &["0 2,600"]);
    b.line("@0S");
    b.clock();
    b.byte(253);
    b.board.axes = 3; // other axes than the store's
    assert_eq!(b.line("@0S"), "");
    assert_eq!(b.answers(), "+.. !0");
}
