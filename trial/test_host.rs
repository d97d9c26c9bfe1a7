//! States and stores that a host altered: 103, and ends with G.

use crate::{short, Bench};
use trial::board::{Board, Job, Loop};
use trial::motion::{Motion, Move};

fn clock(b: &mut Bench) -> Result<String, u8> {
    b.board.clock(&b.store, &b.table).map(short)
}

#[test]
fn wrong_plain_fields() {
    let alter: [fn(&mut Board); 21] = [
        |b| b.position[0] = 8_388_608,
        |b| b.position[2] = -8_388_609,
        |b| b.position[3] = 8_388_608,
        |b| b.origin[3] = -8_388_609,
        |b| b.origin[1] = i32::MAX,
        |b| b.origin[2] = i32::MIN,
        |b| b.axes = 2,
        |b| b.axes = 4,
        |b| b.axes = 9,
        |b| b.axes = 14,
        |b| b.axes = 16,
        |b| b.store_axes = 4,
        |b| b.store_axes = 12,
        |b| b.store_axes = 24,
        |b| b.used = 16_385,
        |b| b.records = 1_001,
        |b| b.depth = 8,
        |b| b.len = 81,
        |b| b.used = u32::MAX,
        |b| b.depth = 255,
        |b| b.axes = 255,
    ];
    for change in alter {
        let mut b = Bench::with_axes(7);
        change(&mut b.board);
        let before = b.board;
        assert_eq!(clock(&mut b), Err(103));
        assert_eq!(b.receive(254, &mut [0; 32]), Err(103));
        assert_eq!(b.listing(), Err(103));
        assert_eq!(b.board, before);
    }
}

#[test]
fn fields_that_may_disagree() {
    let mut b = Bench::with_axes(7);
    (b.board.used, b.board.records, b.board.store_axes) = (16_384, 1_000, 3);
    (b.board.depth, b.board.len) = (7, 80);
    assert_eq!(clock(&mut b).unwrap(), "nothing");
}

fn movement(b: &mut Bench) -> &mut Move {
    match &mut b.board.job {
        Job::Direct(Motion::Straight(m)) | Job::Moving(Motion::Straight(m)) => m,
        _ => panic!("no movement"),
    }
}

#[test]
fn wrong_movements() {
    let alter: [fn(&mut Move); 11] = [
        |m| m.speeds[0] = 29,
        |m| m.speeds[2] = 10_001,
        |m| m.points[0][0] = 8_388_608,
        |m| m.points[3][2] = -8_388_609,
        |m| m.phase = 3,
        |m| m.made = 5,
        |m| m.made = 0,
        |m| m.phase = 1,
        |m| m.points[1][0] = -4,
        |m| m.points[0][2] = 1,
        |m| m.made = u32::MAX,
    ];
    for change in alter {
        for standing in [false, true] {
            let mut b = Bench::with_axes(7);
            b.line("@0A4,600,0,600,0,600,0,600");
            b.clock();
            b.board.standing = standing;
            change(movement(&mut b));
            let before = b.board;
            assert_eq!(clock(&mut b), Err(103));
            assert_eq!(b.board, before);
        }
    }
}

#[test]
fn altered_movements_that_are_right() {
    let mut b = Bench::with_axes(7);
    b.line("@0A4,600,0,600,0,600,0,600");
    b.clock();
    movement(&mut b).points[1][1] = 2; // y: one step at the first of four pulses
    assert_eq!(clock(&mut b), Err(103));
    b.board.position[1] = 1;
    assert_eq!(b.answers(), "+.. ++. +.. .-. .-. !0");
    assert_eq!(b.board.position, [4, 0, 0, 0]);
}

#[test]
fn buffers() {
    let mut b = Bench::with_axes(7);
    b.board.axes = 5;
    let mut reply = [7u8; 31];
    assert_eq!(b.board.receive(255, [0; 4], &mut reply, &mut [0; 3], &mut [0; 3]), Err(101));
    let mut reply = [7u8; 32];
    assert_eq!(b.board.receive(255, [0; 4], &mut reply, &mut [0; 16_385], &mut [0; 999]), Err(102));
    assert_eq!(b.board.receive(255, [0; 4], &mut reply, &mut b.store, &mut [0; 999]), Err(103));
    assert_eq!(b.board.clock(&[0; 16_383], &[0; 999]), Err(102));
    assert_eq!(b.board.clock(&b.store, &[0; 1_001]), Err(103));
    assert_eq!(b.board.list(&[0; 16_383], &mut [0; 3]), Err(102));
    assert_eq!(b.board.list(&b.store, &mut [0; 3]), Err(103));
    b.board.axes = 7;
    assert_eq!(b.board.receive(255, [0; 4], &mut reply, &mut b.store, &mut [0; 1_001]), Err(104));
    assert_eq!(b.board.clock(&b.store, &[0; 999]), Err(104));
    assert_eq!(b.board.list(&b.store, &mut [0; 32_767]), Err(106));
    b.board.used = 4;
    let mut text = vec![7; 32_768];
    assert_eq!(b.board.list(&b.store, &mut text), Err(b'G'));
    assert!(reply.iter().all(|&v| v == 7) && text.iter().all(|&v| v == 7));
    assert_eq!(b.receive(255, &mut reply), Ok(0));
}

#[test]
fn bytes_past_a_reply_stay() {
    let mut b = Bench::with_axes(7);
    let mut reply = [7u8; 40];
    for byte in *b"@0P" {
        b.receive(byte, &mut reply).unwrap();
    }
    assert_eq!(reply, [7; 40]);
    assert_eq!(b.receive(13, &mut reply), Ok(19));
    assert!(reply[..19].iter().all(|&v| v == b'0') && reply[19..].iter().all(|&v| v == 7));
}

/// Runs two sends after the change; the second may end with G.
fn hurt(change: impl Fn(&mut Bench)) -> String {
    let (mut b, _) = Bench::with_program(1, &["133", "134", "3 2,-1", "135"]);
    b.line("@0S");
    b.clock();
    change(&mut b);
    let answers = b.answers();
    if answers.ends_with("!G") {
        assert_eq!((b.board.used, b.board.records, b.board.store_axes), (0, 0, 0));
        assert_eq!(
            (b.board.job, b.board.place, b.board.loops, b.board.depth),
            (Job::Idle, 0, [Loop::default(); 7], 0)
        );
    }
    answers
}

#[test]
fn stores_altered_while_running() {
    assert_eq!(hurt(|_| {}), "!\" d !\" d !\" d !# !0");
    for (at, value) in [(0, 0), (2, b'9'), (3, 2), (4, 32), (4, 40)] {
        assert_eq!(hurt(|b| b.store[at] = value), "!\" d !\" d !\" d !# !0"); // a record passed is not looked at
    }
    for (at, value) in [(8, 0), (9, 215), (10, b'9'), (11, 2), (12, 32)] {
        assert_eq!(hurt(|b| b.store[at] = value), "!G"); // the next one is
    }
    assert_eq!(hurt(|b| b.store[30] = 0), "!\" d !\" d !\" d !G"); // mark of the last record
    assert_eq!(hurt(|b| b.board.used = 35), "!\" d !\" d !\" d !G"); // the part in use passed
    assert_eq!(hurt(|b| b.board.used = 0), "!G");
    assert_eq!(hurt(|b| b.board.records = 2), "!\" !0"); // the end place is never read
    assert_eq!(hurt(|b| b.board.place = 4), "!0");
    assert_eq!(hurt(|b| b.board.place = 5), "!G");
    assert_eq!(hurt(|b| b.board.place = u32::MAX), "!G");
    assert_eq!(hurt(|b| b.store[24] = 0xFD), "!\" !G"); // offset -3 at place 2
    assert_eq!(hurt(|b| b.board.depth = 7), "!\" !G"); // an eighth loop
    assert_eq!(hurt(|b| b.board.depth = 6), "!\" d !\" d !\" d !# !0");
}

#[test]
fn a_loop_counter_of_any_value_counts_down() {
    let answers = hurt(|b| {
        b.board.depth = 1;
        b.board.loops[0] = Loop { place: 2, left: 0 };
    });
    assert_eq!(answers, "!\" d !# !0");
}

#[test]
fn an_exhausted_loop_still_tests_its_target() {
    let answers = hurt(|b| {
        b.board.depth = 1;
        b.board.loops[0] = Loop { place: 2, left: 0 };
        b.store[24] = 0xFD;
    });
    assert_eq!(answers, "!\" !G");
}

#[test]
fn a_jump_or_wait_with_a_target_outside() {
    for (line, at) in [("3 0,1", 8), ("233,1", 8)] {
        let (mut b, _) = Bench::with_program(1, &[line]);
        b.store[at] = 2;
        b.line("@0S");
        assert_eq!(b.answers(), "!G", "{line}");
    }
}

#[test]
fn empty_by_records() {
    let (mut b, _) = Bench::with_program(1, &["133"]);
    b.board.used = 0;
    assert_eq!(b.line("@0S"), "");
    assert_eq!(b.answers(), "!G");
    (b.board.used, b.board.store_axes) = (8, 1);
    assert_eq!((b.line("@0S").as_str(), b.listing()), ("8", Err(b'G')));
    b.line("@0i");
    b.board.used = 8;
    assert_eq!(b.line("9"), "G");
}

#[test]
fn standing_with_any_job() {
    for job in [Job::Idle, Job::Storing, Job::Delay(3), Job::Wait(33, 0), Job::Ready] {
        let mut b = Bench::with_axes(1);
        (b.board.job, b.board.standing) = (job, true);
        assert_eq!((b.answers().as_str(), b.byte(253).as_str(), b.line("@0k").as_str()), ("", "", "W"));
        let mut broken = b.clone();
        assert_eq!(
            (broken.byte(255).as_str(), broken.board.job, broken.board.standing),
            ("F", Job::Idle, false)
        );
        assert_eq!((b.line("@0S").as_str(), b.board.job, b.board.standing), ("", job, false));
    }
}

#[test]
fn standing_without_axes() {
    let mut b = Bench::fresh();
    b.board.standing = true;
    assert_eq!(b.line("@0S"), "4");
}

#[test]
fn over_with_a_short_line() {
    let mut b = Bench::fresh();
    b.board.over = true;
    assert_eq!(b.line("@0P"), "5");
    assert_eq!(b.line("@0P").len(), 19);
}

#[test]
fn storing_without_axes() {
    let mut b = Bench::with_axes(1);
    b.line("@0i");
    b.board.store_axes = 0;
    assert_eq!(b.line("0 1,30") + &b.line("m1,30") + &b.line("n1") + &b.line("z1") + &b.line("9"), "77300");
}

#[test]
fn the_run_goes_by_the_stores_axes() {
    let (mut b, _) = Bench::with_program(1, &["0 1,600"]);
    b.line("@0S");
    b.board.axes = 7;
    assert_eq!(b.answers(), "+.. !0");
}
