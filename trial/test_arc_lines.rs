//! Lines and records of circles: their shapes, replies in order, runs and stops.

use crate::Bench;
use trial::arc::Turn;
use trial::board::Job;

fn replies(bench: &mut Bench, cases: &[(&str, &str)]) {
    for (line, reply) in cases {
        assert_eq!(bench.line(line), *reply, "{line}");
    }
}

#[test]
fn shapes() {
    let mut b = Bench::with_axes(7);
    for line in [
        "@0E0",
        "@0F0",
        "@0Y1,600,0,1,0,-1,-1",
        "@0e ",
        "@0e  1",
        "@0e1 ",
        "@0e,1",
        "@0f-",
        "@0f--1",
        "@0f- 1",
        "@0y ",
        "@0y1,600,0,1,0,-1,-1 ",
        "@0y1,600,0,1,0,-1,  -1",
        "@0y1 ,600,0,1,0,-1,-1",
        "e0",
        "f0",
        "y",
        "@0ee0",
        "@0y1,600,0,123456789,0,-1,-1",
    ] {
        assert_eq!(b.line(line), "5", "{line:?}");
    }
    replies(&mut b, &[("@0e 2", "0"), ("@0f -1", "0"), ("@0e02", "0"), ("@0f-0", "0"), ("@0e0", "0")]);
    replies(&mut b, &[("@0y 0, 600, 0, 1, 0, -1, -1", "0"), ("@0y0,0600,-0,01,0, -1,-01", "0")]);
}

#[test]
fn planes_and_directions_in_order() {
    let mut b = Bench::fresh();
    replies(&mut b, &[("@0E9", "5"), ("@0e9,9", "4"), ("@0f", "4"), ("@0y", "4")]);
    b.line("@01");
    replies(&mut b, &[("@0e", "7"), ("@0e0,0", "7"), ("@0f9,9", "7"), ("@0e3", "1"), ("@0e-1", "1")]);
    replies(&mut b, &[("@0f1", "1"), ("@0f-2", "1"), ("@0e2", "0"), ("@0f-1", "0"), ("@0e99999999", "1")]);
    assert_eq!(b.board.turn, Turn { plane: 2, counter: true });
    b.board.standing = true;
    replies(&mut b, &[("@0E9", "5"), ("@0e9,9", "W"), ("@0f0", "W"), ("@0y", "W")]);
    assert_eq!(b.board.turn, Turn { plane: 2, counter: true });
}

/// 3, then 1 by ranges, start or directions, then D, then 9: each line has all that come after, too.
#[test]
fn refusals_of_an_arc_in_order() {
    let mut b = Bench::with_axes(3);
    b.line("@0e1");
    let cases = [
        ("@0y9000000,1,0,0,0,0", "7"),
        ("@0y9000000,1,0,0,0,0,0,0", "7"),
        ("@0y9000000,1,0,0,0,0,0", "3"),
        ("@0y1,600,0,1,0,-1,-1", "3"),
    ];
    replies(&mut b, &cases);
    b.line("@0e0");
    b.board.position[0] = 8_388_607;
    for line in [
        "@0y-1,1,0,1,0,-1,-1",
        "@0y8388608,1,0,1,0,-1,-1",
        "@0y1,1,8388608,1,0,-1,-1",
        "@0y1,1,-8388609,1,0,-1,-1",
        "@0y1,1,0,4000001,0,-1,-1",
        "@0y1,1,0,0,-4000001,-1,1",
        "@0y1,1,0,0,0,-1,-1",
        "@0y1,1,0,1,0,1,-1",
        "@0y1,1,0,1,0,-1,1",
        "@0y1,1,0,1,0,0,-1",
        "@0y1,1,0,1,0,-1,-2",
    ] {
        assert_eq!(b.line(line), "1", "{line}");
    }
    replies(&mut b, &[("@0y1,29,0,1,0,-1,-1", "D"), ("@0y1,10001,0,1,0,-1,-1", "D")]);
    replies(
        &mut b,
        &[("@0y1,600,0,1,0,-1,-1", "9"), ("@0y0,600,0,1,0,-1,-1", "9"), ("@0y0,1,0,1,0,-1,-1", "D")],
    );
    b.board.position[0] = 0;
    replies(&mut b, &[("@0y0,600,8388607,1,0,-1,-1", "0"), ("@0y0,30,-8388608,0,-4000000,-1,1", "0")]);
    assert_eq!((b.board.job, b.answers().as_str()), (Job::Idle, ""));
}

/// The centre and the whole part of the radius plus one, on both axes of the plane and at both ends.
#[test]
fn nine_exactly() {
    // from (3, 4): radius 5, so 6 to either side of the centre; and from (1, 1): radius 1, so 2
    for (plane, [first, second]) in [(0, [0, 1]), (1, [0, 2]), (2, [1, 2])] {
        for (line, start, reach) in [("3,4,1,-1", [3, 4], 6), ("1,1,1,-1", [1, 1], 2)] {
            for (axis, from) in [(first, start[0]), (second, start[1])] {
                for (centre, reply) in [
                    (8_388_607 - reach, "0"),
                    (8_388_608 - reach, "9"),
                    (-8_388_608 + reach, "0"),
                    (-8_388_609 + reach, "9"),
                ] {
                    let mut b = Bench::with_axes(7);
                    b.line(&format!("@0e{plane}"));
                    b.board.position[axis] = centre + from;
                    assert_eq!(b.line(&format!("@0y0,600,0,{line}")), reply, "{plane} {axis} {centre}");
                }
            }
        }
    }
}

/// A circle that just fits goes round at an end of 24 bits, 6 from its centre.
#[test]
fn a_circle_at_the_ends() {
    for (centre, start, direction) in [(8_388_601, 5, -1), (-8_388_602, -5, 1)] {
        let mut b = Bench::with_axes(3);
        b.board.position[0] = centre + start;
        assert_eq!(b.line(&format!("@0y40,600,0,{start},0,{direction},{direction}")), "");
        let before = b.board.position;
        b.clocks(40);
        assert_eq!((b.board.position, b.answers().as_str()), (before, "!0"));
    }
}

#[test]
fn axes_and_reset_give_plane_0_clockwise() {
    for axes in ["1", "3", "7"] {
        let mut b = Bench::with_axes(7);
        replies(&mut b, &[("@0e2", "0"), ("@0f-1", "0"), ("@09", "3"), ("@01,3", "7")]);
        assert_eq!(b.board.turn, Turn { plane: 2, counter: true });
        replies(
            &mut b,
            &[("@0z1", "0"), ("@0N7", "0"), ("@0k", "0"), ("@0i", "0"), ("9", "0"), ("@0S", "8")],
        );
        assert_eq!(b.board.turn, Turn { plane: 2, counter: true });
        b.line(&format!("@0{axes}"));
        assert_eq!(b.board.turn, Turn::FRESH);
        replies(&mut b, &[("@0e1", "0"), ("@0f-1", "0")]);
        b.byte(254);
        assert_eq!(b.board.turn, Turn::FRESH);
    }
}

#[test]
fn storing() {
    let mut b = Bench::with_axes(1);
    b.line("@0i");
    for line in ["E0", "F0", "Y1,600,0,1,0,1,1", "e ", "f  0", "y1,600,0,1,0,1,1 ", "@0e0"] {
        assert_eq!(b.line(line), "5", "{line}");
    }
    replies(&mut b, &[("e", "7"), ("e1,1", "7"), ("f", "7"), ("y", "7"), ("y9999999,1,0,0,0,0", "7")]);
    replies(&mut b, &[("e3", "1"), ("e-1", "1"), ("f1", "1"), ("f-2", "1")]);
    for line in ["-1,1,0,1,0,1,1", "8388608,1,0,1,0,1,1", "0,1,8388608,1,0,1,1", "0,1,0,4000001,0,1,1"] {
        assert_eq!(b.line(&format!("y{line}")), "1", "{line}");
    }
    for line in ["0,1,0,0,-4000001,1,1", "0,1,0,0,0,1,1", "0,1,0,1,0,0,1", "0,1,0,1,0,1,-2"] {
        assert_eq!(b.line(&format!("y{line}")), "1", "{line}");
    }
    replies(&mut b, &[("y0,29,0,1,0,1,1", "D"), ("y0,10001,0,1,0,1,1", "D")]);
    b.board.used = 16_380;
    replies(&mut b, &[("e0", "6"), ("f3", "1"), ("y0,30,0,1,0,1,1", "6"), ("y0,29,0,1,0,1,1", "D")]);
    b.board.used = 0;
    replies(
        &mut b,
        &[("e 2", "0"), ("f -1", "0"), ("y 8388607, 030,-0, -4000000,4000000, 1, -1", "0"), ("9", "0")],
    );
    assert_eq!(b.listing().unwrap(), "e2\rf-1\ry8388607,30,0,-4000000,4000000,1,-1\r9\r");
    assert_eq!((b.board.used, b.board.turn), (48, Turn::FRESH));
    assert_eq!(b.store[16..20], [0xD7, 0x2B, b'y', 7]);
}

#[test]
fn a_program_of_circles() {
    let lines = ["f-1", "y4,600,0,2,0,-1,1", "e2", "f0", "y1,700,0,0,-1,-1,1", "y0,30,0,5,5,1,-1", "z1"];
    let (mut b, last) = Bench::with_program(7, &lines);
    assert_eq!(last + &b.line("@0S"), "0");
    assert_eq!(b.answers(), "d .+. -.. .+. -.. d d .-. d d !0");
    assert_eq!((b.board.position, b.board.turn), ([-2, 1, 0, 0], Turn { plane: 2, counter: false }));
}

/// 3, then 1 for directions, then 9, each in place of the record; the store and the positions stay.
#[test]
fn a_program_ended_by_an_arc() {
    for (axes, lines, at, answers) in [
        (1, vec!["133", "y1,600,0,1,0,1,1"], 8_388_607, "!! !3"),
        (3, vec!["e1", "y1,600,0,1,0,1,1"], 8_388_607, "d !3"),
        (3, vec!["e2", "y0,600,0,1,0,-1,-1"], 0, "d !3"),
        (3, vec!["y1,600,0,1,0,1,1"], 8_388_607, "!1"),
        (7, vec!["f-1", "y0,600,0,1,0,-1,-1"], 0, "d !1"),
        (3, vec!["y1,600,0,1,0,-1,-1"], 8_388_607, "!9"),
        (7, vec!["e1", "y0,600,0,1,0,-1,-1"], 8_388_607, "d !9"),
    ] {
        let (mut b, _) = Bench::with_program(axes, &lines);
        b.board.position[0] = at;
        let (used, store) = (b.board.used, b.store.clone());
        b.line("@0S");
        assert_eq!(b.answers(), answers, "{lines:?}");
        assert_eq!((b.board.position, b.board.used, b.board.job), ([at, 0, 0, 0], used, Job::Idle));
        assert_eq!((b.board.place, b.store == store), (0, true));
    }
}

#[test]
fn the_stores_axes_decide() {
    let (mut b, _) = Bench::with_program(3, &["e1", "y1,600,0,1,0,-1,-1"]);
    b.line("@0S");
    b.board.axes = 7;
    assert_eq!(b.answers(), "d !3");
    let (mut b, _) = Bench::with_program(7, &["e1", "y1,600,0,1,0,-1,-1"]);
    b.line("@0S");
    b.board.axes = 1;
    assert_eq!(b.answers(), "d ..- !0");
    (b.board.axes, b.board.store_axes) = (1, 0); // e, f and y are right under no axes, as z is
    assert_eq!(b.listing().unwrap(), "e1\ry1,600,0,1,0,-1,-1\r9\r");
}

#[test]
fn three_dimensions_are_not_looked_at() {
    let mut b = Bench::with_axes(7);
    b.line("@0z1");
    b.line("@0y2,77,0,1,0,-1,-1");
    assert_eq!(crate::speed(b.clock()), 77);
    assert_eq!(b.answers(), "-.. !0");
    assert!(b.board.three);
}

#[test]
fn stopped_at_every_pulse() {
    for before in 0..=5 {
        let mut b = Bench::with_axes(3);
        replies(&mut b, &[("@0f-1", "0"), ("@0y5,600,0,2,0,-1,1", "")]);
        let mut all: Vec<String> = (0..before).map(|_| crate::short(b.clock())).collect();
        assert_eq!(b.byte(253) + &b.byte(253), "F");
        replies(&mut b, &[("@0e2", "W"), ("@0f0", "W"), ("@0y", "W"), ("@03", "W"), ("@0E", "5")]);
        assert_eq!(b.answers(), "");
        b.board.turn = Turn { plane: 2, counter: false }; // the arc has its own
        assert_eq!(b.line("@0S"), "");
        all.push(b.answers());
        assert_eq!(all.join(" "), ".+. -.. .+. -.. -.. !0");
    }
}

#[test]
fn break_in_an_arc() {
    let (mut b, _) = Bench::with_program(3, &["f-1", "y9,600,0,2,0,-1,1"]);
    b.line("@0S");
    b.clocks(3);
    assert_eq!(b.byte(255), "F");
    assert_eq!((b.board.position, b.board.turn), ([-1, 1, 0, 0], Turn { plane: 0, counter: true }));
    b.line("@0S");
    b.clocks(3);
    b.byte(254);
    assert_eq!((b.board.turn, b.board.position, b.board.records), (Turn::FRESH, [0; 4], 2));
}
