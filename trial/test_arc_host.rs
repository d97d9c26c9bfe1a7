//! Arcs that a host altered: 103, what is not 103, and the fields of a script.

use crate::test_script::{all_right, printed};
use crate::{short, Bench};
use trial::arc::Arc;
use trial::board::Job;
use trial::motion::Motion;

fn arc(b: &mut Bench) -> &mut Arc {
    match &mut b.board.job {
        Job::Direct(Motion::Arc(arc)) | Job::Moving(Motion::Arc(arc)) => arc,
        _ => panic!("no arc"),
    }
}

/// An arc of 9 pulses round (-3, -4) after its first, from (3, 4) to (4, 4): 6 from the centre is the farthest.
fn under_way() -> Bench {
    let mut b = Bench::with_axes(7);
    assert_eq!(b.line("@0y9,600,0,3,4,1,-1"), "");
    assert_eq!(short(b.clock()), "+..");
    b
}

fn clock(b: &mut Bench) -> Result<String, u8> {
    b.board.clock(&b.store, &b.table).map(short)
}

#[test]
fn refused() {
    let alter: [fn(&mut Bench); 22] = [
        |b| arc(b).speed = 29,
        |b| arc(b).speed = 10_001,
        |b| arc(b).start = [4_000_001, 4],
        |b| arc(b).start = [3, -4_000_001],
        |b| arc(b).start = [i32::MIN, 4],
        |b| arc(b).start = [3, i32::MAX],
        |b| arc(b).start = [0, 0],
        |b| arc(b).made = 10,
        |b| arc(b).made = u32::MAX,
        |b| arc(b).length = 0,
        |b| b.board.position = [-3, -4, 0, 0],
        |b| b.board.position = [4, 0, 0, 0],
        |b| b.board.position = [-10, 0, 0, 0],
        |b| b.board.position = [0, 3, 0, 0],
        |b| b.board.position = [0, -11, 0, 0],
        |b| arc(b).centre = [i32::MIN, -4],
        |b| arc(b).centre = [-3, i32::MAX],
        |b| arc(b).turn.plane = 2, // then the point is (3, 4)
        |b| (arc(b).centre[0], b.board.position[0]) = (8_388_602, 8_388_602),
        |b| (arc(b).centre[0], b.board.position[0]) = (-8_388_603, -8_388_603),
        |b| (arc(b).centre[1], b.board.position[1]) = (8_388_602, 8_388_603),
        |b| (arc(b).centre[1], b.board.position[1]) = (-8_388_603, -8_388_604),
    ];
    for (row, change) in alter.into_iter().enumerate() {
        for standing in [false, true] {
            let mut b = under_way();
            b.board.standing = standing;
            change(&mut b);
            if row == 17 {
                arc(&mut b).centre = [0, 0];
                b.board.position = [5, 0, 0, 0]; // in plane 2 this is the centre
            }
            let before = b.board;
            assert_eq!(clock(&mut b), Err(103), "{row}");
            assert_eq!(b.receive(253, &mut [0; 32]), Err(103), "{row}");
            assert_eq!((b.listing(), b.board), (Err(103), before), "{row}");
        }
    }
}

#[test]
fn not_refused() {
    let alter: [(fn(&mut Bench), &str); 14] = [
        (|b| arc(b).speed = 30, ".-."),
        (|b| arc(b).made = 9, "!0"),
        (|b| arc(b).made = 0, ".-."),
        (|b| (arc(b).length, arc(b).made) = (u32::MAX, u32::MAX - 1), ".-."),
        (|b| arc(b).length = 1, "!0"),
        (|b| b.board.position = [3, 2, 0, 0], ".-."),
        (|b| b.board.position = [-9, -10, 8_388_607, 0], ".+."),
        (|b| b.board.position = [-2, -4, 0, 0], ".-."),
        (|b| b.board.axes = 1, ".-."),
        (|b| b.board.axes = 0, ".-."),
        (|b| arc(b).turn.counter = true, "-.."),
        (|b| (arc(b).centre[0], b.board.position[0]) = (8_388_601, 8_388_607), ".-."),
        (|b| (arc(b).centre[0], b.board.position[0]) = (-8_388_602, -8_388_608), "+.."),
        (|b| arc(b).turn.plane = 1, "..-"),
    ];
    for (row, (change, answer)) in alter.into_iter().enumerate() {
        let mut b = under_way();
        change(&mut b);
        assert_eq!(clock(&mut b).as_deref(), Ok(answer), "{row}");
    }
}

/// A start whose square is no other's: the radius decides, not what the point has.
#[test]
fn a_smaller_radius() {
    let mut b = under_way();
    arc(&mut b).start = [0, -2]; // at most 3 from the centre; the point is (4, 4)
    assert_eq!(clock(&mut b), Err(103));
    b.board.position = [0, -4, 0, 0];
    assert_eq!(b.answers(), ".-. -.. -.. .-. -.. -.. .+. -.. !0");
}

#[test]
fn fields_that_are_always_there() {
    all_right(&["H plane 0", "H plane 2", "H turn 0", "H turn -1", "H turn -0"], true);
    all_right(&["H plane 3", "H plane -1", "H turn 1", "H turn -2", "H plane", "H Plane 0"], false);
    let state = printed(b"H plane 2\nH turn -1\nH plane 3\nH turn 1\nS\nB 254\nS\n");
    let ends: Vec<&str> =
        state.lines().filter_map(|line| line.split_once(" loops ").map(|(_, end)| end)).collect();
    assert_eq!(ends, ["0 plane 2 direction -1", "0 plane 0 direction 0"]);
}

/// The bytes of lines for the board, each with its return, as a script.
fn sent(lines: &[&str]) -> String {
    let bytes = lines.iter().flat_map(|line| line.bytes().chain([13]));
    bytes.map(|b| format!("B {b}\n")).collect()
}

#[test]
fn fields_of_an_arc() {
    let of_an_arc = [
        "arcplane 0",
        "arcplane 2",
        "arcturn 0",
        "arcturn -1",
        "centre1 -8388608",
        "centre2 4286578687",
        "start1 4286578687",
        "start2 -8388608",
        "arcspeed 0",
        "arcspeed 65535",
        "length 0",
        "length 4294967295",
        "made 4294967295",
    ];
    let of_a_line = ["phase 0", "speed1 30", "startx 0", "thirdz 0", "speed3 0", "made 0"];
    let wrong = [
        "arcplane 3",
        "arcplane -1",
        "arcturn 1",
        "arcturn -2",
        "centre1 -8388609",
        "centre2 4286578688",
        "start1 -8388609",
        "start2 4286578688",
        "arcspeed 65536",
        "arcspeed -1",
        "length 4294967296",
        "length -1",
        "made -1",
        "centre3 0",
        "start0 0",
        "centrex 0",
        "centre 0",
    ];
    let arc = sent(&["@03", "@0y4,600,0,2,0,-1,-1"]);
    let line = sent(&["@01", "@0A4,600"]);
    let right = |start: &str, field: &str| !printed(format!("{start}H {field}\n").as_bytes()).contains('?');
    for field in of_an_arc {
        assert!(right(&arc, field) && (field.starts_with("made") || !right(&line, field)), "{field}");
        assert!(!right("", field), "{field}");
    }
    for field in of_a_line {
        assert!(right(&line, field) && (field.starts_with("made") || !right(&arc, field)), "{field}");
    }
    for field in wrong {
        assert!(!right(&arc, field) && !right(&line, field), "{field}");
    }
}

/// What a script prints behind these lines for the board, parted by `|`, without the replies to bytes.
fn behind(lines: &[&str], script: &str) -> String {
    let text = printed(format!("{}{}", sent(lines), script.replace('|', "\n")).as_bytes());
    text.lines().filter(|line| !line.starts_with("B ")).collect::<Vec<_>>().join("|")
}

#[test]
fn an_arc_set_by_a_host() {
    let lines = ["@07", "@0y4,600,0,2,0,-1,-1"];
    let script = "H arcplane 2|H arcturn -1|H centre1 10|H centre2 -1|H start1 3|H start2 4|H arcspeed 77|\
        H length 9|H made 7|C 1|H y 15|H z -1|C 3|S";
    let wanted = "C 103|C Pulse ..+. 77|C Pulse ..+. 77|C Send 48|\
        S axes 7 position 0 15 1 0 origin 0 0 0 0 three 0 output 0 used 0 records 0 store_axes 0 job Idle standing 0 \
        loops 0 plane 0 direction 0";
    assert_eq!(behind(&lines, script), wanted);
}

#[test]
fn the_first_pulse_is_told() {
    let lines = ["@03", "@0i", "133", "y2,600,0,2,0,-1,-1", "9", "@0S"];
    let wanted = "C Send 33|T job Ready from 0 place 1 origin 0 0 0 0|\
        C Pulse .-.. 600|T job Moving from 1 place 2 origin 0 0 0 0|C Pulse -... 600|\
        C Send 48|T job Idle from 2 place 0 origin 0 0 0 0|Q over";
    assert_eq!(behind(&lines, "Q 99"), wanted);
    let again = behind(&["@03", "@0y9,600,0,2,0,-1,-1"], "Q 1|H made 0|Q 1|H made 1|Q 1");
    let wanted = "C Pulse .-.. 600|T job Direct from 0 place 0 origin 0 0 0 0|Q more|\
        C Pulse -... 600|T job Direct from 0 place 0 origin 0 0 0 0|Q more|C Pulse .-.. 600|Q more";
    assert_eq!(again, wanted);
}
