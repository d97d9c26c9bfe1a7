//! The A axis, from the paper's sentences: its lines, its plans, and what stays as it was.

use crate::test_join::{joined, stored};
use crate::{short, speed, Bench};
use trial::arc::Turn;
use trial::board::{Board, Job};
use trial::motion::{plan, Motion, Move, Setting};
use trial::record::{count_for, mask_right, refusal};

const COUNTER: Turn = Turn { plane: 2, counter: true };

/// A board with something in every field that an axes line may change.
fn filled(axes: u8) -> Bench {
    let mut b = Bench::fresh();
    b.board.position = [1, -2, 3, -4];
    b.board.origin = [5, 6, -7, 8];
    (b.board.axes, b.board.three, b.board.turn, b.board.output) = (axes, true, COUNTER, 9);
    (b.board.used, b.board.records, b.board.store_axes) = (8, 1, 7);
    b
}

#[test]
fn eight_changes_a_alone() {
    for (before, after) in [(0, 8), (7, 15), (8, 8), (15, 15)] {
        let mut b = filled(before);
        let given = b.board;
        assert_eq!(b.line("@08"), "0");
        let wanted = Board { axes: after, position: [1, -2, 3, 0], origin: [5, 6, -7, 0], ..given };
        assert_eq!(b.board, wanted);
    }
}

#[test]
fn eight_behind_one_and_two_axes() {
    for axes in [1, 3] {
        let mut b = filled(axes);
        let given = b.board;
        assert_eq!(b.line("@08"), "3");
        assert_eq!(b.board, given);
    }
}

#[test]
fn nine_to_fifteen() {
    for axes in [0, 1, 3, 7, 8, 15] {
        let mut b = filled(axes);
        let given = b.board;
        for value in (9..=17).chain([24, 80, -8]) {
            assert_eq!(b.line(&format!("@0{value}")), "3");
        }
        assert_eq!((b.line("@08,8"), b.line("@0 8"), b.line("@08 ")), ("7".into(), "5".into(), "5".into()));
        assert_eq!(b.board, given);
    }
}

#[test]
fn other_axes_drop_a() {
    for before in [0, 1, 3, 7, 8, 15] {
        for axes in [1, 3, 7] {
            let mut b = filled(before);
            let given = b.board;
            assert_eq!(b.line(&format!("@0{axes}")), "0");
            let zero =
                Board { axes, position: [0; 4], origin: [0; 4], three: false, turn: Turn::FRESH, ..given };
            assert_eq!(b.board, zero);
        }
    }
}

#[test]
fn eight_behind_a_reset() {
    let mut b = filled(15);
    b.byte(254);
    assert_eq!((b.board.position, b.board.origin, b.board.axes), ([0; 4], [0; 4], 0));
    assert_eq!((b.line("@08"), b.board.axes), ("0".into(), 8));
}

fn setting(axes: u8, three: bool) -> Setting {
    Setting { axes, three, position: [10, 20, 30, 40], origin: [1, 2, 3, 4] }
}

const EIGHT: [i32; 8] = [1, 100, -2, 200, 3, 300, -4, 400];

fn planned(points: [[i32; 4]; 4], speeds: [u16; 3]) -> Option<Move> {
    Some(Move { points, speeds, phase: 0, made: 0 })
}

#[test]
fn plans_of_four_axes() {
    let start = [10, 20, 30, 40];
    let flat = [start, [11, 18, 30, 40], [11, 18, 33, 40], [11, 18, 33, 36]];
    assert_eq!(plan(&setting(15, false), false, &EIGHT), planned(flat, [200, 300, 400]));
    let end = [11, 18, 33, 36];
    assert_eq!(plan(&setting(15, true), false, &EIGHT), planned([start, end, end, end], [100; 3]));
    let goals = [start, [2, 0, 30, 40], [2, 0, 6, 40], [2, 0, 6, 0]];
    assert_eq!(plan(&setting(15, false), true, &EIGHT), planned(goals, [200, 300, 400]));
    let end = [2, 0, 6, 0];
    assert_eq!(plan(&setting(15, true), true, &EIGHT), planned([start, end, end, end], [100; 3]));
}

/// With three axes the fourth pair is z2, and A rests.
#[test]
fn plans_of_three_axes() {
    let start = [10, 20, 30, 40];
    let flat = [start, [11, 18, 30, 40], [11, 18, 33, 40], [11, 18, 29, 40]];
    assert_eq!(plan(&setting(7, false), false, &EIGHT), planned(flat, [200, 300, 400]));
    let end = [11, 18, 33, 40];
    assert_eq!(plan(&setting(7, true), false, &EIGHT), planned([start, end, end, end], [100; 3]));
}

#[test]
fn plans_of_a_alone() {
    let (start, end) = ([10, 20, 30, 40], [10, 20, 30, 35]);
    assert_eq!(plan(&setting(8, false), false, &[-5, 77]), planned([start, start, start, end], [77; 3]));
    assert_eq!(plan(&setting(8, true), false, &[-5, 77]), planned([start, end, end, end], [77; 3]));
    let end = [10, 20, 30, -1];
    assert_eq!(plan(&setting(8, false), true, &[-5, 77]), planned([start, start, start, end], [77; 3]));
}

#[test]
fn plans_that_leave_24_bits() {
    for three in [false, true] {
        let at = |a: i32, origin: i32, axes: u8| Setting {
            axes,
            three,
            position: [0, 0, 0, a],
            origin: [0, 0, 0, origin],
        };
        let eight = |d: i32| [0, 600, 0, 600, 0, 600, d, 600];
        for (a, d, fits) in [
            (8_388_606, 1, true),
            (8_388_607, 1, false),
            (-8_388_607, -1, true),
            (-8_388_608, -1, false),
            (1, 8_388_607, false),
        ] {
            assert_eq!(plan(&at(a, 0, 15), false, &eight(d)).is_some(), fits);
            assert_eq!(plan(&at(a, 0, 8), false, &[d, 600]).is_some(), fits);
            assert_eq!(plan(&at(0, a, 15), true, &eight(d)).is_some(), fits);
            assert_eq!(plan(&at(0, a, 8), true, &[d, 600]).is_some(), fits);
        }
    }
}

/// What an absolute A has to go may be more than a line can name.
#[test]
fn the_longest_way() {
    let setting = Setting { axes: 8, three: false, position: [0, 0, 0, -8_388_608], origin: [0; 4] };
    let movement = plan(&setting, true, &[8_388_607, 600]).unwrap();
    assert_eq!([0, 1, 2].map(|phase| movement.pulses(phase)), [0, 0, 16_777_215]);
}

#[test]
fn pulses_in_2_5d() {
    let mut b = Bench::with_axes(15);
    assert_eq!(b.line("@0A2,100,1,200,-1,300,2,400"), "");
    let said: Vec<(String, u16)> = (0..5).map(|_| b.clock()).map(|p| (short(p), speed(p))).collect();
    let wanted = [("++.", 100), ("+..", 100), ("..-", 300), ("...+", 400), ("...+", 400)];
    assert_eq!(said, wanted.map(|(signs, speed)| (signs.to_string(), speed)));
    assert_eq!((b.answers(), b.board.position), ("!0".into(), [2, 1, -1, 2]));
}

#[test]
fn pulses_in_3d() {
    let mut b = Bench::with_axes(15);
    b.line("@0z1");
    b.line("@0A4,100,-2,200,1,300,-3,400");
    assert_eq!(speed(b.clock()), 100);
    assert_eq!(b.answers(), "+.+- +-. +..- !0");
    b.line("@0A0,100,0,200,0,300,2,400");
    assert_eq!((speed(b.clock()), b.answers()), (100, "...+ !0".into()));
}

#[test]
fn pulses_of_a_alone() {
    for three in [0, 1] {
        let mut b = Bench::with_axes(8);
        assert_eq!(b.line(&format!("@0z{three}")), "0");
        assert_eq!(b.line("@0A-2,70"), "");
        let first = b.clock();
        assert_eq!((short(first).as_str(), speed(first)), ("...-", 70));
        let Job::Direct(Motion::Straight(movement)) = b.board.job else { panic!("no movement") };
        assert_eq!((movement.phase, movement.made), (if three == 0 { 2 } else { 0 }, 1));
        assert_eq!(b.answers(), "...- !0");
    }
}

#[test]
fn masks() {
    for mask in -9..=40 {
        assert_eq!(mask_right(mask, 15), (1..=8).contains(&mask));
        assert_eq!(mask_right(mask, 8), mask == 8);
        assert_eq!(mask_right(mask, 7), (1..=7).contains(&mask));
        assert_eq!(mask_right(mask, 3), (1..=3).contains(&mask));
        assert!(!mask_right(mask, 0));
        for axes in [8, 15] {
            let mut b = filled(axes);
            let before = b.board;
            let reply = if mask_right(mask, axes) { "0" } else { "3" };
            assert_eq!(b.line(&format!("@0n{mask}")), reply);
            assert_eq!(b.line(&format!("@0N{mask}")), reply);
            assert!(reply == "0" || b.board == before);
        }
    }
}

/// Also under axes that no board has: as x's part and A's say, where movements are never right.
#[test]
fn masks_under_other_axes() {
    let right = |axes| (-9..=300).filter(|&mask| mask_right(mask, axes)).collect::<Vec<i32>>();
    for axes in [0, 2, 4, 6, 16, 18, 22, 32, 64, 128, 240, 246] {
        assert_eq!(right(axes), []);
    }
    assert_eq!((right(1), right(3), right(5)), (vec![1], vec![1, 2, 3], vec![1, 2, 3, 4, 5]));
    for axes in [7, 17, 19, 21, 23, 33, 129, 145, 247] {
        assert_eq!(right(axes), [1, 2, 3, 4, 5, 6, 7]);
    }
    for axes in [8, 10, 12, 14, 24, 26, 136, 248, 254] {
        assert_eq!(right(axes), [8]);
    }
    for axes in [9, 11, 13, 15, 25, 31, 137, 249, 255] {
        assert_eq!(right(axes), [1, 2, 3, 4, 5, 6, 7, 8]);
    }
}

#[test]
fn origin_and_zero_of_a() {
    let mut b = filled(15);
    assert_eq!((b.line("@0n8"), b.board.origin), ("0".into(), [5, 6, -7, -4]));
    assert_eq!((b.line("@0n5"), b.board.origin), ("0".into(), [1, 6, 3, -4]));
    assert_eq!((b.line("@0N2"), b.board.position), ("0".into(), [1, 0, 3, -4]));
    assert_eq!((b.line("@0N8"), b.board.position), ("0".into(), [1, 0, 3, 0]));
    assert_eq!(b.board.origin, [1, 0, 3, 0]);
}

#[test]
fn counts_and_ranges() {
    for code in [b'0', b'm'] {
        let counts = [0, 1, 3, 7, 8, 15].map(|axes| count_for(code, axes));
        assert_eq!(counts, [None, Some(2), Some(4), Some(8), Some(2), Some(8)]);
        for axes in (0..=255).filter(|axes| ![1, 3, 7, 8, 15].contains(axes)) {
            assert_eq!(count_for(code, axes), None);
        }
    }
    let eight = |d: i32, s: i32| [0, 600, 0, 600, 0, 600, d, s];
    assert_eq!(refusal(b'm', 15, &eight(1, 600)), None);
    assert_eq!(refusal(b'm', 7, &eight(1, 600)), Some(b'1'));
    assert_eq!(refusal(b'm', 15, &eight(8_388_608, 29)), Some(b'1'));
    assert_eq!(refusal(b'0', 15, &eight(-8_388_608, 29)), Some(b'D'));
    assert_eq!(refusal(b'm', 8, &[8_388_607, 10_000]), None);
    assert_eq!(refusal(b'm', 8, &[8_388_608, 10_001]), Some(b'1'));
}

#[test]
fn the_report() {
    for (axes, text) in [
        (15, "0000001FFFFFE000003FFFFFC"),
        (0, "0000001FFFFFE000003"),
        (7, "0000001FFFFFE000003"),
        (8, "0000001FFFFFE000003"),
    ] {
        assert_eq!(filled(axes).line("@0P"), text);
    }
}

#[test]
fn planes_never_have_a() {
    for plane in 0..3 {
        let turn = Turn { plane, counter: false };
        assert!(turn.fits(15) && turn.fits(7) && !turn.fits(8) && !turn.fits(1) && !turn.fits(0));
    }
    let mut b = Bench::with_axes(8);
    assert_eq!(b.line("@0y0,600,0,1,0,-1,-1"), "3");
    assert_eq!((b.line("@0y1,29"), b.line("@0e2"), b.line("@0f-1")), ("7".into(), "0".into(), "0".into()));
    let (mut b, last) = Bench::with_program(8, &["133", "y0,600,0,1,0,-1,-1", "134"]);
    assert_eq!((last, b.line("@0S"), b.answers()), ("0".into(), "".into(), "!! !3".into()));
}

#[test]
fn an_arc_beside_a() {
    for a in [-8_388_608, 0, 8_388_607] {
        let mut b = Bench::with_axes(15);
        b.board.position[3] = a;
        b.line("@0y4,600,0,2,0,-1,-1");
        assert_eq!((b.answers(), b.board.position[3]), (".-. -.. .-. -.. !0".into(), a));
    }
}

#[test]
fn programs_of_four_axes() {
    let lines =
        ["0 1,600,1,700,0,800,2,900", "n8", "m 1,600,1,700,0,800,-1,900", "z1", "0 1,30,0,30,0,30,1,30"];
    let (mut b, last) = Bench::with_program(15, &lines);
    assert_eq!((last, b.line("@0S")), ("0".into(), "".into()));
    assert_eq!(b.answers(), "++. ...+ ...+ d ...- d +..+ !0");
    assert_eq!((b.board.position, b.board.origin), ([2, 1, 0, 2], [0, 0, 0, 2]));
    let listing = "01,600,1,700,0,800,2,900\rn8\rm1,600,1,700,0,800,-1,900\rz1\r01,30,0,30,0,30,1,30\r9\r";
    assert_eq!(b.listing(), Ok(listing.to_string()));
}

#[test]
fn a_store_of_other_axes() {
    for kept in [1, 3, 7, 8, 15] {
        for axes in [1, 3, 7, 8, 15] {
            let (mut b, _) = Bench::with_program(kept, &["133"]);
            b.board.axes = axes;
            assert_eq!(b.line("@0S"), if axes == kept { "" } else { "G" });
            assert_eq!((b.board.records, b.board.store_axes), (1, kept));
        }
    }
}

/// The store's axes and not the board's say what a record moves.
#[test]
fn a_run_under_the_stores_axes() {
    let (mut b, _) = Bench::with_program(15, &["0 0,600,0,700,1,800,1,900"]);
    b.line("@0S");
    b.board.axes = 7;
    assert_eq!(b.answers(), "..+ ...+ !0");
    let (mut b, _) = Bench::with_program(7, &["0 0,600,0,700,1,800,1,900"]);
    b.line("@0S");
    b.board.axes = 15;
    assert_eq!((b.answers(), b.board.position), ("..+ ..+ !0".into(), [0, 0, 2, 0]));
}

#[test]
fn stops_among_the_pulses_of_a() {
    for before in 0..=4 {
        let mut b = Bench::with_axes(15);
        b.line("@0A1,600,0,700,1,800,2,900");
        b.clocks(before);
        assert_eq!((b.byte(253), b.line("@08"), b.line("@0N8")), ("F".into(), "W".into(), "W".into()));
        assert_eq!(b.line("@0S"), "");
        let left = ["+..", "..+", "...+", "...+", "!0"][before..].join(" ");
        assert_eq!((b.answers(), b.board.position), (left, [1, 0, 1, 2]));
    }
}

#[test]
fn axes_lines_while_storing() {
    let mut b = Bench::with_axes(15);
    b.line("@0i");
    assert_eq!(
        (b.line("@08"), b.line("n8"), b.line("n9"), b.line("9")),
        ("5".into(), "0".into(), "3".into(), "0".into())
    );
}

#[test]
fn joins_with_a() {
    for (axes, line) in [(8, "0 1,600"), (15, "m 0,600,0,600,0,600,5,600")] {
        let (one, two) = (stored(axes, &[line, "n8"]), stored(axes, &["133"]));
        let both = joined(&one, &two).unwrap();
        assert_eq!((both.part.records, both.part.axes), (3, axes));
        assert_eq!(joined(&one, &stored(7, &["133"])), Err(b'3'));
        assert_eq!(joined(&stored(1, &["133"]), &one), Err(b'3'));
    }
    let seven = stored(7, &["n7"]);
    assert_eq!(joined(&seven, &stored(15, &["n7"])), Err(b'3'));
}
