//! The table: what writes to it, finding records by it, filling it, and its lines of a script for `calls`.

use crate::gen_part::{self, Taste};
use crate::rng::Rng;
use crate::test_script::{all_right, printed};
use crate::Bench;
use trial::join::Part;
use trial::record::{self, RECORDS};
use trial::table::{fill, TABLE};

/// Records of 8, 12 and 8 bytes, that start at 0, 8 and 20.
const THREE: &[&str] = &["133", "0 1,600", "134"];

fn part(b: &Bench) -> Part {
    Part { used: b.board.used, records: b.board.records, axes: b.board.store_axes }
}

#[test]
fn each_stored_record_writes_its_entry() {
    let mut b = Bench::with_axes(1);
    b.table.fill(60_000);
    b.line("@0i");
    assert!(b.table.iter().all(|&entry| entry == 60_000));
    for (place, line) in THREE.iter().enumerate() {
        for wrong in ["", "1 32", "0 1", "n2", "0 1,29", "8"] {
            assert_ne!(b.line(wrong), "0");
        }
        assert_eq!(b.table[place..], vec![60_000; TABLE - place]);
        b.line(line);
        assert_eq!(b.table[place], [0, 8, 20][place]);
    }
    let table = b.table.clone();
    assert_eq!(table[3..], vec![60_000; TABLE - 3]);
    for line in ["9", "@0S", "@0k", "@0i", "3 0,2", "9", "@0P"] {
        b.line(line);
        b.clocks(9);
        let written = if line == "3 0,2" { 1 } else { 0 };
        assert_eq!(b.table[written..], table[written..], "{line}");
        assert_eq!(b.table[0], 0);
    }
    b.byte(254);
    assert_eq!(b.table, table);
}

/// An entry's number is the count of records before it, and its value the bytes in use before it, whatever these
/// are.
#[test]
fn an_entry_by_the_fields() {
    let mut b = Bench::with_axes(1);
    b.line("@0i");
    (b.board.used, b.board.records) = (16_376, 999);
    assert_eq!(b.line("133"), "0");
    assert_eq!(b.table[999], 16_376);
    let table = b.table.clone();
    for (used, records) in [(16_384, 1_000), (16_377, 5), (0, 1_000)] {
        (b.board.used, b.board.records) = (used, records);
        assert_eq!((b.line("133").as_str(), &b.table), ("6", &table));
    }
}

/// What a run of this program answers, with entries of its table set to others before.
fn run_with(lines: &[&str], entries: &[(usize, u16)]) -> String {
    let (mut b, _) = Bench::with_program(1, lines);
    for &(place, start) in entries {
        b.table[place] = start;
    }
    b.line("@0S");
    let answers = b.answers();
    assert_eq!(b.board.records == 0, answers.ends_with("!G"));
    answers
}

#[test]
fn the_record_at_the_tables_byte() {
    assert_eq!(run_with(THREE, &[]), "!! +.. !\" !0");
    assert_eq!(run_with(THREE, &[(1, 0), (2, 8)]), "!! !! +.. !0");
    assert_eq!(run_with(THREE, &[(0, 20), (2, 0)]), "!\" +.. !! !0");
    assert_eq!(run_with(THREE, &[(3, 0), (4, 60_000), (999, 1)]), "!! +.. !\" !0");
    for wrong in [1, 2, 4, 7, 9, 16, 19, 21, 27, 28, 29, 16_383, 16_384, 16_385, 65_535] {
        assert_eq!(run_with(THREE, &[(1, wrong)]), "!! !G", "{wrong}");
        assert_eq!(run_with(THREE, &[(0, wrong)]), "!G", "{wrong}");
    }
}

/// A record's numbers may be a record of their own.
#[test]
fn a_record_inside_of_another() {
    // the numbers 0x01312BD7 (too large for a distance) and 35 have the bytes of a record that sends `#`
    let (mut b, _) = Bench::with_program(1, &["133", "0 1,600"]);
    b.store[12..16].copy_from_slice(&[0xD7, 0x2B, b'1', 1]);
    b.store[16..20].copy_from_slice(&[35, 0, 0, 0]);
    b.table[0] = 12;
    b.line("@0S");
    assert_eq!(b.answers(), "!# !G"); // the whole one is wrong
}

#[test]
fn a_record_half_outside() {
    for (used, answers) in
        [(28, "!! +.. !\" !0"), (27, "!! +.. !G"), (24, "!! +.. !G"), (19, "!! !G"), (8, "!! !G")]
    {
        let (mut b, _) = Bench::with_program(1, THREE);
        b.board.used = used;
        b.line("@0S");
        assert_eq!(b.answers(), answers, "{used}");
    }
}

/// The end place has no entry when there are 1,000 records.
#[test]
fn the_end_place_is_not_looked_up() {
    let mut lines = vec!["133"; 1_000];
    (lines[0], lines[999]) = ("3 0,999", "3 0,1");
    let (mut b, _) = Bench::with_program(1, &lines);
    assert!((0..1_000).zip(&b.table).all(|(place, &start)| start == (8 * place) + 4 * (place > 0) as u16));
    b.line("@0S");
    assert_eq!(b.answers(), "d d !0");
    for entry in [0, 20, 28, 65_535] {
        assert_eq!(run_with(THREE, &[(3, entry)]), "!! +.. !\" !0");
    }
}

#[test]
fn filling() {
    let (mut b, _) = Bench::with_program(1, THREE);
    let right = b.table.clone();
    b.table[..4].copy_from_slice(&[9, 9, 9, 9]);
    assert_eq!(fill(&b.store, part(&b), &mut b.table), Ok(()));
    assert_eq!((&b.table[..3], b.table[3], &b.table[4..]), (&right[..3], 9, &right[4..]));
    b.table.fill(9);
    for (used, records, axes) in
        [(27, 3, 1), (28, 2, 1), (28, 4, 1), (36, 3, 1), (28, 3, 3), (28, 0, 1), (0, 1, 1), (28, 3, 0)]
    {
        assert_eq!(fill(&b.store, Part { used, records, axes }, &mut b.table), Err(b'G'));
    }
    for (used, records) in [(16_385, 3), (u32::MAX, 3), (28, 1_001), (28, u32::MAX), (16_385, 0)] {
        assert_eq!(fill(&b.store, Part { used, records, axes: 1 }, &mut b.table), Err(b'G'));
    }
    for axes in 0..=255 {
        assert_eq!(fill(&b.store, Part { used: 0, records: 0, axes }, &mut b.table), Ok(()));
    }
    assert_eq!(b.table, [9; TABLE]);
}

/// A movement is right under no axes but a board's.
#[test]
fn filling_under_other_axes() {
    let (mut b, _) = Bench::with_program(15, &["n5", "n8", "133", "0 0,600,0,600,0,600,1,600"]);
    let mut filled = |used, records, axes| {
        b.table[..5].fill(9);
        let answer = fill(&b.store, Part { used, records, axes }, &mut b.table);
        assert_eq!(b.table[4], 9);
        answer.map(|()| b.table[..4].to_vec())
    };
    for axes in [5, 9, 11, 13, 17, 21, 25, 255] {
        assert_eq!(filled(8, 1, axes), Ok(vec![0, 9, 9, 9]));
        let two = if axes & 8 != 0 { Ok(vec![0, 8, 16, 9]) } else { Err(b'G') };
        assert_eq!(filled(24, 3, axes), two);
        assert_eq!(filled(60, 4, axes), Err(b'G'));
    }
    for axes in [0, 1, 2, 3, 4, 6, 8, 10, 12, 14, 16, 24, 254] {
        assert_eq!(filled(8, 1, axes), Err(b'G'));
    }
    assert_eq!(filled(60, 4, 15), Ok(vec![0, 8, 16, 24]));
}

#[test]
fn filling_refused_in_order() {
    let (b, _) = Bench::with_program(1, THREE);
    let wrong = Part { used: 1, ..part(&b) };
    for (store, table, refusal) in
        [(16_383, 999, 102), (0, 1_000, 102), (16_384, 999, 104), (16_384, 1_001, 104), (16_384, 1_000, b'G')]
    {
        let mut entries = vec![7; table];
        assert_eq!(fill(&b.store[..store], wrong, &mut entries), Err(refusal));
        assert_eq!(entries, vec![7; table]);
    }
}

/// What was stored and what is filled in are the starts of the walk, and every place is found as by the walk.
#[test]
fn the_table_is_the_walk() {
    let mut rng = Rng::new(30);
    for _ in 0..2_000 {
        let axes = rng.pick(&[1, 3, 7]);
        let taste = Taste::any(&mut rng, axes);
        let lines = gen_part::sound(&mut rng, taste);
        let (mut b, _) = Bench::with_program(axes, &lines.iter().map(String::as_str).collect::<Vec<_>>());
        let mut walked = Vec::new();
        assert!(record::walk(&b.store, b.board.used as usize, axes, b.board.records, |r| walked.push(*r)));
        for (place, record) in (0..).zip(&walked) {
            let found = record::find(&b.store, b.board.used as usize, axes, &b.table, place);
            assert_eq!(found.as_ref(), Some(record));
        }
        let stored = b.table.clone();
        b.table[..walked.len()].fill(1);
        fill(&b.store, part(&b), &mut b.table).unwrap();
        assert_eq!(b.table, stored);
        assert!(b.board.records <= RECORDS);
    }
}

/// The bytes of lines for the board, each with its return, as a script.
fn sent(lines: &[&str]) -> String {
    let bytes = lines.iter().flat_map(|line| line.bytes().chain([13]));
    bytes.map(|b| format!("B {b}\n")).collect()
}

/// What a script prints behind a stored program of the three records, parted by `|`, without the replies `-`.
fn behind(script: &str) -> String {
    let stored = sent(&[&["@01", "@0i"], THREE, &["9"]].concat());
    let text = printed(format!("{stored}{}", script.replace('|', "\n")).as_bytes());
    let said: Vec<&str> = text.lines().filter(|line| *line != "B -").collect();
    said[6..].join("|")
}

#[test]
fn lines_of_a_script() {
    all_right(
        &["T 0 0", "T 999 65535", "U 0", "U 2000", "V 0", "V 999", "F", "V -0", "T 0000000001 1"],
        true,
    );
    all_right(&["T 1000 0", "T 0 65536", "T -1 0", "T 0 -1", "T 0", "T 0 0 0", "U 2001", "U -1", "U"], false);
    all_right(&["V 1000", "V -1", "V", "V 0 0", "F 0", "F ", "f", "t 0 0"], false);
    assert_eq!(behind("V 0|V 1|V 2|V 3|T 2 65535|V 2"), "V 0|V 8|V 20|V 0|V 65535");
    assert_eq!(behind("T 1 7|T 3 9|F|V 1|V 3|K 28 2 1|F|K 28 1001 1|F|K 0 0 9|F"), "F 0|V 8|V 9|F G|F G|F 0");
}

#[test]
fn tables_of_other_lengths() {
    let start = "B 64|B 48|B 83|B 13";
    for n in [0, 1, 999, 1_001, 2_000] {
        let lent = format!("U {n}");
        assert_eq!(behind(&format!("{lent}|B 64|B 64")), "B 104");
        assert_eq!(behind(&format!("{lent}|C 2")), "C 104|C Nothing");
        assert_eq!(behind(&format!("{start}|{lent}|Q 9")), "C 104|Q over");
        assert_eq!(behind(&format!("{start}|{lent}|Q 0|Q 0")), "Q over|Q more");
        assert_eq!(behind(&format!("{lent}|L|F")), "L 133|L 01,600|L 134|L 9|F 0");
        assert_eq!(behind(&format!("T 1 3|{lent}|F|V 1|F|V 1")), "F 104|V 3|F 0|V 8");
        assert_eq!(
            behind(&format!("H axes 2|{lent}|R 31|B 1|{lent}|M 1|C 1|{lent}|B 1")),
            "B 101|C 102|B 103"
        );
        assert_eq!(behind(&format!("{lent}|M 16383|F|{lent}|R 0|F|F")), "F 102|F 104|F 0");
    }
    assert_eq!(behind(&format!("{start}|U 1000|C 1|U 999|U 1000|C 1")), "C Send 33|C Pulse +... 600");
}
