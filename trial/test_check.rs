//! The check at the end line, the store's bytes, its limits and the listing.

use crate::Bench;

/// The reply to `9` behind these lines. Whatever it says, but 0, the store is emptied.
fn at_nine<T: AsRef<str>>(lines: &[T]) -> String {
    let lines: Vec<&str> = lines.iter().map(AsRef::as_ref).collect();
    let (b, last) = Bench::with_program(1, &lines);
    let kept = (b.board.used, b.board.records, b.board.store_axes);
    assert_eq!(kept == (0, 0, 0), last != "0" || lines.is_empty());
    last
}

/// The same with so many loops behind the lines, all with ranges from one place on, the first with this
/// offset.
fn with_tower(lines: &[&str], count: i64, offset: i64) -> String {
    let tower = (0..count).map(|k| format!("3 1,{}", offset - k));
    at_nine(&lines.iter().map(|line| line.to_string()).chain(tower).collect::<Vec<_>>())
}

#[test]
fn targets() {
    assert_eq!(at_nine(&["133", "3 0,1"]), "0");
    assert_eq!(at_nine(&["3 0,2", "133"]), "0");
    assert_eq!(at_nine(&["3 0,3", "133"]), "Ga0000");
    assert_eq!(at_nine(&["3 0,0"]), "0");
    assert_eq!(at_nine(&["133", "3 0,-1"]), "0");
    assert_eq!(at_nine(&["133", "3 0,-2"]), "Ga0001");
    assert_eq!(at_nine(&["233,1"]), "0");
    assert_eq!(at_nine(&["233,2"]), "Ga0000");
    assert_eq!(at_nine(&["133", "134", "233,-3"]), "Ga0002");
    assert_eq!(at_nine(&["133", "3 0,32767"]), "Ga0001");
    assert_eq!(at_nine(&["133", "3 0,-32768"]), "Ga0001");
}

#[test]
fn ranges_too_early() {
    assert_eq!(at_nine(&["3 1,-1"]), "Gb0000");
    assert_eq!(at_nine(&["133", "3 1,-1"]), "0");
    assert_eq!(at_nine(&["133", "3 1,-2"]), "Gb0001");
    assert_eq!(at_nine(&["133", "3 1,-1", "3 1,-32768"]), "Gb0002");
}

#[test]
fn overlaps() {
    assert_eq!(at_nine(&["133", "3 25,-1", "3 2,-1"]), "Gc0002");
    assert_eq!(at_nine(&["133", "3 25,-1", "3 2,-2"]), "0");
    assert_eq!(at_nine(&["133", "134", "3 1,-1", "3 1,-3"]), "0");
    assert_eq!(at_nine(&["133", "134", "3 1,-2", "135", "3 1,-3"]), "Gc0004");
    assert_eq!(at_nine(&["133", "3 1,-1", "134", "3 1,-1"]), "0"); // side by side
}

/// The later loop of each two counts, and of these the first.
#[test]
fn overlaps_of_three() {
    // 0 to 2, 1 to 3, 2 to 4: each with each
    assert_eq!(at_nine(&["133", "134", "3 1,-2", "3 1,-2", "3 1,-2"]), "Gc0003");
    // 0 to 3 and, in it, 1 to 2: both overlap 2 to 4
    assert_eq!(at_nine(&["133", "134", "3 1,-1", "3 1,-3", "3 1,-2"]), "Gc0004");
    // 1 to 2, held by 0 to 3; 3 to 4 overlaps the outer one alone
    assert_eq!(at_nine(&["133", "134", "3 1,-1", "3 1,-3", "3 1,-1"]), "Gc0004");
    // 0 to 1 and 3 to 4 side by side; 1 to 5 overlaps the first and holds the second
    assert_eq!(at_nine(&["133", "3 1,-1", "134", "135", "3 1,-1", "3 1,-4"]), "Gc0005");
}

#[test]
fn depth() {
    assert_eq!(with_tower(&["133"], 7, -1), "0");
    assert_eq!(with_tower(&["133"], 8, -1), "Gd0000"); // a place that is no loop
    assert_eq!(with_tower(&["133", "134", "135"], 8, -1), "Gd0002");
    assert_eq!(with_tower(&["133", "134", "135"], 8, -2), "Gd0001");
    assert_eq!(with_tower(&["133", "3 1,-1"], 7, -1), "Gd0001"); // a loop's own place
    assert_eq!(with_tower(&["133", "134", "3 1,-1"], 7, -3), "Gd0001"); // seven from 0 on, one from 1 on
}

#[test]
fn jumps_across() {
    assert_eq!(at_nine(&["3 0,1", "133", "3 1,-1"]), "Ge0000"); // to a loop's start from outside
    assert_eq!(at_nine(&["3 0,2", "133", "3 1,-1"]), "Ge0000"); // to its record from outside
    assert_eq!(at_nine(&["3 0,3", "133", "3 1,-1"]), "0"); // over it
    assert_eq!(at_nine(&["3 0,1", "3 1,-1"]), "0"); // inside, to the loop record
    assert_eq!(at_nine(&["3 0,2", "3 1,-1"]), "Ge0000"); // out of it, to the end place
    assert_eq!(at_nine(&["233,2", "3 1,-1", "133"]), "Ge0000");
    assert_eq!(at_nine(&["133", "3 1,-1", "3 0,-1"]), "Ge0002"); // back into it
    assert_eq!(at_nine(&["133", "3 1,-1", "3 0,-2"]), "Ge0002");
    assert_eq!(at_nine(&["3 0,3", "133", "3 1,-1", "134", "3 1,-1"]), "Ge0000"); // over one, into another
    assert_eq!(at_nine(&["3 0,3", "3 1,-1", "133", "134", "3 1,-1"]), "Ge0000");
    // from one into another
}

/// A range that starts below 0 holds the places from 0 on, for `d` and for `e`.
#[test]
fn early_ranges_hold() {
    assert_eq!(at_nine(&["3 0,3", "z0", "3 1,-5"]), "Ge0000");
    assert_eq!(at_nine(&["3 0,2", "z0", "3 1,-5"]), "Gb0002");
    assert_eq!(at_nine(&["133", "3 0,2", "3 1,-3", "134"]), "Ge0001");
    assert_eq!(with_tower(&["133"], 8, -2), "Gd0000");
    assert_eq!(with_tower(&["133"], 7, -2), "Gb0001");
    assert_eq!(with_tower(&["133", "3 1,-1", "3 1,-30000"], 6, -3), "Gd0000");
    assert_eq!(with_tower(&["133", "3 1,-1", "3 1,-30000"], 5, -3), "Gb0002");
}

#[test]
fn the_smallest_place() {
    assert_eq!(at_nine(&["3 0,9", "3 1,-2"]), "Ga0000");
    assert_eq!(at_nine(&["133", "3 1,-2", "3 0,9"]), "Gb0001");
    assert_eq!(at_nine(&["133", "3 1,-1", "3 0,-1", "3 0,9"]), "Ge0002");
    assert_eq!(at_nine(&["133", "3 1,-1", "3 1,-1", "3 1,-9"]), "Gc0002");
    assert_eq!(at_nine(&["233,9", "233,-9", "233,8"]), "Ga0000");
    assert_eq!(with_tower(&["133", "3 0,99"], 8, -2), "Gd0000");
    assert_eq!(with_tower(&["3 0,1", "133"], 8, -1), "Ge0000");
    assert_eq!(with_tower(&["133", "3 1,-1", "3 1,-1"], 8, -1), "Gc0002");
}

#[test]
fn the_earlier_letter_at_one_place() {
    assert_eq!(with_tower(&["133", "134"], 8, -1), "Gd0001");
    assert_eq!(with_tower(&["133", "3 0,99"], 8, -1), "Ga0001"); // and d
    assert_eq!(with_tower(&["133", "3 1,-2"], 7, -1), "Gb0001"); // and d
    assert_eq!(with_tower(&["133", "3 1,-1", "3 1,-1"], 7, -1), "Gc0002"); // and d
    assert_eq!(with_tower(&["133", "3 0,-1"], 8, -1), "Gd0001"); // and e
    assert_eq!(with_tower(&["133", "234,9"], 8, -1), "Gd0001"); // and e
}

/// A program of so many records that has this line last.
fn long(records: usize, last: &str) -> Vec<&str> {
    [vec!["133"; records - 1], vec![last]].concat()
}

#[test]
fn the_last_place() {
    assert_eq!(at_nine(&long(1_000, "3 0,1")), "0");
    assert_eq!(at_nine(&long(1_000, "3 0,2")), "Ga0999");
    assert_eq!(at_nine(&long(1_000, "3 1,-999")), "0");
    assert_eq!(at_nine(&long(1_000, "3 1,-1000")), "Gb0999");
    let mut lines = long(1_000, "3 1,-1");
    lines[998] = "3 1,-1";
    assert_eq!(at_nine(&lines), "Gc0999");
    lines[999] = "2 33,-1";
    assert_eq!(at_nine(&lines), "Ge0999");
    lines[0] = "3 0,998";
    assert_eq!(at_nine(&lines), "Ge0000");
    assert_eq!(at_nine(&long(88, "3 0,2")), "Ga0087");
}

#[test]
fn a_single_g() {
    let spoilt = |alter: fn(&mut Bench)| {
        let mut b = Bench::with_axes(1);
        for line in ["@0i", "133", "3 0,9", "3 1,-9"] {
            assert_eq!(b.line(line), "0");
        }
        alter(&mut b);
        let last = b.line("9");
        assert_eq!((b.board.used, b.board.records, b.board.store_axes), (0, 0, 0));
        last
    };
    assert_eq!(spoilt(|_| {}), "Ga0001");
    assert_eq!(spoilt(|b| b.store[0] = 0), "G");
    assert_eq!(spoilt(|b| b.store[22] = b'4'), "G"); // the last record's code
    assert_eq!(spoilt(|b| b.board.used -= 1), "G");
    assert_eq!(spoilt(|b| b.board.records -= 1), "G");
    assert_eq!(spoilt(|b| b.store[16] = 0), "Gb0002"); // now it jumps to itself
    assert_eq!(spoilt(|b| b.board.store_axes = 7), "Ga0001");
}

#[test]
fn a_single_g_from_a_start() {
    let (mut b, last) = Bench::with_program(1, &["133"]);
    assert_eq!((last.as_str(), b.line("@03"), b.line("@0S")), ("0", "0".to_string(), "G".to_string()));
    assert_eq!(b.board.records, 1);
}

#[test]
fn the_reply_alone_is_written() {
    let mut b = Bench::with_axes(1);
    for line in ["@0i", "3 0,9"] {
        b.line(line);
    }
    b.byte(b'9');
    let mut reply = [7; 40];
    assert_eq!(b.receive(13, &mut reply), Ok(6));
    assert_eq!(reply[..6], *b"Ga0000");
    assert_eq!(reply[6..], [7; 34]);
}

#[test]
fn bytes_of_a_record() {
    let (b, _) = Bench::with_program(1, &["0 -2,600", "3 0,0"]);
    let bytes = [
        0xD7, 0x2B, b'0', 2, 0xFE, 0xFF, 0xFF, 0xFF, 0x58, 2, 0, 0, 0xD7, 0x2B, b'3', 2, 0, 0, 0, 0, 0, 0, 0,
        0, 0,
    ];
    assert_eq!(b.store[..25], bytes);
    assert_eq!((b.board.used, b.board.records, b.board.store_axes), (24, 2, 1));
}

#[test]
fn a_thousand_records() {
    let mut b = Bench::with_axes(1);
    b.line("@0i");
    (0..1_000).for_each(|_| assert_eq!(b.line("133"), "0"));
    assert_eq!(b.line("133"), "6");
    assert_eq!(b.line("132"), "1");
    assert_eq!((b.board.used, b.line("9").as_str()), (8_000, "0"));
}

#[test]
fn sixteen_thousand_bytes() {
    let mut b = Bench::with_axes(7);
    b.line("@0i");
    (0..455).for_each(|_| assert_eq!(b.line("00,30,0,30,0,30,0,30"), "0"));
    assert_eq!(b.line("00,30,0,30,0,30,0,30"), "6"); // 455 x 36 = 16,380
    assert_eq!(b.line("z1"), "6"); // eight bytes, four left
    assert_eq!((b.board.used, b.line("9").as_str()), (16_380, "0"));
}

#[test]
fn listing_and_storing_again() {
    let lines = [
        "0 -1,600,007,900,0,30,-0,10000",
        "m1,30,2,40,3,50,0,60",
        "n 7",
        "z0",
        "3 2,-2",
        "5 65535",
        "1 33",
        "2126,-2",
    ];
    let (b, last) = Bench::with_program(7, &lines);
    assert_eq!(last, "0");
    let text = b.listing().unwrap();
    let wanted = "0-1,600,7,900,0,30,0,10000\rm1,30,2,40,3,50,0,60\rn7\rz0\r32,-2\r565535\r133\r2126,-2\r9\r";
    assert_eq!(text, wanted);
    let mut again = Bench::with_axes(7);
    again.line("@0i");
    for line in text.split_terminator('\r') {
        assert_eq!(again.line(line), "0");
    }
    assert_eq!((again.store, again.board), (b.store, b.board));
}

#[test]
fn listing_an_empty_store() {
    assert_eq!(Bench::fresh().listing().unwrap(), "9\r");
}
