//! Joins of two programs: the bytes, the table, every refusal and their order.

use crate::Bench;
use trial::join::{join, Part};
use trial::record::STORE;
use trial::table::TABLE;

/// A program with its store and its table.
#[derive(Clone, PartialEq, Debug)]
pub struct Given {
    pub store: Vec<u8>,
    pub table: Vec<u16>,
    pub part: Part,
}

impl Given {
    fn with(self, used: u32, records: u32, axes: u8) -> Given {
        Given { part: Part { used, records, axes }, ..self }
    }

    fn under(self, axes: u8) -> Given {
        let Part { used, records, .. } = self.part;
        self.with(used, records, axes)
    }

    fn bytes(&self) -> &[u8] {
        &self.store[..self.part.used as usize]
    }
}

/// These lines as they are stored, whether the end line would accept them or not, with other bytes and entries
/// behind.
pub fn stored<T: AsRef<str>>(axes: u8, lines: &[T]) -> Given {
    let mut b = Bench::with_axes(axes);
    b.store.fill(axes + 40);
    b.table.fill(50_000);
    b.line("@0i");
    lines.iter().for_each(|line| assert_eq!(b.line(line.as_ref()), "0", "{}", line.as_ref()));
    let part = Part { used: b.board.used, records: b.board.records, axes: b.board.store_axes };
    Given { store: b.store, table: b.table, part }
}

fn empty(axes: u8) -> Given {
    stored::<&str>(7, &[]).under(axes)
}

/// Where so many records start, by their counts of numbers alone.
fn starts(store: &[u8], records: u32) -> Vec<u16> {
    let next = |&at: &u16| Some(at + 4 + 4 * u16::from(store[at as usize + 3]));
    std::iter::successors(Some(0), next).take(records as usize).collect()
}

/// The bytes of the two, then those that were there, and the starts of all their records, then the entries that
/// were there: all as they were if it is refused.
pub fn joined(first: &Given, second: &Given) -> Result<Given, u8> {
    let (mut store, mut table) = (first.store.clone(), first.table.clone());
    let answer = join(&mut store, &mut table, first.part, &second.store, second.part);
    let (mut expected, mut entries) = (first.store.clone(), first.table.clone());
    if let Ok(part) = answer {
        let both = [first.bytes(), second.bytes()].concat();
        expected[..both.len()].copy_from_slice(&both);
        let records = first.part.records + second.part.records;
        assert_eq!((part.used as usize, part.records), (both.len(), records));
        entries[..records as usize].copy_from_slice(&starts(&both, records));
    }
    assert!(store == expected && table == entries, "{answer:?}");
    answer.map(|part| Given { store, table, part })
}

/// The joined program's bytes and records, written under these axes, are those of these lines.
fn same(first: &[&str], second: &[&str]) {
    for axes in [1, 3, 7] {
        let both = joined(&stored(axes, first), &stored(axes, second)).unwrap();
        let whole = stored(axes, &[first, second].concat());
        let (made, wanted) = ((both.part, both.bytes()), (whole.part, whole.bytes()));
        assert_eq!((made, &both.table), (wanted, &whole.table), "{first:?} {second:?}");
    }
}

fn refused(first: &[&str], second: &[&str], refusal: u8) {
    for axes in [1, 3, 7] {
        let answer = joined(&stored(axes, first), &stored(axes, second)).map(|both| both.part);
        assert_eq!(answer, Err(refusal), "{first:?} {second:?}");
    }
}

#[test]
fn one_behind_the_other() {
    same(&["133"], &["134"]);
    same(&["z1", "133", "3 2,-1", "5 3"], &["133", "3 0,-1", "2 34,1", "n1"]);
    same(&["133", "134", "3 1,-1", "3 2,-3"], &["133", "3 1,-1", "135", "3 1,-3", "3 0,1"]);
    same(&["3 0,0"], &["133", "3 0,0"]);
}

#[test]
fn movements_of_all_axes() {
    let lines = ["0 1,600", "0 1,600,2,700", "0 1,600,2,700,3,800,4,900"];
    for (axes, line) in [1, 3, 7].into_iter().zip(lines) {
        let both = joined(&stored(axes, &[line, "z1"]), &stored(axes, &["n1", line])).unwrap();
        assert_eq!(both.bytes(), stored(axes, &[line, "z1", "n1", line]).bytes());
        assert_eq!(both.part.axes, axes);
    }
}

/// A jump to the first one's end place then goes to the second one's start.
#[test]
fn to_the_end() {
    same(&["3 0,1"], &["133"]);
    same(&["233,2", "133"], &["134", "3 0,-1", "3 0,1"]);
    same(&["3 0,3", "133", "3 1,-1"], &["134", "135", "3 1,-1"]);
    same(&["133", "3 1,-1"], &["133", "3 1,-1"]); // no jump, but on from one range into the next
    same(&["133", "3 1,-1", "3 0,1"], &["133"]); // the first one's own range from 0
    same(&["133"], &["133", "3 1,-1", "3 0,1"]); // both are the second one's
    same(&["3 0,1", "133"], &["133", "3 1,-1"]); // to the last record
    same(&["233,0"], &["133", "3 1,-1"]);
    let (mut b, _) = Bench::with_program(1, &["3 0,2", "133"]);
    let both = joined(&stored(1, &["3 0,2", "133"]), &stored(1, &["134"])).unwrap();
    (b.store, b.table) = (both.store, both.table);
    (b.board.used, b.board.records) = (both.part.used, both.part.records);
    b.line("@0S");
    assert_eq!(b.answers(), "d !\" !0");
}

#[test]
fn into_a_range_from_the_start() {
    for first in [&["3 0,1"][..], &["233,1"], &["3 0,2", "133"], &["133", "2 34,1"], &["233,2", "3 0,1"]] {
        refused(first, &["133", "3 1,-1"], b'G');
        refused(first, &["133", "134", "3 1,-1", "3 2,-3"], b'G');
        refused(first, &["133", "3 1,-1", "3 1,-2", "134", "3 0,1"], b'G');
        same(first, &["133", "134", "3 1,-1"]);
        same(first, &["3 0,0"]);
    }
}

#[test]
fn axes_that_differ() {
    let (one, two) = (stored(1, &["133"]), stored(1, &["134"]));
    for (axes, other) in [
        (1, 3),
        (3, 1),
        (7, 3),
        (1, 7),
        (1, 0),
        (0, 7),
        (2, 3),
        (255, 1),
        (3, 131),
        (7, 15),
        (15, 7),
        (8, 15),
        (1, 8),
        (8, 0),
    ] {
        assert_eq!(joined(&one.clone().under(axes), &two.clone().under(other)), Err(b'3'));
    }
    for axes in (0..=255).filter(|axes| ![1, 3, 7, 8, 15].contains(axes)) {
        assert_eq!(joined(&one.clone().under(axes), &two.clone().under(axes)), Err(b'3'));
        assert_eq!(joined(&one.clone().under(axes), &empty(1)), Err(b'3'));
        assert_eq!(joined(&empty(7), &one.clone().under(axes)), Err(b'3'));
        assert_eq!(joined(&empty(axes), &empty(axes)), Err(b'3'));
    }
}

/// Beside one that is not empty, an empty part's axes are not looked at.
#[test]
fn empty_parts() {
    let lines = ["133", "3 1,-1", "3 0,1"];
    for axes in [1, 3, 7, 8, 15] {
        let part = stored(axes, &lines);
        for own in 0..=255 {
            assert_eq!(joined(&part, &empty(own)), Ok(part.clone()));
            let behind = joined(&empty(own), &part).unwrap();
            assert_eq!((behind.part, behind.bytes()), (part.part, part.bytes()));
            let both = joined(&empty(axes), &empty(own)).map(|both| both.part);
            let none = Part { used: 0, records: 0, axes };
            assert_eq!(both, if own == axes { Ok(none) } else { Err(b'3') });
        }
    }
}

/// A part as the first and as the second, beside a right one and beside an empty one.
fn not_accepted(part: Given) {
    for beside in [stored(part.part.axes, &["133"]), empty(part.part.axes)] {
        assert_eq!(joined(&part, &beside), Err(b'G'), "{:?}", part.part);
        assert_eq!(joined(&beside, &part), Err(b'G'), "{:?}", part.part);
    }
    assert_eq!(joined(&part, &part), Err(b'G'), "{:?}", part.part);
}

#[test]
fn bytes_without_records() {
    for used in [1, 4, 8, 16, 16_384, 16_385, 65_535, u32::MAX] {
        not_accepted(stored(3, &["133"]).with(used, 0, 3));
        assert_eq!(joined(&stored(3, &["133"]), &empty(1).with(used, 0, 1)), Err(b'G'));
        assert_eq!(joined(&empty(1).with(used, 0, 1), &empty(3)), Err(b'3'));
    }
}

#[test]
fn more_than_a_store_holds() {
    let part = stored(3, &["133", "134"]);
    for (used, records) in [(16, 1_001), (16, 65_535), (16_385, 2), (16_400, 3), (65_535, 2)] {
        not_accepted(part.clone().with(used, records, 3));
    }
    not_accepted(part.clone().with(u32::MAX, 2, 3));
    not_accepted(part.clone().with(16, u32::MAX, 3));
    not_accepted(part.with(u32::MAX, u32::MAX, 3));
    let mut many = stored(1, &["133"; 1_000]);
    many.store.copy_within(0..8, 8_000);
    not_accepted(many.with(8_008, 1_001, 1));
}

#[test]
fn not_readable() {
    let part = stored(3, &["133", "0 1,600,2,700"]);
    for (used, records) in [(28, 1), (28, 3), (27, 2), (29, 2), (20, 2), (36, 2), (0, 2), (0, 1)] {
        not_accepted(part.clone().with(used, records, 3));
    }
    not_accepted(part.clone().under(1));
    not_accepted(part.clone().under(7));
    not_accepted(stored(7, &["n4"]).under(3));
    for (at, byte) in [(0, 0), (1, 0), (2, b'9'), (3, 2), (4, 32), (7, 1), (8, 0), (10, b'm'), (17, 40)] {
        let mut spoiled = part.clone();
        spoiled.store[at] = byte;
        let right = at == 10;
        assert_eq!(joined(&spoiled, &empty(0)).is_ok(), right, "{at}");
        if !right {
            not_accepted(spoiled);
        }
    }
}

#[test]
fn not_passing_the_check() {
    let tower: Vec<String> = (1..=8).map(|k| format!("3 1,-{k}")).collect();
    let tower: Vec<&str> = ["133"].into_iter().chain(tower.iter().map(String::as_str)).collect();
    same(&tower[..8], &tower[..8]);
    for lines in [
        &["3 0,2"][..],
        &["3 0,-1"],
        &["133", "2 33,2"],
        &["133", "3 1,-2"],
        &["133", "3 25,-1", "3 2,-1"],
        &["3 0,1", "133", "3 1,-1"],
        &["133", "3 0,2", "3 1,-2"],
        &tower,
    ] {
        [1, 3, 7].into_iter().for_each(|axes| not_accepted(stored(axes, lines)));
    }
}

/// A target that lies in the other part is outside its own.
#[test]
fn targets_in_the_other_part() {
    refused(&["3 0,2"], &["133", "134"], b'G');
    refused(&["133", "134"], &["3 0,-1"], b'G');
    refused(&["133", "134"], &["133", "3 1,-2"], b'G');
}

fn many(axes: u8, line: &str, count: usize) -> Given {
    stored(axes, &vec![line; count])
}

#[test]
fn room_for_records() {
    for (one, other) in [(1, 999), (999, 1), (500, 500), (1_000, 0), (0, 1_000)] {
        assert!(joined(&many(1, "133", one), &many(1, "z0", other)).is_ok());
    }
    for (one, other) in [(1_000, 1), (1, 1_000), (500, 501), (1_000, 1_000)] {
        assert_eq!(joined(&many(3, "133", one), &many(3, "z0", other)), Err(b'6'));
    }
}

/// Of 36 bytes each, 454 and 40 bytes more are a store.
#[test]
fn room_for_bytes() {
    let wide = "0 1,600,2,700,3,800,4,900";
    let (most, rest) = (many(7, wide, 454), many(7, "133", 5));
    let full = joined(&most, &rest).unwrap();
    assert_eq!((full.part.used, full.part.records), (16_384, 459));
    assert!(joined(&rest, &most).is_ok());
    assert_eq!(joined(&full, &empty(0)), Ok(full.clone()));
    assert_eq!(joined(&full, &many(7, "133", 1)), Err(b'6'));
    assert_eq!(joined(&many(7, "133", 1), &full), Err(b'6'));
    assert_eq!(joined(&full, &full), Err(b'6'));
    let more = stored(7, &["133", "134", "135", "136", "2 33,0"]);
    assert_eq!(joined(&most, &more), Err(b'6'));
}

/// 102 comes before 104, and both before the rest.
#[test]
fn buffers_of_another_length() {
    let (part, right) = (stored(3, &["133"]), vec![0; STORE]);
    for (length, entries) in [(0, 1_000), (8, 999), (16_383, 1_001), (16_385, 0), (32_768, 1_000)] {
        for (first, second) in [(part.part, part.part), (Part { axes: 2, ..part.part }, empty(0).part)] {
            let (mut other, mut store, mut table) = (vec![9; length], part.store.clone(), vec![7; entries]);
            assert_eq!(join(&mut other, &mut table, first, &right, second), Err(102));
            assert_eq!(join(&mut other, &mut table, first, &vec![9; length], second), Err(102));
            assert_eq!(join(&mut store, &mut table, first, &other, second), Err(102));
            if entries != TABLE {
                assert_eq!(join(&mut store, &mut table, first, &right, second), Err(104));
            }
            assert_eq!((other, table), (vec![9; length], vec![7; entries]));
            assert_eq!(store, part.store);
        }
    }
}

/// Where several refusals are due, the earliest is given.
#[test]
fn their_order() {
    let faulty = stored(1, &["3 0,2"]);
    assert_eq!(joined(&faulty, &faulty.clone().under(3)), Err(b'3'));
    assert_eq!(joined(&faulty.clone().with(65_535, 65_535, 2), &empty(2)), Err(b'3'));
    let (most, more) = (many(1, "133", 1_000), many(1, "133", 1));
    assert_eq!(joined(&most, &more.under(3)), Err(b'3'));
    assert_eq!(joined(&most, &faulty), Err(b'G'));
    assert_eq!(joined(&faulty, &most), Err(b'G'));
    let mut to_end = vec!["133"; 999];
    to_end.push("3 0,1");
    let (to_end, range) = (stored(1, &to_end), stored(1, &["133", "3 1,-1"]));
    assert_eq!(joined(&to_end, &range), Err(b'G'));
    assert_eq!(joined(&most, &range), Err(b'6'));
    assert_eq!(joined(&to_end, &stored(1, &["133", "133", "3 1,-1"])), Err(b'6'));
}
