//! Joins of random parts: what holds for every one, and which of them are generated.

use crate::axes;
use crate::gen_join;
use crate::gen_part::{self, Taste};
use crate::rng::Rng;
use crate::test_join::{joined, stored, Given};
use crate::Bench;
use trial::board::{Board, Job};
use trial::check::{check, Verdict};
use trial::join::Part;
use trial::record::{self, Record, STORE};
use trial::table::TABLE;

/// A generated part with its whole store.
fn given(part: &gen_part::Part) -> Given {
    let mut store = part.bytes.clone();
    store.resize(STORE, 0);
    let (used, records) = (part.used as u32, part.records as u32);
    Given { store, table: vec![0; TABLE], part: Part { used, records, axes: part.axes as u8 } }
}

fn verdict(given: &Given) -> Verdict {
    let Part { used, records, axes } = given.part;
    check(&given.store, used as usize, axes, records)
}

/// The records of a readable program.
fn records(given: &Given) -> Vec<Record> {
    let Part { used, records, axes } = given.part;
    let mut all = Vec::new();
    assert!(record::walk(&given.store, used as usize, axes, records, |r| all.push(*r)));
    all
}

/// Whether a record of this kind names this place, in a program as a list: `loops` or else jumps and waits.
fn names(records: &[Record], loops: bool, place: usize) -> bool {
    let kind = |r: &Record| match r.code {
        b'3' => (r.values[0] > 0) == loops,
        code => code == b'2' && !loops,
    };
    (0..).zip(records).any(|(own, r)| kind(r) && own + r.values[1] == place as i32)
}

fn random(rng: &mut Rng) -> (Taste, Vec<String>) {
    let axes = rng.pick(&axes::ALL);
    let taste = Taste::any(rng, axes);
    (taste, gen_part::sound(rng, taste))
}

#[test]
fn generated_parts_are_sound() {
    let mut rng = Rng::new(20);
    for _ in 0..5_000 {
        let (taste, lines) = random(&mut rng);
        let (program, generated) =
            (stored(taste.axes, &lines), given(&gen_part::Part::of(taste.axes, &lines)));
        let used = program.part.used as usize;
        assert_eq!((program.part, &program.store[..used]), (generated.part, &generated.store[..used]));
        assert_eq!(verdict(&program), Verdict::Accepted, "{lines:?}");
        let list = records(&program);
        let has = (names(&list, false, list.len()), names(&list, true, 0));
        assert_eq!(has, (taste.to_end, taste.from_start), "{lines:?}");
    }
}

/// Records one behind the other pass the check exactly if the rule allows it.
#[test]
fn the_rule_is_what_the_check_needs() {
    let mut rng = Rng::new(21);
    let mut seen = [0; 2];
    for _ in 0..30_000 {
        let ((taste, first), (other, second)) = (random(&mut rng), random(&mut rng));
        let (one, two) = (stored(taste.axes, &first), stored(other.axes, &second));
        if taste.axes != other.axes {
            assert_eq!(joined(&one, &two), Err(b'3'));
            continue;
        }
        let whole = stored(taste.axes, &[first.clone(), second].concat());
        let allowed = !(taste.to_end && other.from_start);
        assert_eq!(verdict(&whole) == Verdict::Accepted, allowed, "{first:?}");
        let both = joined(&one, &two);
        assert_eq!(both.is_ok(), allowed);
        if let Ok(both) = &both {
            assert_eq!(records(both), [records(&one), records(&two)].concat());
        }
        seen[allowed as usize] += 1;
    }
    assert!(seen.iter().all(|&times| times > 500), "{seen:?}");
}

/// The board about to run the record at this place of a joined program.
fn at(both: &Given, place: usize) -> Bench {
    let mut b = Bench::with_axes(both.part.axes);
    let Part { used, records, axes } = both.part;
    b.board = Board { used, records, store_axes: axes, place: place as u32, job: Job::Ready, ..b.board };
    b.store.clone_from(&both.store);
    b.table.clone_from(&both.table);
    b
}

/// A jump or wait of the first part to its end place goes to the second one's first record, each other record
/// to where it went before.
#[test]
fn the_end_place_is_the_second_start() {
    let mut rng = Rng::new(22);
    let mut seen = 0;
    for _ in 0..3_000 {
        let ((taste, first), (_, second)) = (random(&mut rng), random(&mut rng));
        let (one, two) = (stored(taste.axes, &first), gen_part::Part::of(taste.axes, &second));
        let Ok(both) = joined(&one, &given(&two)) else { continue };
        for (own, r) in records(&both).iter().enumerate().filter(|(_, r)| [b'2', b'3'].contains(&r.code)) {
            let mut b = at(&both, own);
            b.clock();
            if r.code == b'2' {
                b.byte(r.values[0] as u8);
            }
            assert_eq!(b.board.place as i32, own as i32 + r.values[1]);
            seen += (own < first.len() && b.board.place as usize == first.len()) as u32;
        }
    }
    assert!(seen > 500, "{seen}");
}

/// Why a join was answered as it was.
#[derive(Clone, Copy, Debug, PartialEq)]
enum Outcome {
    Joined,
    Full,
    Empty,
    Axes,
    NotAccepted,
    Rule,
    Room,
}

fn outcome(first: &Given, second: &Given) -> Outcome {
    let none = |axes| given(&gen_part::Part::of(axes, &[]));
    let alone = |part: &Given, beside: &Given| {
        let axes = if part.part.records == 0 { beside.part.axes } else { part.part.axes };
        joined(&Given { part: Part { axes, ..part.part }, ..part.clone() }, &none(axes)).is_ok()
    };
    match joined(first, second) {
        Ok(both) if verdict(&both) != Verdict::Accepted => panic!("{:?}", both.part),
        Ok(both) if both.part.used == 16_384 || both.part.records == 1_000 => Outcome::Full,
        Ok(_) if first.part.records == 0 || second.part.records == 0 => Outcome::Empty,
        Ok(_) => Outcome::Joined,
        Err(b'3') => Outcome::Axes,
        Err(b'6') => Outcome::Room,
        Err(_) if alone(first, second) && alone(second, first) => Outcome::Rule,
        Err(_) => Outcome::NotAccepted,
    }
}

#[test]
fn generated_joins() {
    let (mut rng, mut seen) = (Rng::new(23), Vec::new());
    for _ in 0..6_000 {
        let [first, second] = gen_join::join(&mut rng).map(|part| given(&part));
        seen.push(outcome(&first, &second));
    }
    let times = |outcome| seen.iter().filter(|&&other| other == outcome).count();
    use Outcome::*;
    let often = [(Joined, 1_500), (Empty, 800), (Axes, 500), (NotAccepted, 800), (Rule, 600)];
    for (outcome, least) in often.into_iter().chain([(Full, 10), (Room, 20)]) {
        assert!(times(outcome) > least, "{outcome:?}: {}", times(outcome));
    }
}
