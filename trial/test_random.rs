//! What holds for every accepted program, tried on random ones.

use crate::axes;
use crate::program::{self, Span, Taste};
use crate::rng::Rng;
use crate::Bench;
use trial::board::{Answer, Job};

fn random_program(rng: &mut Rng) -> (Bench, String) {
    let axes = rng.pick(&axes::ALL);
    let taste = Taste { axes, span: Span { reach: 5, edges: 40 }, waits: true, long: false };
    let lines = program::sound(rng, &taste);
    let lines: Vec<&str> = lines.iter().map(String::as_str).collect();
    Bench::with_program(axes, &lines)
}

#[test]
fn sound_programs_are_accepted() {
    let mut rng = Rng::new(1);
    for _ in 0..3_000 {
        let (b, last) = random_program(&mut rng);
        assert_eq!(last, "0", "{:?}", b.listing());
    }
}

#[test]
fn a_listing_stores_the_same_bytes() {
    let mut rng = Rng::new(2);
    for _ in 0..1_000 {
        let (b, _) = random_program(&mut rng);
        let mut again = Bench::with_axes(b.board.axes);
        again.line("@0i");
        for line in b.listing().unwrap().split_terminator('\r') {
            assert!(!line.contains(' '), "{line}");
            assert_eq!(again.line(line), "0", "{line}");
        }
        assert_eq!((again.board, again.store, again.table), (b.board, b.store, b.table));
    }
}

/// An accepted program never ends with G, keeps its store, opens no eighth loop and leaves no loop
/// open; its positions are the sums of its pulses.
#[test]
fn runs_of_accepted_programs() {
    let mut rng = Rng::new(3);
    for _ in 0..2_000 {
        let (mut b, _) = random_program(&mut rng);
        let (store, table, used) = (b.store.clone(), b.table.clone(), b.board.used);
        let mut sum = [0; 4];
        b.line("@0S");
        for _ in 0..3_000 {
            match b.clock() {
                Answer::Pulse(pulse) => (0..4).for_each(|a| sum[a] += pulse.signs[a] as i32),
                Answer::Nothing if b.board.job == Job::Idle => break,
                Answer::Nothing => drop(b.byte(rng.between(33, 41) as u8)),
                _ => {}
            }
            assert!(b.board.place < b.board.records || b.board.depth == 0);
            assert_eq!((b.board.position, b.board.used), (sum, used));
        }
        assert_eq!((b.store, b.table), (store, table));
    }
}
