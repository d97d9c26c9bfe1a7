//! The check at the end line: whether a stored program is accepted, and if not, which place is named and
//! with which letter.
//!
//! Each of the paper's conditions stands alone and is asked by itself, of all records. The loops' ranges
//! may start below 0: they then hold the places from 0 on. The end place lies in no range. Of an accepted
//! program each place is looked at a few times, since few ranges hold it.

use crate::record;

/// What the check says of a store.
#[derive(Clone, Copy, PartialEq, Eq, Debug)]
pub enum Verdict {
    Accepted,
    Unreadable,
    Faulty(Fault),
}

/// A faulty place and the letter of its fault: `a` a target outside, `b` a range that starts too early,
/// `c` ranges that overlap, `d` too many ranges, `e` a jump or wait across a range.
#[derive(Clone, Copy, PartialEq, Eq, Debug)]
pub struct Fault {
    pub place: usize,
    pub letter: u8,
}

impl Fault {
    /// Whether this one is named and not the other: the smaller place, and at one place the earlier letter.
    fn before(self, other: Fault) -> bool {
        if self.place == other.place {
            return (self.letter < other.letter) != cfg!(slip_later_letter);
        }
        (self.place < other.place) != cfg!(slip_largest_place)
    }
}

/// Of the faults noted so far, the one to be named.
struct Named(Option<Fault>);

impl Named {
    fn note(&mut self, place: i32, letter: u8) {
        let fault = Fault { place: place as usize, letter };
        if self.0.is_none_or(|named| fault.before(named)) {
            self.0 = Some(fault);
        }
    }
}

/// A record's place and the place that its offset names.
type Way = (i32, i32);

/// The loops' ranges (own place, start) and the jumps and waits (own place, target), in the order of their
/// places, and the end place.
struct Ways {
    loops: Vec<Way>,
    jumps: Vec<Way>,
    end: i32,
}

/// Checks the store's part in use at the end line.
pub fn check(store: &[u8], used: usize, axes: u8, records: u32) -> Verdict {
    let Some(ways) = ways(store, used, axes, records) else { return Verdict::Unreadable };
    let mut named = Named(None);
    check_loops(&ways, &mut named);
    check_places(&ways, &mut named);
    check_jumps(&ways, &mut named);
    named.0.map_or(Verdict::Accepted, Verdict::Faulty)
}

fn ways(store: &[u8], used: usize, axes: u8, records: u32) -> Option<Ways> {
    let end = records as i32;
    let mut ways = Ways { loops: Vec::new(), jumps: Vec::new(), end };
    let mut place = 0;
    let readable = record::walk(store, used, axes, records, |r| {
        let way = (place, place + r.values[1]);
        match r.code {
            b'3' if r.values[0] > 0 => ways.loops.push(way),
            b'3' | b'2' => ways.jumps.push(way),
            _ => {}
        }
        place += 1;
    });
    readable.then_some(ways)
}

/// `b` and `c`. An earlier range that this one holds needs no more asking: what overlaps it later on,
/// overlaps this one too. Those left have ever greater starts and own places, so that the last one tells
/// for all.
fn check_loops(ways: &Ways, named: &mut Named) {
    let mut earlier: Vec<Way> = Vec::new();
    for &(own, start) in &ways.loops {
        if start < 0 {
            named.note(own, b'b');
        }
        while earlier.last().is_some_and(|&(_, before)| before >= start) {
            earlier.pop();
        }
        if let Some(&(other, _)) = earlier.last().filter(|&&(other, _)| other >= start) {
            named.note(if cfg!(slip_earlier_loop) { other } else { own }, b'c');
        }
        earlier.push((own, start));
    }
}

/// `d`: the ranges that are open are counted from place to place.
fn check_places(ways: &Ways, named: &mut Named) {
    let mut changes = vec![0; ways.end as usize + 1];
    for (first, last) in ways.held() {
        changes[first] += 1;
        changes[last + 1] -= 1;
    }
    let mut open = 0;
    for (place, change) in (0..).zip(changes) {
        open += change;
        if open > 7 {
            named.note(place, b'd');
        }
    }
}

/// `a` and `e`.
fn check_jumps(ways: &Ways, named: &mut Named) {
    if ways.jumps.is_empty() {
        return;
    }
    let bounds = ways.bounds();
    for &(own, target) in &ways.jumps {
        if !(0..=ways.end).contains(&target) {
            named.note(own, b'a');
        } else if across(&bounds, own as usize, target as usize) {
            named.note(own, b'e');
        }
    }
}

/// Of the ranges that hold a place, the greatest start and the smallest end.
#[derive(Clone, Copy)]
struct Bounds {
    start: usize,
    end: usize,
}

impl Ways {
    /// The first and last place that each range holds.
    fn held(&self) -> impl Iterator<Item = (usize, usize)> + '_ {
        let counted = self.loops.iter().filter(|&&(_, start)| start >= 0 || !cfg!(slip_early_not_held));
        counted.map(|&(own, start)| (start.max(0) as usize, own as usize))
    }

    /// The bounds at each place and at the end place. Where no range is, they bar nothing.
    fn bounds(&self) -> Vec<Bounds> {
        let mut bounds = vec![Bounds { start: 0, end: usize::MAX }; self.end as usize + 1];
        for (first, last) in self.held() {
            for at in &mut bounds[first..=last] {
                at.start = at.start.max(first);
                at.end = at.end.min(last);
            }
        }
        bounds
    }
}

/// Whether a range holds one of two places and not the other: it ends between them or starts there.
fn across(bounds: &[Bounds], one: usize, other: usize) -> bool {
    let (low, high) = (one.min(other), one.max(other));
    bounds[low].end < high || bounds[high].start > low
}
