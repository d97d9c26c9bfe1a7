//! The check at the end line beside the paper's sentences, taken one by one, on random programs.

use crate::gen_fault;
use crate::rng::Rng;
use crate::Bench;

/// A record as the check sees it.
#[derive(Clone, Copy)]
enum Step {
    Plain,
    Loop(i64),
    Jump(i64),
    Wait(i64),
}

impl Step {
    /// The step that a right line without needless zeros stores.
    fn of(line: &str) -> Step {
        let tight = line.replace(' ', "");
        let offset = || tight.split(',').nth(1).and_then(|number| number.parse().ok()).unwrap();
        match tight.as_bytes() {
            [b'3', b'0', ..] => Step::Jump(offset()),
            [b'3', ..] => Step::Loop(offset()),
            [b'2', ..] => Step::Wait(offset()),
            _ => Step::Plain,
        }
    }

    fn line(self) -> String {
        match self {
            Step::Plain => "z0".to_string(),
            Step::Loop(offset) => format!("3 1,{offset}"),
            Step::Jump(offset) => format!("3 0,{offset}"),
            Step::Wait(offset) => format!("233,{offset}"),
        }
    }
}

/// The letters of a place, each by its own sentence. A range is its first place and its loop's.
fn letters(program: &[Step], ranges: &[(i64, i64)], place: i64) -> Vec<char> {
    let holds = |&(first, last): &(i64, i64), p: i64| first <= p && p <= last;
    let mut letters = Vec::new();
    match program[place as usize] {
        Step::Plain => {}
        Step::Loop(offset) => {
            let own = (place + offset, place);
            let overlaps = |r: &(i64, i64)| {
                let common = (own.0.max(r.0)..=own.1.min(r.1)).count() > 0;
                let one_holds = (own.0 <= r.0 && r.1 <= own.1) || (r.0 <= own.0 && own.1 <= r.1);
                common && !one_holds
            };
            letters.extend((own.0 < 0).then_some('b'));
            letters.extend(ranges.iter().any(|r| r.1 < place && overlaps(r)).then_some('c'));
        }
        Step::Jump(offset) | Step::Wait(offset) => {
            let target = place + offset;
            let outside = target < 0 || target > program.len() as i64;
            let across = ranges.iter().any(|r| holds(r, place) != holds(r, target));
            letters.extend(outside.then_some('a'));
            letters.extend(across.then_some('e'));
        }
    }
    letters.extend((ranges.iter().filter(|r| holds(r, place)).count() > 7).then_some('d'));
    letters
}

/// The reply to `9`, sentence by sentence.
fn by_sentences(program: &[Step]) -> String {
    let place_and_step = || (0i64..).zip(program);
    let ranges: Vec<(i64, i64)> = place_and_step()
        .filter_map(|(place, step)| match step {
            Step::Loop(offset) => Some((place + offset, place)),
            _ => None,
        })
        .collect();
    for (place, _) in place_and_step() {
        if let Some(letter) = letters(program, &ranges, place).iter().min() {
            return format!("G{letter}{place:04}");
        }
    }
    "0".to_string()
}

/// Few places are named again and again, so that ranges pile up, touch and overlap.
fn random_steps(rng: &mut Rng) -> Vec<Step> {
    let size = rng.between(1, 20);
    let places = [rng.between(-2, 3), rng.between(0, size), rng.between(0, size + 1)];
    let (loops, jumps) = (rng.pick(&[0, 3, 6, 11, 11]), rng.pick(&[0, 1, 1, 5]));
    let step = |rng: &mut Rng, own: i64| {
        let target = if rng.once_in(3) { rng.between(-1, size + 1) } else { rng.pick(&places) };
        match rng.below(12) {
            kind if kind < loops && target < own => Step::Loop(target - own),
            kind if kind < loops => Step::Plain,
            kind if kind < loops + jumps => rng.pick(&[Step::Jump(target - own), Step::Wait(target - own)]),
            _ => Step::Plain,
        }
    };
    (0..size).map(|own| step(rng, own)).collect()
}

/// How often each answer came: 0, then the letters.
struct Seen([u32; 6]);

impl Seen {
    /// Stores the lines, which are all right, and compares the reply to `9`.
    fn compare(&mut self, b: &mut Bench, lines: &[String], program: &[Step]) {
        b.line("@0i");
        lines.iter().for_each(|line| assert_eq!(b.line(line), "0", "{line}"));
        let said = b.line("9");
        assert_eq!(said, by_sentences(program), "{lines:?}");
        self.0[said.bytes().nth(1).map_or(0, |letter| (letter - b'a') as usize + 1)] += 1;
    }
}

#[test]
fn random_programs() {
    let (mut rng, mut b, mut seen) = (Rng::new(9), Bench::with_axes(3), Seen([0; 6]));
    for _ in 0..40_000 {
        let program = random_steps(&mut rng);
        let lines: Vec<String> = program.iter().map(|step| step.line()).collect();
        seen.compare(&mut b, &lines, &program);
    }
    assert!(seen.0.iter().all(|&times| times > 1_000), "{:?}", seen.0);
}

/// Those of the generated streams, long ones too.
#[test]
fn generated_programs() {
    let (mut rng, mut b, mut seen) = (Rng::new(10), Bench::with_axes(7), Seen([0; 6]));
    for _ in 0..6_000 {
        let mut lines = gen_fault::faulty(&mut rng, 7, 30);
        lines.truncate(1_000);
        let program: Vec<Step> = lines.iter().map(|line| Step::of(line)).collect();
        seen.compare(&mut b, &lines, &program);
        let back = program.iter().any(|step| matches!(step, Step::Jump(offset) if *offset <= 0));
        assert_eq!(gen_fault::may_not_end(&lines), back);
    }
    assert!(seen.0.iter().all(|&times| times > 400), "{:?}", seen.0);
}
