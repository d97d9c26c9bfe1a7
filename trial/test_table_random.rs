//! Scripts for `calls` in which a host alters, lends and fills the table: what their calls meet.

use crate::gen_calls;
use crate::gen_walk;
use crate::rng::Rng;
use crate::test_script::printed;
use crate::Bench;
use trial::join::Part;
use trial::table::fill;

/// A script of one scene, in half of them with one more.
fn script(seed: u64) -> String {
    let mut out = Vec::new();
    gen_calls::script(&mut Rng::new(seed), 1, &mut out);
    String::from_utf8(out).unwrap()
}

/// The same script, in which the host writes no entry.
fn unaltered(script: &str) -> String {
    let writes = |line: &str| line.starts_with("T ") && !printed(line.as_bytes()).contains('?');
    let lines = script.split('\n').map(|line| if writes(line) { "C 0" } else { line });
    lines.collect::<Vec<_>>().join("\n")
}

/// What is printed but for the entries shown and what F answers: the calls of the board and the listings.
fn calls(printed: &str) -> Vec<&str> {
    printed.lines().filter(|line| !line.starts_with(['V', 'F'])).collect()
}

fn ends_with_g(lines: &[&str]) -> usize {
    lines.iter().filter(|line| **line == "C Send 71").count()
}

#[test]
fn generated_tables() {
    let answers = ["B 104", "C 104", "F 0", "F 102", "F 104", "F G"];
    let mut seen = [0; 6];
    let (mut led_elsewhere, mut to_g, mut altered) = (0, 0, 0);
    for seed in 0..6_000 {
        let script = script(seed);
        let said = printed(script.as_bytes());
        for (times, answer) in seen.iter_mut().zip(answers) {
            *times += said.lines().filter(|line| *line == answer).count();
        }
        let plain = unaltered(&script);
        altered += (plain != script) as usize;
        let other = printed(plain.as_bytes());
        let (with, without) = (calls(&said), calls(&other));
        led_elsewhere += (with != without) as usize;
        to_g += (ends_with_g(&with) > ends_with_g(&without)) as usize;
    }
    assert!(seen.iter().all(|&times| times > 50), "{seen:?}");
    assert!(altered > 1_000 && led_elsewhere > 150 && to_g > 100, "{altered} {led_elsewhere} {to_g}");
}

/// What F answers where the store has records, by x's part and A's of axes that no board has.
#[test]
fn generated_other_axes() {
    let mut seen = [[0; 2]; 4];
    for seed in 0..6_000 {
        let said = printed(script(seed).replace("\nF\n", "\nS\nF\n").as_bytes());
        let lines: Vec<&str> = said.lines().collect();
        for pair in lines.windows(2).filter(|pair| pair[0].starts_with('S') && pair[1].starts_with('F')) {
            let after = |name: &str| pair[0].split(name).nth(1).unwrap().split(' ').next().unwrap();
            let (records, axes): (&str, usize) = (after(" records "), after(" store_axes ").parse().unwrap());
            if records != "0" && ![0, 1, 3, 7, 8, 15].contains(&axes) && ["F 0", "F G"].contains(&pair[1]) {
                seen[axes & 1 | axes >> 2 & 2][(pair[1] == "F G") as usize] += 1;
            }
        }
    }
    assert!(seen[1..].iter().flatten().all(|&times| times > 30) && seen[0][1] > 200, "{seen:?}");
}

/// With no host that alters anything, the entries below the count are where a walk from the front finds the
/// records, after every byte and its run.
#[test]
fn the_table_is_always_true() {
    let mut records = 0;
    for seed in 0..40 {
        let (mut b, mut stream) = (Bench::fresh(), Vec::new());
        gen_walk::stream(&mut Rng::new(seed), 20, &mut stream);
        b.table.fill(60_000);
        for byte in stream {
            b.byte(byte);
            for _ in 0..300 {
                b.clock();
            }
            let mut filled = b.table.clone();
            let part = Part { used: b.board.used, records: b.board.records, axes: b.board.store_axes };
            assert_eq!(fill(&b.store, part, &mut filled), Ok(()));
            assert_eq!(b.table, filled);
            records = records.max(part.records);
        }
    }
    assert!(records > 200, "{records}");
}
