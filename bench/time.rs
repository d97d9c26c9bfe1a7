//! Runs programs on an input, turn by turn one after the other, and prints the least processor time
//! that each took, in microseconds: time ROUNDS INPUT PROGRAM...

use std::fs::File;
use std::process::{Command, Stdio};

extern "C" {
    /// C's struct of sixteen longs after two times; the times are seconds and microseconds.
    fn getrusage(who: i32, usage: *mut [i64; 18]) -> i32;
}

/// The microseconds that ended children have used, their own and the system's for them.
fn used() -> i64 {
    let mut usage = [0; 18];
    // SAFETY: the array is as long as the struct, and -1 asks for the children.
    assert_eq!(unsafe { getrusage(-1, &mut usage) }, 0);
    (usage[0] + usage[2]) * 1_000_000 + usage[1] + usage[3]
}

fn run(program: &str, input: &str) -> i64 {
    let before = used();
    let status = Command::new(program)
        .stdin(File::open(input).expect("the input can be opened"))
        .stdout(Stdio::null())
        .status()
        .expect("the program can be started");
    assert!(status.success(), "{program} failed");
    used() - before
}

fn main() {
    let words: Vec<String> = std::env::args().collect();
    let rounds: usize = words[1].parse().expect("a number of rounds");
    let (input, programs) = (&words[2], &words[3..]);
    let mut least = vec![i64::MAX; programs.len()];
    for _ in 0..rounds {
        for (program, least) in programs.iter().zip(&mut least) {
            *least = run(program, input).min(*least);
        }
    }
    let shown: Vec<String> = least.iter().map(i64::to_string).collect();
    println!("{}", shown.join(" "));
}
