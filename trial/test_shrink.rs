//! What is left of a join when records or bytes are left out.

use crate::shrink_join::{parts, Join, Piece};

const SENT: &str = "d72b310121000000"; // 8 bytes
const JUMP: &str = "d72b33020000000001000000"; // 12 bytes

fn taken(line: &str) -> (Join<'_>, Vec<Piece<'_>>) {
    parts(line.as_bytes()).expect(line)
}

/// The line without some of its pieces.
fn without(line: &str, left_out: &[usize]) -> String {
    let (join, pieces) = taken(line);
    let kept: Vec<Piece> =
        (0..).zip(pieces).filter(|(at, _)| !left_out.contains(at)).map(|(_, piece)| piece).collect();
    String::from_utf8(join.with(&kept)).unwrap()
}

#[test]
fn records_are_left_out() {
    let line = format!("join 20 2 3 {SENT}{JUMP} 8 1 7 {SENT}\r\n");
    assert_eq!(taken(&line).1.len(), 3);
    assert_eq!(without(&line, &[]), line);
    assert_eq!(without(&line, &[0]), format!("join 12 1 3 {JUMP} 8 1 7 {SENT}\r\n"));
    assert_eq!(without(&line, &[1]), format!("join 8 1 3 {SENT} 8 1 7 {SENT}\r\n"));
    assert_eq!(without(&line, &[2]), format!("join 20 2 3 {SENT}{JUMP} 0 0 7 -\r\n"));
    assert_eq!(without(&line, &[0, 1, 2]), "join 0 0 3 - 0 0 7 -\r\n");
}

/// Numbers stay as far from what is given as they were.
#[test]
fn numbers_that_do_not_fit() {
    let line = format!("join 65535 1000 3 {SENT}{JUMP} 7 1 7 {SENT}");
    assert_eq!(without(&line, &[1]), format!("join 65523 999 3 {SENT} 7 1 7 {SENT}"));
    let short = format!("join 19 1 1 {SENT}{JUMP} 0 0 0 {SENT}");
    assert_eq!(without(&short, &[0]), format!("join 11 0 1 {JUMP} 0 0 0 {SENT}"));
    assert_eq!(without(&short, &[1, 13]), format!("join 18 1 1 {SENT}{} 0 0 0 {}", &JUMP[2..], &SENT[2..]));
    assert_eq!(without(&short, &[12]), format!("join 19 1 1 {SENT}{} 0 0 0 {SENT}", &JUMP[..22]));
}

#[test]
fn zeros_that_are_not_given() {
    let line = format!("join 20 2 3 {SENT}{} 8 1 3 d72b310121", &JUMP[..18]);
    assert_eq!(without(&line, &[]), line);
    assert_eq!(without(&line, &[1, 2]), format!("join 8 1 3 {SENT} 0 0 3 -"));
    let digits = format!("join 008 01 -0 {SENT} 0 0 003 -");
    assert_eq!(without(&digits, &[]), format!("join 8 1 0 {SENT} 0 0 3 -"));
}

#[test]
fn lengths_stay() {
    let line = format!("lend 16385 99 1000 20 2 3 {SENT}{JUMP} 8 1 7 {SENT}\n");
    assert_eq!(without(&line, &[]), line);
    assert_eq!(without(&line, &[0, 2]), format!("lend 16385 99 1000 12 1 3 {JUMP} 0 0 7 -\n"));
}

#[test]
fn other_lines_are_not_taken() {
    for line in [
        "lend",
        "lend 1 1 1",
        "lend 0 0 1 - 0 0 1 -",
        "lend 1 1 1 0 0 1 - 0 0 x -",
        "lends 1 1 1 0 0 1 - 0 0 1 -",
    ] {
        assert!(parts(line.as_bytes()).is_none(), "{line}");
    }
    for line in ["", "chain 1", "join", "join 1 2 3", "join 0 0 1 - 0 0 x -", "join 0 0 1 - 0 0 1 - 0"] {
        assert!(parts(line.as_bytes()).is_none(), "{line}");
    }
    assert!(parts(format!("join 8 1 1 {SENT} 8 1 1 {SENT}\njoin\n").as_bytes()).is_none());
    assert!(parts("join 8 1 1 \u{e9}0 0 0 1 -".as_bytes()).is_some());
    assert!(parts("join 8 1 1 0\u{e9} 0 0 1 -".as_bytes()).is_none());
}
