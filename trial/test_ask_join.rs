//! The lines of `ask` that ask for a join, also with buffers of other lengths: which can be read, and how they are
//! answered.

use crate::questions::answers;

/// Character 33 sent, 8 bytes.
const SENT: &str = "d72b310121000000";

fn answered(input: &str) -> String {
    String::from_utf8(answers(input.as_bytes())).unwrap()
}

/// With this line's fields behind the word.
fn joined(rest: &str, answer: &str) {
    assert_eq!(answered(&format!("join {rest}\n")), format!("{answer}\n"), "{rest}");
}

#[test]
fn joins() {
    joined(&format!("8 1 3 {SENT} 8 1 3 {SENT}"), &format!("0 16 2 3 {SENT}{SENT} 0,8"));
    joined(&format!("8 1 3 {SENT} 0 0 9 -"), &format!("0 8 1 3 {SENT} 0"));
    joined(&format!("0 0 255 - 8 1 7 {SENT}"), &format!("0 8 1 7 {SENT} 0"));
    joined("0 0 1 - 0 0 1 -", "0 0 0 1 - -");
    joined(&format!("0 0 1 {SENT} 0 0 1 ff"), "0 0 0 1 - -");
    joined("0 0 1 - 0 0 3 -", "3");
    joined("0 0 0 - 0 0 0 -", "3");
    joined(&format!("8 1 3 {SENT} 8 1 1 {SENT}"), "3");
    joined(&format!("8 2 3 {SENT} 8 1 3 {SENT}"), "G");
    joined(&format!("8 1 3 - 8 1 3 {SENT}"), "G");
    joined("65535 65535 7 - 65535 65535 7 -", "G");
    joined("65535 0 255 - 0 65535 255 -", "3");
}

/// The same join, lent stores and a table of these lengths.
fn lent(lengths: &str, rest: &str, answer: &str) {
    assert_eq!(answered(&format!("lend {lengths} {rest}\n")), format!("{answer}\n"), "{lengths} {rest}");
}

#[test]
fn buffers_of_other_lengths() {
    let right = format!("8 1 3 {SENT} 8 1 3 {SENT}");
    lent("16384 16384 1000", &right, &format!("0 16 2 3 {SENT}{SENT} 0,8"));
    lent("016384 16384 01000", "0 0 7 - 0 0 7 -", "0 0 0 7 - -");
    for stores in ["16383 16384", "16384 16383", "16385 16384", "16384 16385", "8 8"] {
        for table in [0, 999, 1_000, 1_001] {
            lent(&format!("{stores} {table}"), &right, "102");
        }
    }
    for table in [0, 1, 999, 1_001] {
        lent(&format!("16384 16384 {table}"), &right, "104");
        lent(&format!("16384 16384 {table}"), "0 0 0 - 9 9 9 -", "104");
    }
    lent("16384 16384 1000", "0 0 0 - 9 9 9 -", "3");
    lent("16384 16384 1000", "9 9 1 - 9 9 1 -", "G");
    lent("0 0 0", "0 0 0 - 9 9 9 -", "102");
}

#[test]
fn lengths_that_cannot_be_read() {
    let right = format!("8 1 3 {SENT} 8 1 3 {SENT}");
    for wrong in
        ["16386 8 8", "8 16386 8", "8 8 1002", "-1 8 8", "8 8", "8 8 8 8", "x 8 8", "8  8 8", " 8 8 8"]
    {
        lent(wrong, &right, "?");
    }
    lent("7 8 1000", &right, "?"); // more bytes than the store has
    lent("8 7 1000", &right, "?");
    lent("-0 0 0", "8 1 3 - 8 1 3 -", "102");
    let (all, more) = ("0".repeat(2 * 16_384), "0".repeat(2 * 16_385));
    lent("16385 16384 1000", &format!("8 1 3 {more} 8 1 3 {all}"), "102");
    lent("16384 16384 1000", &format!("8 1 3 {more} 8 1 3 {all}"), "?");
    lent("16384 16384 1000", &format!("8 1 3 {all} 8 1 3 {all}"), "G");
}

/// A jump to the end, and a range from the start.
#[test]
fn the_rule() {
    let (jump, range) = ("d72b33020000000001000000", "d72b330201000000ffffffff");
    joined(&format!("12 1 1 {jump} 8 1 1 {SENT}"), &format!("0 20 2 1 {jump}{SENT} 0,12"));
    joined(&format!("12 1 1 {jump} 20 2 1 {SENT}{range}"), "G");
    joined(&format!("20 2 1 {SENT}{range} 12 1 1 {jump}"), &format!("0 32 3 1 {SENT}{range}{jump} 0,8,20"));
}

/// Bytes that are not given are 0, and those behind the part in use are not asked.
#[test]
fn stores() {
    for hex in ["d72b310121", "d72b31012100", SENT, &format!("{SENT}00"), &format!("{SENT}{SENT}")] {
        joined(&format!("8 1 1 {hex} 8 1 1 {hex}"), &format!("0 16 2 1 {SENT}{SENT} 0,8"));
    }
    let full = SENT.repeat(2_048);
    joined(&format!("8 1 1 {full} 8 1 1 {full}"), &format!("0 16 2 1 {SENT}{SENT} 0,8"));
    joined(&format!("16384 2048 1 {full} 8 1 1 {SENT}"), "G");
    let most = SENT.repeat(1_000);
    let starts: Vec<String> = (0..1_000).map(|place| (8 * place).to_string()).collect();
    joined(&format!("8000 1000 1 {most} 0 0 0 -"), &format!("0 8000 1000 1 {most} {}", starts.join(",")));
    joined(&format!("8000 1000 1 {most} 8 1 1 {SENT}"), "6");
}

#[test]
fn numbers() {
    let long = "000000000000000000";
    joined(&format!("{long}8 {long}1 {long}1 {SENT} -0 -0 -0 -"), &format!("0 8 1 1 {SENT} 0"));
    let right = ["8", "1", "1", SENT, "8", "1", "1", SENT];
    for place in [0, 1, 2, 4, 5, 6] {
        for wrong in ["65536", "-1", "+1", "", "-", "1.0", "x", "0x1", "9223372036854775808", "\u{663}"] {
            unread(&right, place, wrong);
        }
        unread(&right, place, "00000000000000000001");
        if [2, 6].contains(&place) {
            unread(&right, place, "256");
        }
    }
    joined(&format!("65535 1 255 {SENT} 8 65535 255 {SENT}"), "3");
}

/// With another text in this place.
fn unread(right: &[&str], place: usize, text: &str) {
    let mut fields = right.to_vec();
    fields[place] = text;
    joined(&fields.join(" "), "?");
}

#[test]
fn bytes() {
    let right = ["8", "1", "3", SENT, "8", "1", "3", SENT];
    let capitals = SENT.to_uppercase();
    let more = "0".repeat(32_770);
    for place in [3, 7] {
        for wrong in ["", "d", "d72", "--", "-d7", "d7-", "0x", "0xd7", "g0", "d7 2b", "\u{e9}", "+d72"] {
            unread(&right, place, wrong);
        }
        unread(&right, place, &capitals);
        unread(&right, place, &more);
        unread(&right, place, &more[..32_769]);
    }
}

/// Before every refusal a line must be one that can be read.
#[test]
fn lines_that_cannot_be_read() {
    let right = format!("8 1 3 {SENT} 8 1 1 {SENT}");
    joined(&right, "3");
    for wrong in [format!("{right} "), format!(" {right}"), format!("{right} 0")] {
        joined(&wrong, "?");
    }
    joined(&right.replace(" 8", "  8"), "?");
    joined(&right[..right.len() - 17], "?");
    joined("", "?");
    joined("8 1 3", "?");
    joined(&format!("8 1 3 {SENT}"), "?");
    joined(&format!("{right}\r"), "3");
    for word in ["joins", "Join", "JOIN", "chain", "join\t", ""] {
        assert_eq!(answered(&format!("{word} {right}\n")), "?\n");
    }
    assert_eq!(answered("join\n"), "?\n");
}
