//! The lines of `ask`: which can be read, where they end, and how they are answered.

use crate::questions::answers;

const AXIS: &str = "3ff0000000000000 4059000000000000 3ff0000000000000"; // lead 1, 100 steps, gear 1

fn answered(input: &str) -> String {
    String::from_utf8(answers(input.as_bytes())).unwrap()
}

/// The answer to a chain with this axis.
fn chain(rest: &str) -> String {
    answered(&format!("chain {AXIS} {rest}"))
}

fn unread(lines: &[String]) {
    for line in lines {
        assert_eq!(answered(&format!("{line}\n")), "?\n", "{line:?}");
    }
}

#[test]
fn chains() {
    for (rest, answer) in [
        ("3 333 333 333", "0 33 34 33"),
        ("0", "0"),
        ("2 -5 5", "0 -1 1"),
        ("1 -0", "0 0"),
        ("-0", "0"),
        ("0000000000000000001 0000000000000000010", "0 1"),
        ("1 -0000000000000000010", "0 -1"),
        ("1", "105"),
        ("0 1", "105"),
        ("9223372036854775807", "105"),
        ("4294967297 1", "105"),
        ("1 9223372036854775807", "202"),
        ("2 -9223372036854775808 9223372036854775807", "202"),
        ("1 1000000000", "203"),
    ] {
        assert_eq!(chain(rest), format!("{answer}\n"), "{rest}");
    }
    let wrong = "3ff0000000000000 0000000000000001 fff8000000000000";
    assert_eq!(answered(&format!("chain {wrong} 0")), "201\n");
    assert_eq!(answered(&format!("chain {wrong} 1 1")), "201\n");
    assert_eq!(chain(&format!("1000{}", " 10".repeat(1_000))), format!("0{}\n", " 1".repeat(1_000)));
    assert_eq!(chain(&format!("1001{}", " 10".repeat(1_001))), "105\n");
}

#[test]
fn where_lines_end() {
    let (right, carriage) = (format!("chain {AXIS} 1 10"), format!("chain {AXIS} 1 10\r"));
    for (input, answer) in [
        (String::new(), ""),
        ("\n".to_string(), "?\n"),
        ("\r\n".to_string(), "?\n"),
        ("\r".to_string(), "?\n"),
        ("\n\n".to_string(), "?\n?\n"),
        (right.clone(), "0 1\n"),
        (format!("{right}\n"), "0 1\n"),
        (format!("{right}\n\n"), "0 1\n?\n"),
        (format!("{right}\n{right}"), "0 1\n0 1\n"),
        (format!("{carriage}\n{right}\n"), "0 1\n0 1\n"),
        (carriage.clone(), "?\n"),
        (format!("{right}\n{carriage}"), "0 1\n?\n"),
        (format!("{carriage}\r\n{right}"), "?\n0 1\n"),
        (format!("{carriage}{right}\n"), "?\n"),
    ] {
        assert_eq!(answered(&input), answer, "{input:?}");
    }
}

#[test]
fn words_and_spaces() {
    unread(&["chains", "Chain", "CHAIN", "chai", ""].map(|word| format!("{word} {AXIS} 1 10")));
    unread(&["", "chain", "chain ", " ", "?", "0"].map(str::to_string));
    unread(&[format!("chain {AXIS}"), format!("chain {AXIS} "), format!("chain {} 0", &AXIS[17..])]);
    unread(&[format!("chain {AXIS} {AXIS} 0"), format!(" chain {AXIS} 0"), format!("chain  {AXIS} 0")]);
    unread(&["1  10", "1 10 ", "1\t10", "1 10\t", " 1 10", "1, 10", "1 10 \r", "1 \r10"].map(in_chain));
}

fn in_chain(rest: &str) -> String {
    format!("chain {AXIS} {rest}")
}

#[test]
fn patterns() {
    for place in 1..=3 {
        for pattern in [
            "3FF0000000000000",
            "3ff000000000000",
            "3ff00000000000000",
            "3ff000000000000g",
            "0x3ff00000000000",
            "-3ff000000000000",
            "+3ff000000000000",
            "1",
            "",
        ] {
            let mut fields: Vec<&str> = AXIS.split(' ').collect();
            fields[place - 1] = pattern;
            unread(&[format!("chain {} 1 10", fields.join(" "))]);
        }
    }
}

#[test]
fn numbers() {
    for number in [
        "9223372036854775808",
        "-9223372036854775809",
        "9999999999999999999",
        "00000000000000000001",
        "-00000000000000000001",
        "+1",
        "-",
        "--1",
        "1-",
        "1.0",
        "1e3",
        "1,000",
        "0x1",
        "a",
        "\u{663}",
    ] {
        unread(&[in_chain(number), in_chain(&format!("1 {number}")), in_chain(&format!("0 1 {number}"))]);
    }
    unread(&["-1", "-1 1", "-9223372036854775808"].map(in_chain));
    assert_eq!(answers(&[in_chain("1 1").as_bytes(), b"\xff\nchain\0\n"].concat()), b"?\n?\n");
}

/// A line too long is answered once, whatever stands at its end; a wrong number behind a thousand is read.
#[test]
fn long_lines() {
    let head = in_chain("0");
    for (length, answer) in [(69_999, "105\n"), (70_000, "105\n"), (70_001, "?\n"), (70_002, "?\n")] {
        let mut line = head.clone() + &" 0".repeat((length - head.len()) / 2);
        line += &"0".repeat(length - line.len());
        for end in ["", "\n", "\r\n"] {
            assert_eq!(answered(&format!("{line}{end}")), answer, "{length} {end:?}");
        }
    }
    assert_eq!(answered(&format!("{}{head}\n{head}\n", " ".repeat(70_000))), "?\n0\n");
    assert_eq!(chain(&format!("0{} x", " 0".repeat(2_000))), "?\n");
}
