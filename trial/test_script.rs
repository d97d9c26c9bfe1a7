//! The lines of a script for `calls`: which are right, where they end, and what the fields can hold.

use crate::script::Calls;

pub fn printed(script: &[u8]) -> String {
    let mut out = Vec::new();
    Calls::fresh().script(script, &mut out).unwrap();
    String::from_utf8(out).unwrap()
}

/// Whether each line by itself is right, by what it prints at the start of a script.
pub fn all_right(lines: &[&str], right: bool) {
    for line in lines {
        assert_eq!(!printed(line.as_bytes()).contains('?'), right, "{line}");
    }
}

#[test]
fn where_lines_end() {
    for (script, wanted) in [
        ("", ""),
        ("\n", "? 1\n"),
        ("\n\n", "? 1\n? 2\n"),
        ("B 64", "B -\n"),
        ("B 64\n", "B -\n"),
        ("B 64\n\n", "B -\n? 2\n"),
        ("\nB 64", "? 1\nB -\n"),
        ("B 64\nB", "B -\n? 2\n"),
        ("C 1\r\nC 1", "? 1\nC Nothing\n"),
    ] {
        assert_eq!(printed(script.as_bytes()), wanted, "{script:?}");
    }
    assert_eq!(printed(b"C 1\n\xff\xfe\nC 1\n"), "C Nothing\n? 2\nC Nothing\n");
    assert_eq!(printed(b"C 1\0\nC 1\n"), "? 1\nC Nothing\n");
}

#[test]
fn long_lines() {
    for len in [64, 65, 66, 128, 129, 4_096, 100_000] {
        let script = format!("{}\nC 1\n", "x".repeat(len));
        assert_eq!(printed(script.as_bytes()), "? 1\nC Nothing\n");
        let tail = format!("{}C 1\nC 1\n", " ".repeat(len));
        assert_eq!(printed(tail.as_bytes()), "? 1\nC Nothing\n");
        let numbers = format!("I 1 2 3 {}4\nC 1\n", "0".repeat(len - 9));
        assert_eq!(printed(numbers.as_bytes()), "? 1\nC Nothing\n");
    }
}

#[test]
fn numbers_and_fields() {
    all_right(&["C 0", "C -0", "C 0000000002", "B 255", "I 0 0 0 255", "S", "L", "M 65536", "R 0"], true);
    all_right(&["C", "C ", "C  1", " C 1", "C 1 ", "C +1", "C 00000000002", "C 1 1", "C -1", "C 0x1"], false);
    all_right(&["c 1", "S ", "S 1", "L 0", "B 256", "B -1", "I 1 2 3", "I 0 0 0 256", "I 1 2 3 4 5"], false);
    all_right(&["C 4294967296", "M 65537", "R 65537", "M -1", "Q", "H", "H x", "H x 1 1", "H x y"], false);
}

#[test]
fn the_stores_fields() {
    all_right(&["K 65535 65535 255", "K 0 0 0", "W 16383 255", "W 0 0"], true);
    all_right(&["K 65536 0 0", "K 0 65536 0", "K 0 0 256", "K -1 0 0", "K 0 0", "K 1 1 1 1"], false);
    all_right(&["K 4294967295 0 0", "W 16384 0", "W 0 256", "W -1 0", "W 0"], false);
    let state = printed(b"K 65535 65534 253\nK 1 65536 1\nK 65536 1 1\nK 1 1 256\nS\n");
    assert!(state.contains(" used 65535 records 65534 store_axes 253 "), "{state}");
}

#[test]
fn the_states_fields() {
    all_right(&["H place 65535", "H place 0", "H axes 255", "H depth 255", "H len 255", "H over 1"], true);
    all_right(&["H x -8388608", "H oz 4286578687", "H standing 0"], true);
    all_right(&["H place 65536", "H place -1", "H place 4294967295", "H axes 256", "H depth 256"], false);
    all_right(&["H len 256", "H over 2", "H standing -1", "H x -8388609", "H oz 4286578688"], false);
    all_right(&["H w 1", "H X 1", "H  1", "H \u{e9} 1", "H place", "H phase 0", "H made 0"], false);
    all_right(&["H startx 0", "H speed1 30", "H secondx 0"], false);
}

#[test]
fn a_movements_fields() {
    let start = "B 64\nB 48\nB 49\nB 13\nB 64\nB 48\nB 65\nB 51\nB 44\nB 51\nB 48\nB 13\n";
    for (line, right) in [
        ("H phase 255", true),
        ("H phase 256", false),
        ("H made 4294967295", true),
        ("H made 4294967296", false),
        ("H speed3 65535", true),
        ("H speed3 65536", false),
        ("H speed0 30", false),
        ("H speed4 30", false),
        ("H thirdz 4286578687", true),
        ("H thirdz 4286578688", false),
        ("H fourthx 0", false),
    ] {
        assert_eq!(!printed(format!("{start}{line}\n").as_bytes()).contains('?'), right, "{line}");
    }
}
