//! Shapes of lines, replies and their order.

use crate::Bench;

fn replies(bench: &mut Bench, cases: &[(&str, &str)]) {
    for (line, reply) in cases {
        assert_eq!(bench.line(line), *reply, "{line}");
    }
}

#[test]
fn shapes_refused() {
    let mut b = Bench::with_axes(7);
    for line in [
        "",
        "@",
        "@0",
        "@1P",
        "@07 ",
        "@0 7",
        "@0P ",
        "@0P  1",
        "@0z  1",
        "@0z 1 ",
        "@0z,1",
        "@0z1,",
        "@0z1,,1",
        "@0z--1",
        "@0z-",
        "@0z123456789",
        "@0Z1",
        "@0p",
        "@0I",
        "@0R7",
        "@0K",
        "@0S ",
        "P",
        " @0P",
        "\n@0P",
        "@0P\n",
        "9",
        "@0z+1",
        "@0000000007",
    ] {
        assert_eq!(b.line(line), "5", "{line:?}");
    }
}

#[test]
fn axes_line() {
    let mut b = Bench::fresh();
    replies(
        &mut b,
        &[
            ("@00", "3"),
            ("@02", "3"),
            ("@09", "3"),
            ("@0-1", "3"),
            ("@010", "3"),
            ("@015", "3"),
            ("@01,3", "7"),
        ],
    );
    assert_eq!(b.board.axes, 0);
    replies(&mut b, &[("@01", "0"), ("@03", "0"), ("@007", "0"), ("@000000003", "0")]);
    assert_eq!(b.board.axes, 3);
}

#[test]
fn axes_needed() {
    let mut b = Bench::fresh();
    let four = ["@0A", "@0M1", "@0n9", "@0N", "@0z5", "@0i1", "@0S", "@0S1"];
    replies(&mut b, &four.map(|line| (line, "4")));
    replies(&mut b, &[("@0P", "0000000000000000000"), ("@0b0", "000"), ("@0B0,1", "0"), ("@0k", "0")]);
}

#[test]
fn counts() {
    let mut b = Bench::with_axes(3);
    for line in [
        "@0A",
        "@0A1,30",
        "@0M1,30,1,30,1",
        "@0n",
        "@0n1,1",
        "@0z",
        "@0P1",
        "@0b",
        "@0B0",
        "@0i1",
        "@0k0",
        "@0S1",
    ] {
        assert_eq!(b.line(line), "7", "{line}");
    }
    assert_eq!(b.line("@0A1,2,3,4,5,6,7,8,9,10,11"), "7");
}

#[test]
fn ranges_come_before_speeds() {
    let mut b = Bench::with_axes(3);
    replies(
        &mut b,
        &[
            ("@0A1,5,9000000,600", "1"),
            ("@0A1,29,1,600", "D"),
            ("@0A0,30,0,10001", "D"),
            ("@0A8388608,30,0,30", "1"),
            ("@0A-8388609,30,0,30", "1"),
            ("@0A0,-30,0,30", "D"),
            ("@0A0,30,0,10000", "0"),
            ("@0A-0,0030,0,30", "0"),
        ],
    );
}

#[test]
fn absolute_second_z_is_zero() {
    let mut b = Bench::with_axes(7);
    replies(
        &mut b,
        &[("@0M0,30,0,30,0,30,1,30", "1"), ("@0M0,30,0,30,0,30,0,29", "D"), ("@0M0,30,0,30,0,30,0,30", "0")],
    );
    assert_eq!(b.line("@0z1"), "0");
    replies(
        &mut b,
        &[
            ("@0M0,30,0,30,0,30,1,30", "1"),
            ("@0A0,30,0,30,0,30,8388608,30", "1"),
            ("@0A0,30,0,30,0,30,5,29", "D"),
        ],
    );
    assert_eq!(b.line("@0A0,30,0,30,0,30,5,30"), "0");
}

#[test]
fn masks() {
    let mut b = Bench::with_axes(3);
    for line in ["@0n0", "@0n4", "@0N7", "@0N-1", "@0n99999999"] {
        assert_eq!(b.line(line), "3", "{line}");
    }
    replies(&mut b, &[("@0n3", "0"), ("@0N 2", "0")]);
}

#[test]
fn outputs_and_ports() {
    let mut b = Bench::fresh();
    b.ports = [1, 0xAB, 255, 16];
    replies(
        &mut b,
        &[("@0b0", "001"), ("@0b1", "0AB"), ("@0b 2", "0FF"), ("@0b3", "010"), ("@0b4", "1"), ("@0b-1", "1")],
    );
    replies(&mut b, &[("@0B0,256", "1"), ("@0B1,5", "1"), ("@0B0,-1", "1"), ("@0B 0,255", "0")]);
    assert_eq!(b.board.output, 255);
    assert_eq!(b.line("@07"), "0");
    assert_eq!(b.board.output, 255);
}

#[test]
fn positions_in_hexadecimal() {
    let mut b = Bench::with_axes(7);
    b.board.position = [-2, 256, 8_388_607, 0];
    assert_eq!(b.line("@0P"), "0FFFFFE0001007FFFFF");
    b.board.position = [-8_388_608, -1, 0, 0];
    assert_eq!(b.line("@0P"), "0800000FFFFFF000000");
}

#[test]
fn eighty_bytes() {
    let mut b = Bench::fresh();
    let eighty = format!("@0P{}1", "1,".repeat(38));
    assert_eq!(eighty.len(), 80);
    assert_eq!(b.line(&eighty), "7");
    assert_eq!(b.line(&format!("{eighty}1")), "5");
    assert_eq!(b.line("@0P"), "0000000000000000000");
    assert_eq!((b.board.len, b.board.over, b.board.line), (0, false, [0; 80]));
}

#[test]
fn control_codes_inside_a_line() {
    let mut b = Bench::with_axes(1);
    assert_eq!(b.byte(b'@') + &b.byte(253) + &b.byte(255) + &b.line("0z1"), "0");
    b.byte(b'@');
    assert_eq!(b.byte(254) + &b.line("@0z1"), "4");
}

#[test]
fn storing_lines() {
    let mut b = Bench::with_axes(3);
    assert_eq!(b.line("@0i"), "0");
    for line in [
        "@0P", "M1,30", "N1", "A1,30", "91", "9 ", "9,", "z ", "z  1", "6", "7 1", "S", "", "\n9", " 9", "0 ",
    ] {
        assert_eq!(b.line(line), "5", "{line:?}");
    }
    replies(
        &mut b,
        &[
            ("0", "7"),
            ("0 1,30", "7"),
            ("n", "7"),
            ("n4", "3"),
            ("n0", "3"),
            ("z2", "1"),
            ("5 65536", "1"),
            ("5-1", "1"),
            ("132", "1"),
            ("1127", "1"),
            ("232,0", "1"),
            ("2 33,32768", "1"),
            ("3 1,0", "1"),
            ("3 32768,-1", "1"),
            ("3 -1,-1", "1"),
            ("3 1,-32769", "1"),
            ("00,29,0,30", "D"),
            ("09000000,29,0,30", "1"),
            ("3 1", "7"),
            ("5 1,1", "7"),
            ("m0,30,8388608,30", "1"),
        ],
    );
    assert_eq!((b.board.used, b.board.records), (0, 0));
    replies(&mut b, &[("5 65535", "0"), ("133", "0"), ("1 126", "0"), ("z1", "0"), ("n3", "0"), ("9", "0")]);
    assert_eq!((b.board.records, b.board.three, b.board.origin), (5, false, [0; 4]));
}

#[test]
fn refused_lines_change_nothing() {
    let mut b = Bench::with_axes(7);
    b.board.position = [5, 6, 7, 0];
    for line in [
        "@02",
        "@0n8",
        "@0N0",
        "@0z2",
        "@0B0,300",
        "@0A8388607,30,0,30,0,30,0,30",
        "@0A1",
        "@0i1",
        "@0k1",
        "@0S",
    ] {
        let before = b.board;
        let reply = b.line(line);
        assert!(reply.len() == 1 && reply != "0", "{line}: {reply}");
        assert_eq!(b.board, before, "{line}");
    }
}
