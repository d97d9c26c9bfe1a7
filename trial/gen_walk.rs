//! Inputs for `walk`: COUNT scenes of lines, programs and control codes.

use crate::arcs;
use crate::axes;
use crate::damage;
use crate::gen_arc;
use crate::gen_fault;
use crate::gen_turn;
use crate::program::{self, Span, Taste};
use crate::rng::Rng;
use crate::spaces;

pub fn stream(rng: &mut Rng, count: u64, out: &mut Vec<u8>) {
    let mut axes = 0;
    for _ in 0..count {
        scene(rng, &mut axes, out);
    }
}

fn scene(rng: &mut Rng, axes: &mut u8, out: &mut Vec<u8>) {
    if rng.once_in(4) {
        out.extend_from_slice(b"\xff\r9\r"); // ends whatever waits or is being stored
        *axes = 0;
    }
    if *axes == 0 {
        *axes = axes::any(rng);
        set(rng, *axes, out);
    }
    match rng.below(20) {
        0..=4 => {
            for _ in 0..rng.between(1, 6) {
                let text = direct(rng, *axes);
                line(rng, out, &text);
            }
        }
        5..=9 => stored(rng, *axes, out),
        12..=14 => failing(rng, *axes, out),
        15..=17 if !axes::turns(*axes) && !rng.once_in(4) => line(rng, out, "@0P"),
        15..=16 => gen_arc::circles(rng, *axes, out),
        17 => gen_arc::edge(rng, *axes, out),
        18 => gen_turn::changing(rng, axes, out),
        19 => gen_turn::edge(rng, *axes, out),
        10 if rng.once_in(2) => long_line(rng, out),
        10 => edge(rng, *axes, out),
        _ => {
            let code = rng.pick(&[253, 254, 255, 255]);
            out.push(code);
            *axes = if code == 254 { 0 } else { *axes };
        }
    }
}

/// Sets axes: A alone only on a board without any.
fn set(rng: &mut Rng, axes: u8, out: &mut Vec<u8>) {
    if axes == 8 {
        out.push(254);
    }
    axes::lines(axes).iter().for_each(|text| line(rng, out, text));
}

/// The same, whatever axes the lines before have left: a long movement must be the one that is meant.
pub fn set_surely(axes: u8, out: &mut Vec<u8>) {
    unharmed(out, "");
    if axes == 8 {
        out.push(254);
    }
    axes::lines(axes).iter().for_each(|text| unharmed(out, text));
}

/// A line with its return; now and then damaged, with a control code inside, or with CRLF.
pub fn line(rng: &mut Rng, out: &mut Vec<u8>, text: &str) {
    let start = out.len();
    let text = if rng.once_in(20) { damage::hurt(rng, text) } else { text.to_string() };
    let text = if text.contains(',') && rng.once_in(40) { spaces::misplaced(rng, &text) } else { text };
    out.extend(text.chars().map(|c| c as u8));
    out.push(13);
    if rng.once_in(60) {
        out.push(10);
    }
    if rng.once_in(40) {
        let at = rng.between(start as i64, out.len() as i64) as usize;
        out.insert(at, rng.pick(&[253, 255, 255, 254, 0, 200, 252]));
    }
}

/// A line with its return and nothing else done to it.
pub fn unharmed(out: &mut Vec<u8>, text: &str) {
    out.extend_from_slice(text.as_bytes());
    out.push(13);
}

/// A line outside storing, mostly right.
pub fn direct(rng: &mut Rng, axes: u8) -> String {
    let text = unspaced(rng, axes);
    program::spaced(rng, text)
}

fn unspaced(rng: &mut Rng, axes: u8) -> String {
    let gap = if rng.once_in(4) { " " } else { "" };
    let span = Span { reach: if rng.once_in(30) { 2_000 } else { 9 }, edges: 20_000 };
    match rng.below(25) {
        0..=4 => format!("@0{}{gap}{}", rng.pick(&['A', 'a']), program::movement(rng, axes, false, span)),
        5..=7 => format!("@0{}{gap}{}", rng.pick(&['M', 'm']), program::movement(rng, axes, true, span)),
        8 => format!("@0n{gap}{}", axes::near_mask(rng, axes)),
        9 => format!("@0N{gap}{}", axes::near_mask(rng, axes)),
        10 => format!("@0z{gap}{}", rng.below(2)),
        11..=13 => "@0P".to_string(),
        14 => format!("@0b{gap}{}", rng.between(-1, 4)),
        15 => format!("@0B{gap}{},{}", rng.below(2), rng.between(-1, 256)),
        16 => format!("@0{}", rng.pick(&["S", "s", "S", "k"])),
        17 => format!("@0{}", rng.pick(&[-1, 0, 1, 2, 3, 4, 6, 7, 8, 8, 8, 8, 9, 10, 12, 15, 16])),
        18 => format!("@0{}{gap}{}", rng.pick(&["A", "M"]), program::movement(rng, 1, false, span)),
        19 => {
            let other = rng.pick(&[7, 15]);
            let text =
                format!("@0{}{gap}{}", rng.pick(&["A", "M"]), program::movement(rng, other, true, span));
            lengthened(rng, &text)
        }
        20 => format!("@0e{gap}{}", rng.between(-1, 3)),
        21 => format!("@0f{gap}{}", rng.between(-2, 1)),
        22 => {
            let direction = arcs::direction(rng);
            format!("@0y{gap}{}", arcs::arc(rng, span, direction))
        }
        _ => odd(rng).to_string(),
    }
}

fn odd(rng: &mut Rng) -> &'static str {
    rng.pick(&[
        "",
        "@",
        "@0",
        "@1",
        "@0 7",
        "@007",
        "@008",
        "@08 ",
        "@08,8",
        "@0M0,600,0,700,0,800,1,900",
        "@0n8,8",
        "@0A1,29",
        "@000000007",
        "@0000000007",
        "@07 ",
        "@01,3",
        "@01, 3",
        "@0, 1",
        "@0A, 1",
        "@0A1, 30, 1",
        "@0P 5, 5",
        "@0B0, -",
        "@0B0, -0",
        "@0-1",
        "@0A",
        "@0A ",
        "@0S1",
        "@0i2",
        "@0P5",
        "@0P ",
        "@0R7",
        "@0a-0,30,0,30",
        "@0A1,30,1",
        "@0A8388608,600",
        "@0A8388608,5",
        "@0M 1,29",
        "@0A1,10001",
        "@0z2",
        "@0z",
        "@0n",
        "@0N 1,1",
        "@0B0",
        "@0b",
        "@0k1",
        "0 1,30",
        "9",
        "@0A1,2,3,4,5,6,7,8,9,10,11,12",
        "@0A 123456789,30",
        "@0A--1,30",
        "@0A1,,30",
        "@0I",
        "@0p",
        "@0Z1",
        "@0A 5,600,7,700,3,800,-3,900",
        "@0M 5,600,7,700,3,800,1,900",
        "@0M 5,600,7,700,3,800,0,29",
        "@0E0",
        "@0F0",
        "@0Y1,600,0,1,0,-1,-1",
        "@0e",
        "@0e ",
        "@0e 2",
        "@0e3",
        "@0e0,0",
        "@0f",
        "@0f-0",
        "@0f -1",
        "@0f1",
        "@0f0, 0",
        "@0y",
        "@0y1,600,0,1,0,-1",
        "@0y1,600,0,1,0,-1,-1",
        "@0y1,600,0,1,0,-1,1",
        "@0y1, 600, 0, 0, 1, 1, -1",
        "@0y1,600,0,0,-1,1,1",
        "@0y 1,600,0,1,0,-1,-1,1",
        "@0y0,600,0,0,0,1,1",
        "@0y1,29,0,1,0,1,1",
        "@0y8388608,5,0,1,0,-1,-1",
        "@0y0,600,0,4000000,4000000,1,-1",
    ])
}

/// Stores a program and starts it once or twice, feeding its waits.
fn stored(rng: &mut Rng, axes: u8, out: &mut Vec<u8>) {
    let span = Span { reach: if rng.once_in(25) { 300 } else { 6 }, edges: 20_000 };
    let taste = Taste { axes, span, waits: true, long: true };
    let mut lines = program::sound(rng, &taste);
    if rng.once_in(4) {
        let at = rng.below(lines.len() as u64) as usize;
        lines[at] = damage::hurt(rng, &lines[at]);
    }
    if rng.once_in(4) {
        lengthen_one(rng, &mut lines);
    }
    line(rng, out, "@0i");
    for text in &lines {
        line(rng, out, text);
    }
    if rng.once_in(30) {
        out.push(rng.pick(&[254, 255, 253]));
    }
    line(rng, out, "9");
    if rng.once_in(3) {
        let z = rng.pick(&["@0z1", "@0z0", "@0P", "@0n1", "@0n8", "@08", "@08", "@07"]);
        line(rng, out, z);
    }
    for _ in 0..rng.between(1, 2) {
        line(rng, out, "@0S");
        for _ in 0..rng.below(12) {
            let byte = rng.between(33, 41) as u8;
            out.push(byte);
        }
        out.push(if rng.once_in(2) { 255 } else { 13 });
    }
}

/// Stores a program that mostly fails the check, and starts it: what has failed is no more there. One that
/// may run without end, should it be accepted, is taken out of the store.
fn failing(rng: &mut Rng, axes: u8, out: &mut Vec<u8>) {
    let mut lines = gen_fault::faulty(rng, axes, 30);
    if rng.once_in(8) {
        let at = rng.below(lines.len() as u64) as usize;
        lines[at] = damage::hurt(rng, &lines[at]);
    }
    unharmed(out, "@0i");
    for text in &lines {
        unharmed(out, text);
    }
    line(rng, out, "9");
    if gen_fault::may_not_end(&lines) {
        return unharmed(out, "@0k");
    }
    line(rng, out, "@0S");
    for _ in 0..rng.below(4) {
        out.push(rng.pick(&[33, 34, 35]));
    }
    out.push(255);
}

/// Resting points just outside 24 bits, met without a long run; so these lines are never damaged.
fn edge(rng: &mut Rng, axes: u8, out: &mut Vec<u8>) {
    let tail = &axes::single(axes, 0, 0)[1..];
    set_surely(axes, out);
    let mut lines: Vec<String> = Vec::new();
    lines.extend(axes::masks(axes).iter().map(|mask| format!("@0N{mask}")));
    lines.push(format!("@0A1{tail}"));
    match rng.below(3) {
        0 => lines.push(format!("@0A8388607{tail}")),
        1 => lines.extend([
            format!("@0n{}", axes::masks(axes)[0]),
            format!("@0M8388607{tail}"),
            format!("@0M1{tail}"),
        ]),
        _ => lines.extend([format!("@0A-2{tail}"), format!("@0A-8388608{tail}")]),
    }
    if axes == 7 {
        let lift = rng.pick(&["1,30,8388607", "-1,30,-8388608", "2,600,8388606"]);
        lines.push(rng.pick(&["@0z0", "@0z1", "@0P"]).to_string());
        lines.push(format!("@0A0,30,0,40,{lift},50"));
    }
    for text in lines {
        let text = program::spaced(rng, text);
        unharmed(out, &text);
    }
}

/// Lines of about 80 bytes; those with spaces are right but for their length and count.
fn long_line(rng: &mut Rng, out: &mut Vec<u8>) {
    let len = rng.pick(&[78, 79, 80, 81, 82, 100, 300]);
    if rng.once_in(2) {
        let mut text = format!("@0{}0", rng.pick(&["A", "P", "k", ""]));
        while text.len() + 3 <= len {
            text += ", 1";
        }
        text += &"1".repeat(len - text.len());
        unharmed(out, &text);
        return;
    }
    let head: &[u8] = rng.pick(&[b"@0A0", b"@0P0", b"@0k,"]);
    out.extend_from_slice(head);
    for i in head.len()..len {
        out.push(if i % 2 == 0 { b',' } else { b'1' });
    }
    out.push(13);
}

/// A line of eight numbers filled up to about 80 bytes. It has a letter or code, with `@0` before a letter.
fn lengthened(rng: &mut Rng, line: &str) -> String {
    let letter = if line.starts_with('@') { 3 } else { 1 };
    let gap = line[letter..].starts_with(' ') as usize;
    spaces::filled(line, letter + gap, rng.pick(&[79, 80, 80, 81, 81, 82]))
}

/// One line of eight numbers, if there is one, filled up to about 80 bytes.
pub fn lengthen_one(rng: &mut Rng, lines: &mut [String]) {
    let long: Vec<usize> = (0..lines.len()).filter(|&i| lines[i].matches(',').count() == 7).collect();
    if !long.is_empty() {
        let at = rng.pick(&long);
        lines[at] = lengthened(rng, &lines[at]);
    }
}
