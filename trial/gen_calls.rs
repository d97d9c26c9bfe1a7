//! Scripts for `calls`: COUNT scenes with stops between any two calls and what a host does, and in half
//! of them one more that an E may pass over.

use crate::axes;
use crate::damage;
use crate::gen_arc_host::Sent;
use crate::gen_fault;
use crate::gen_walk;
use crate::program::{self, Span, Taste};
use crate::rng::Rng;
use crate::spaces;
use std::io::Write;

pub fn script(rng: &mut Rng, count: u64, out: &mut Vec<u8>) {
    let mut script = Script {
        rng,
        out,
        altered: false,
        hurt_movement: false,
        tame: false,
        late: false,
        stored: (0, 0, 0),
        starts: Vec::new(),
        endless: false,
        arc: None,
    };
    for scene in 0..count {
        script.late = 2 * scene >= count;
        script.scene();
    }
    if script.rng.once_in(2) {
        script.last_scene();
    }
    if script.rng.once_in(3) {
        script.out.pop(); // the last line needs no line feed
    }
}

pub struct Script<'a> {
    pub rng: &'a mut Rng,
    out: &'a mut Vec<u8>,
    /// Whether the host has set fields that no later call would mend.
    pub altered: bool,
    pub hurt_movement: bool,
    /// Whether what is sent in this scene comes to an end soon, but for a rare jump back.
    pub tame: bool,
    /// Whether half of the script is written: an E comes only then, since it may pass over the rest.
    pub late: bool,
    /// Used bytes, records and axes of the program sent last, if all of it was accepted.
    pub stored: (usize, usize, u8),
    /// Where its records start.
    pub starts: Vec<usize>,
    /// Whether that program may run without end, if it was accepted.
    endless: bool,
    /// The arc that a line of this scene has set off, if it was accepted.
    pub arc: Option<Sent>,
}

impl Script<'_> {
    pub fn say(&mut self, text: String) {
        let _ = writeln!(self.out, "{text}");
    }

    pub fn byte(&mut self, v: u8) {
        self.say(format!("B {v}"));
    }

    pub fn line(&mut self, text: &str) {
        for c in text.chars() {
            self.byte(c as u8);
        }
        self.byte(13);
    }

    /// A scene starts from a board that is set up afresh and ends with its state.
    pub fn scene(&mut self) {
        let axes = axes::any(self.rng);
        self.tame = self.rng.once_in(4);
        self.arc = None;
        self.mark_once_in(4);
        if self.altered {
            self.repair();
        }
        self.set_up(axes);
        match self.rng.below(10) {
            0..=1 => self.move_directly(axes),
            2..=3 if axes::turns(axes) || self.rng.once_in(5) => self.arc_directly(axes),
            _ => self.start_stored(axes),
        }
        if self.tame {
            self.run_quietly();
        } else {
            self.run(axes);
        }
        self.say("S".to_string());
        if self.rng.once_in(3) {
            self.say("L".to_string());
        }
        if self.rng.once_in(3) {
            self.show_entries();
        }
    }

    /// Idle, with these axes and mostly 2.5D. A alone is set on a board without axes.
    fn set_up(&mut self, axes: u8) {
        if self.rng.once_in(10) && !self.tame {
            self.byte(255);
            self.set_axes_often();
        }
        let reset = axes == 8 || self.rng.once_in(3);
        self.byte(if reset { 254 } else { 255 });
        self.line("");
        axes::lines(axes).iter().for_each(|text| self.line(text));
        if self.rng.once_in(3) {
            let z = self.rng.below(2);
            self.line(&format!("@0z{z}"));
        }
        if self.rng.once_in(8) && !self.tame {
            self.put_a();
        }
        if self.rng.once_in(10) && !self.tame {
            self.fill_under_other_axes(axes);
        }
    }

    /// A program stored and started, now and then with something altered in between.
    fn start_stored(&mut self, axes: u8) {
        self.store(axes);
        if self.rng.once_in(8) && !self.tame {
            self.table();
        }
        if self.rng.once_in(12) {
            self.change_axes();
        }
        self.line("@0S");
    }

    fn mark_once_in(&mut self, times: u64) {
        if self.rng.once_in(times) {
            let mark = self.rng.pick(&[0, 1, 7, 12, 1_000, 2_147_483_648, 4_294_967_295u64]);
            self.say(format!("N {mark}"));
        }
    }

    /// Now and then farther than a few steps. The edges of 24 bits take too long for a run to its end.
    pub fn span(&mut self) -> Span {
        let edges = if self.tame { u64::MAX } else { 60 };
        Span { reach: if self.rng.once_in(30) { 400 } else { 7 }, edges }
    }

    fn move_directly(&mut self, axes: u8) {
        if self.rng.once_in(4) && !self.tame {
            return self.move_at_an_end(axes);
        }
        let absolute = self.rng.once_in(3);
        let span = self.span();
        let numbers = program::movement(self.rng, axes, absolute, span);
        let numbers = program::spaced(self.rng, numbers);
        self.line(&format!("@0{}{numbers}", if absolute { 'M' } else { 'A' }));
        if axes & 8 != 0 && !self.tame && self.rng.once_in(2) {
            (0..self.rng.between(1, 3)).for_each(|_| self.alter_a());
        }
    }

    fn store(&mut self, axes: u8) {
        if self.rng.once_in(8) && !(self.tame && self.endless) {
            return;
        }
        let lines = self.program(axes);
        self.remember(&lines, axes);
        self.endless = gen_fault::may_not_end(&lines);
        self.line("@0i");
        let hurt = self.rng.once_in(10) && !self.tame && lines.len() < 50;
        for text in &lines {
            self.line(text);
            if hurt && self.rng.once_in(3) {
                if self.rng.once_in(4) {
                    self.table();
                } else {
                    self.hurt();
                }
            }
        }
        if self.rng.once_in(6) && !self.tame {
            let at = self.rng.below(lines.len() as u64) as usize;
            self.spoil(self.starts[at]);
        }
        self.line("9");
    }

    /// What a program takes in the store, if all of it is accepted.
    pub fn remember(&mut self, lines: &[String], axes: u8) {
        let length = |line: &String| 8 + 4 * line.bytes().filter(|&b| b == b',').count();
        self.stored = (0, lines.len(), axes);
        self.starts.clear();
        for line in lines {
            self.starts.push(self.stored.0);
            self.stored.0 += length(line);
        }
    }

    /// A sound program, or one that mostly fails the check, now and then with something wrong in a line.
    fn program(&mut self, axes: u8) -> Vec<String> {
        let taste = Taste { axes, span: self.span(), waits: true, long: false };
        let faulty = self.rng.once_in(3) && !self.tame;
        let mut lines =
            if faulty { gen_fault::faulty(self.rng, axes, 100) } else { program::sound(self.rng, &taste) };
        if self.tame {
            return lines;
        }
        if self.rng.once_in(8) {
            let at = self.rng.below(lines.len() as u64) as usize;
            lines[at] = damage::hurt(self.rng, &lines[at]);
        }
        if self.rng.once_in(6) {
            gen_walk::lengthen_one(self.rng, &mut lines);
        }
        if self.rng.once_in(12) {
            let at = self.rng.below(lines.len() as u64) as usize;
            lines[at] = spaces::misplaced(self.rng, &lines[at]);
        }
        lines
    }

    /// Clock calls with anything between them, then enough calls to come to an end.
    fn run(&mut self, axes: u8) {
        let calm = self.rng.once_in(2);
        for _ in 0..self.rng.between(1, 14) {
            let calls = if self.rng.once_in(15) { 40 } else { self.rng.below(6) };
            self.clocks(calls);
            match self.rng.below(17) {
                0..=2 => self.stop(axes),
                3..=6 => {
                    let answer = self.rng.between(33, 41) as u8;
                    self.byte(answer);
                }
                7 if !calm => self.hurt(),
                8 if !calm => self.alter(),
                9 if !calm => self.lend(),
                10 => self.control(axes),
                11 => self.say("S".to_string()),
                12 => self.line("@0S"),
                13..=14 if !calm => self.table(),
                15 | 16 if !calm && self.arc.is_some() => self.alter_arc(),
                15 | 16 if !calm && axes & 8 != 0 => self.alter_a(),
                _ => {}
            }
        }
        let calls = self.rng.pick(&[1, 3, 20]);
        self.clocks(calls);
    }

    /// A stop, lines while it stands, and mostly a restart.
    fn stop(&mut self, axes: u8) {
        self.byte(253);
        for _ in 0..self.rng.below(3) {
            match self.rng.below(8) {
                0 => self.clocks(1),
                1 => self.byte(253),
                2 => self.line("@0P"),
                3 => self.any_line(axes),
                4 => self.say("S".to_string()),
                5 => self.byte(b'@'),
                6 => self.byte(13),
                _ => self.any_line(axes),
            }
        }
        if !self.rng.once_in(6) {
            let s = self.rng.pick(&["@0S", "@0s", "@0S", "@0S1"]);
            self.line(s);
        }
    }

    fn any_line(&mut self, axes: u8) {
        let text = gen_walk::direct(self.rng, axes);
        let text = match self.rng.below(12) {
            0 | 1 => damage::hurt(self.rng, &text),
            2 => spaces::misplaced(self.rng, &text),
            _ => text,
        };
        self.line(&text);
    }

    /// A control code, a line or a lost byte in the middle of a run.
    fn control(&mut self, axes: u8) {
        match self.rng.below(5) {
            0 => self.byte(255),
            1 => self.byte(254),
            2 => self.any_line(axes),
            3 => {
                let ports: Vec<u64> = (0..4).map(|_| self.rng.below(256)).collect();
                self.say(format!("I {} {} {} {}", ports[0], ports[1], ports[2], ports[3]));
                let port = self.rng.below(4);
                self.line(&format!("@0b{port}"));
            }
            _ => {
                let v = self.rng.below(253) as u8;
                self.byte(v);
            }
        }
    }
}
