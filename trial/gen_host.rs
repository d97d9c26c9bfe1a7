//! What a host does in a script: stores and states altered, short buffers, wrong lines. The table is in `gen_table`.

use crate::gen_calls::Script;

const RESTING_POINTS: [&str; 16] = [
    "startx", "starty", "startz", "starta", "firstx", "firsty", "firstz", "firsta", "secondx", "secondy",
    "secondz", "seconda", "thirdx", "thirdy", "thirdz", "thirda",
];

/// Lines that are wrong, or at the limit of what is right.
const WRONG_LINES: &[&str] = &[
    "B 256",
    "B",
    "B -1",
    "Q",
    "H what 1",
    "H speed4 30",
    "W 16384 0",
    "C",
    "S 1",
    "K 1 1",
    "I 1 2 3",
    "B 1 2",
    "H x",
    "H over 2",
    "H x -8388609",
    "H a -8388609",
    "H oa 4286578688",
    "H aa 0",
    "H fourtha 0",
    "H firsta 4286578688",
    "H x 4286578688",
    "M -1",
    "L 1",
    "",
    "B 0000000064",
    "B 00000000064",
    "B -0",
    "B +1",
    "B  64",
    " B 64",
    "B 64 ",
    "B 64\r",
    "b 64",
    "C 0",
    "C -1",
    "K 65535 65535 255",
    "K 65536 0 0",
    "K 0 65536 0",
    "K 0 0 256",
    "W 0 256",
    "W -1 0",
    "M 65536",
    "M 65537",
    "R 65537",
    "H place 65536",
    "H axes 256",
    "H depth 256",
    "H len 256",
    "H standing 2",
    "H  1",
    "I 1 2 3 256",
    "\u{e9}",
    "Q -1",
    "Q 4294967296",
    "Q 00000000001",
    "Q 0000000002",
    "Q -0",
    "Q 1 1",
    "E 1",
    "E ",
    "e",
    "N",
    "N -1",
    "N 4294967296",
    "N 0000000012",
    "N -0",
    "N 1 2",
    "T 1000 0",
    "T 0 65536",
    "T 999 65535",
    "T -1 0",
    "T 0 -1",
    "T 1",
    "T 1 1 1",
    "U 2001",
    "U 2000",
    "U -1",
    "U",
    "V 1000",
    "V 999",
    "V -1",
    "V",
    "V 1 1",
    "H plane 3",
    "H plane -1",
    "H turn 1",
    "H turn -2",
    "H arcplane 3",
    "H arcplane 2",
    "H arcturn 1",
    "H centre1 -8388609",
    "H centre2 4286578688",
    "H centre3 0",
    "H start1 -8388609",
    "H start2 4286578688",
    "H start3 1",
    "H arcspeed 65536",
    "H arcspeed -1",
    "H length -1",
    "H length 4294967296",
    "F 1",
    "F ",
    "f",
];

impl Script<'_> {
    /// Sets every field so that no call is refused; what isn't there is a wrong line.
    pub fn repair(&mut self) {
        self.altered = false;
        for name in ["x", "y", "z", "a", "ox", "oy", "oz", "oa", "depth", "len", "over", "standing", "place"]
        {
            self.say(format!("H {name} 0"));
        }
        self.say("H axes 7".to_string());
        self.say("K 0 0 0".to_string());
        for name in RESTING_POINTS.into_iter().chain(["phase", "made"]) {
            self.say(format!("H {name} 0"));
        }
        if self.hurt_movement {
            self.hurt_movement = false;
            for name in ["speed1", "speed2", "speed3"] {
                self.say(format!("H {name} 500"));
            }
        }
        self.repair_arc();
    }

    /// The host writes to the store or to its fields.
    pub fn hurt(&mut self) {
        self.altered = true;
        match self.rng.below(7) {
            0..=2 => {
                let at = self.rng.pick(&[0, 1, 2, 3, 4, 8, 12, 16, 20, 24, 36, 40, 44])
                    + self.rng.pick(&[0, 0, 1, 2, 3]);
                let v = self.rng.pick(&[0, 1, 2, 8, 0xD7, 0x2B, b'3', b'0', b'5', b'z', 255]);
                self.say(format!("W {at} {v}"));
            }
            3 => {
                let (used, records) = (4 * self.rng.below(30), self.rng.below(9));
                let axes = self.rng.pick(&[0, 1, 3, 7, 7, 8, 15, 2]);
                self.say(format!("K {used} {records} {axes}"));
            }
            4 => self.bring_back(),
            5 => {
                let used = self.rng.pick(&[
                    16_384,
                    16_385,
                    20_000,
                    16_380,
                    0,
                    12,
                    16_372,
                    65_535,
                    65_536,
                    4_294_967_295i64,
                ]);
                let records = self.rng.pick(&[0, 1, 2, 999, 1_000, 1_001, 65_535, 65_536]);
                let axes = self.rng.pick(&[0, 1, 3, 7, 7, 8, 15, 12, 255, 256]);
                self.say(format!("K {used} {records} {axes}"));
            }
            _ => self.wrong_line(),
        }
        if self.rng.once_in(3) {
            self.say("L".to_string());
        }
    }

    /// The host alters a program before it is checked: its fields, or a byte of the record that starts here.
    pub fn spoil(&mut self, record: usize) {
        self.altered = true;
        if self.rng.once_in(4) {
            return self.bring_back();
        }
        let at = record + self.rng.pick(&[0, 1, 2, 3, 4, 5, 7, 8, 8, 8, 9, 11]);
        let v = self.rng.pick(&[0, 1, 2, 3, 9, 0xD7, 0x2B, b'1', b'2', b'3', 0xF8, 0xFC, 0xFE, 0xFF]);
        self.say(format!("W {at} {v}"));
    }

    /// The fields of the program sent last, or nearly those: an emptied store's bytes are still there.
    pub fn bring_back(&mut self) {
        let (used, records, axes) = self.stored;
        let used = used as i64 + self.rng.pick(&[0, 0, 0, 1, -1, 4, -8]);
        let records = records as i64 + self.rng.pick(&[0, 0, 0, 1, -1]);
        self.say(format!("K {} {} {axes}", used.max(0), records.max(0)));
    }

    /// A line that is wrong, or at the limit of what is right.
    fn wrong_line(&mut self) {
        let text = self.rng.pick(WRONG_LINES);
        match self.rng.below(12) {
            0 => self.long_line(),
            _ => self.say(text.to_string()),
        }
    }

    /// A line of about 64 bytes or far more, with a right line at its end.
    fn long_line(&mut self) {
        let len = self.rng.pick(&[59, 60, 61, 64, 128, 1_000]);
        let fill = self.rng.pick(&["0", " ", "B"]);
        let tail = self.rng.pick(&["C 1", "B 64", "S", "Q 1", "E", "N 1"]);
        self.say(format!("{}{tail}", fill.repeat(len)));
    }

    /// The host alters the state, and mostly mends it after a call.
    pub fn alter(&mut self) {
        self.altered = true;
        let (name, values): (&str, &[i64]) = match self.rng.below(14) {
            0 => (
                self.rng.pick(&["x", "y", "z", "a", "a"]),
                &[0, 1, 3, -2, 8_388_607, 8_388_608, -8_388_608, 4_286_578_687],
            ),
            1 => (
                self.rng.pick(&["ox", "oy", "oz", "oa"]),
                &[0, 1, -5, 8_388_607, 8_388_608, 4_000_000_000, -8_388_608],
            ),
            2 => ("axes", &[0, 1, 3, 7, 2, 4, 8, 8, 9, 14, 15, 15, 16, 255]),
            3 => ("depth", &[0, 1, 2, 6, 7, 8, 255]),
            4 => ("len", &[0, 1, 2, 79, 80, 81, 255]),
            5 => (self.rng.pick(&["over", "standing", "standing"]), &[0, 1]),
            6 => ("place", &[0, 1, 2, 3, 5, 8, 1_000, 1_001, 32_768, 65_535, 65_536]),
            7 => ("phase", &[0, 1, 2, 3, 255]),
            8 => ("made", &[0, 1, 2, 3, 7, 8_388_607, 4_294_967_295]),
            9 => (self.rng.pick(&["speed1", "speed2", "speed3"]), &[29, 30, 10_000, 10_001, 0, 65_535]),
            10 => ("plane", &[0, 1, 2]),
            11 => ("turn", &[0, -1]),
            _ => (
                self.rng.pick(&RESTING_POINTS),
                &[0, 1, -1, 4, -7, 8_388_607, 8_388_608, -8_388_608, 4_286_578_687],
            ),
        };
        let value = self.rng.pick(values);
        self.hurt_movement |= name.starts_with("speed");
        self.say(format!("H {name} {value}"));
        let calls = self.rng.pick(&[1, 1, 1, 0, 2, 5]);
        self.clocks(calls);
        if self.rng.once_in(3) {
            self.line("@0P");
        }
        if self.rng.once_in(3) {
            self.say("L".to_string());
        }
        self.mend(name);
    }

    fn mend(&mut self, name: &str) {
        let value = match name {
            "axes" => self.rng.pick(&[7, 7, 8, 15]),
            "depth" | "len" | "over" | "phase" | "made" => 0,
            "speed1" | "speed2" | "speed3" => 500,
            "place" | "standing" | "plane" | "turn" => return,
            _ => 0,
        };
        if !self.rng.once_in(4) {
            self.say(format!("H {name} {value}"));
        }
    }

    /// Short or long buffers for the next call, now and then with a state that is refused too.
    pub fn lend(&mut self) {
        let refused = self.rng.once_in(6);
        if refused {
            self.altered = true;
            self.say("H axes 2".to_string());
        }
        self.lend_any();
        match self.rng.below(6) {
            0 => self.clocks(2),
            1 => self.clocks(0),
            2 => self.say("L".to_string()),
            3 => self.byte(253),
            4 => self.say("F".to_string()),
            _ => self.line("@0P"),
        }
        if refused {
            self.mend("axes");
        }
    }
}
