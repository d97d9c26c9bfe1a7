//! What a host does to the table in a script: entries altered and shown, and the table filled.

use crate::axes;
use crate::gen_calls::Script;

impl Script<'_> {
    /// Entries are altered, the table is filled, or some are shown.
    pub fn table(&mut self) {
        match self.rng.below(6) {
            0..=2 => self.alter_table(),
            3..=4 => self.fill_table(),
            _ => self.show_entries(),
        }
    }

    /// The host writes up to three entries, or swaps two, mostly with a run to follow.
    fn alter_table(&mut self) {
        self.altered = true;
        if self.rng.once_in(4) && !self.starts.is_empty() {
            let places = [0, 1].map(|_| self.rng.below(self.starts.len() as u64) as usize);
            for (at, from) in [(places[0], places[1]), (places[1], places[0])] {
                self.say(format!("T {at} {}", self.starts[from]));
            }
        }
        for _ in 0..self.rng.between(1, 3) {
            let (at, v) = (self.place(), self.entry());
            self.say(format!("T {at} {v}"));
        }
        if self.rng.once_in(3) {
            self.show_entries();
        }
        if !self.rng.once_in(3) {
            self.run_by_the_table();
        }
    }

    /// A run by the table as it is, mostly from the start and of the program sent last, although a run by another
    /// table may have emptied the store since.
    fn run_by_the_table(&mut self) {
        if self.rng.once_in(2) {
            self.byte(255);
        }
        if self.rng.once_in(2) {
            self.bring_back();
        }
        self.line("@0S");
        let calls = self.rng.between(1, 12) as u64;
        self.clocks(calls);
    }

    /// A place of the program sent last, its end place or one behind it, or any of the table.
    fn place(&mut self) -> u64 {
        let count = self.starts.len() as u64;
        match self.rng.below(10) {
            0 => count.min(999),
            1 => (count + 1).min(999),
            2 => self.rng.pick(&[0, 999, 998]),
            3 => self.rng.below(1_000),
            _ => self.rng.below(count.clamp(1, 1_000)),
        }
    }

    /// Where a record of the program sent last starts or nearly so, its end or nearly so, or any number.
    fn entry(&mut self) -> u64 {
        let start = if self.starts.is_empty() { 0 } else { self.rng.pick(&self.starts) as i64 };
        let end = self.stored.0 as i64;
        let near = match self.rng.below(8) {
            0..=2 => start,
            3 => start + self.rng.pick(&[1, 2, 3, 4, 8, 12]),
            4 => start - self.rng.pick(&[1, 2, 4, 8]),
            5 => end + self.rng.pick(&[0, 0, 1, 4, -1, -4, -8, -12]),
            6 => self.rng.pick(&[65_535, 16_383, 16_384, 16_380, 16_376, 0, 4]),
            _ => self.rng.below(65_536) as i64,
        };
        near.clamp(0, 65_535) as u64
    }

    /// Behind damage to the table, the store or its fields, or with buffers of other lengths.
    fn fill_table(&mut self) {
        match self.rng.below(8) {
            0..=1 => self.alter_table(),
            2 => self.hurt(),
            3 => self.bring_back(),
            4 => self.lend_any(),
            _ => {}
        }
        self.say("F".to_string());
        self.show_entries();
    }

    /// A store of n and few others is filled under axes that no board has, now and then with another number in an n,
    /// and at last by its own axes again.
    pub fn fill_under_other_axes(&mut self, axes: u8) {
        self.altered = true;
        let of = if axes == 15 && self.rng.once_in(2) { 8 } else { axes };
        let lines: Vec<String> =
            (0..self.rng.between(1, 4)).map(|place| self.kept(axes, of, place == 0)).collect();
        self.remember(&lines, axes);
        self.line("@0i");
        lines.iter().for_each(|text| self.line(text));
        self.line("9");
        for _ in 0..self.rng.between(1, 4) {
            let place = self.rng.below(lines.len() as u64) as usize;
            if lines[place].starts_with('n') && self.rng.once_in(2) {
                let mask = self.rng.pick(&[1, 2, 3, 4, 5, 6, 7, 8, 8, 8, 9, 0, 15, 16]);
                self.say(format!("W {} {mask}", self.starts[place] + 4));
            }
            let any = self.rng.below(256);
            let other =
                self.rng.pick(&[2, 4, 5, 5, 6, 9, 9, 10, 11, 12, 13, 14, 16, 17, 24, 25, 254, 255, any]);
            let first = self.rng.once_in(4); // its first records alone
            let (used, records) =
                if first { (self.starts[place], place) } else { (self.stored.0, lines.len()) };
            self.say(format!("T {place} 65535\nK {used} {records} {other}\nF\nV {place}"));
        }
        self.say(format!("K {} {} {axes}\nF", self.stored.0, lines.len()));
        self.show_entries();
    }

    /// A line for such a store: mostly n of these axes or some of them, and rarely a movement.
    fn kept(&mut self, axes: u8, of: u8, surely_n: bool) -> String {
        match self.rng.below(9) {
            0 if !surely_n => "z1".to_string(),
            1 if !surely_n => format!("1{}", self.rng.between(33, 126)),
            2 if !surely_n => format!("0{}", axes::single(axes, 0, 1)),
            _ => format!("n{}", axes::mask(self.rng, of)),
        }
    }

    /// Entries about the count, and one that is any.
    pub fn show_entries(&mut self) {
        let count = self.starts.len() as i64;
        for back in [2, 1, 0, -1] {
            if self.rng.once_in(2) {
                self.say(format!("V {}", (count - back).clamp(0, 999)));
            }
        }
        let places = self.rng.pick(&[3, 10, 1_000]);
        let any = self.rng.below(places);
        self.say(format!("V {any}"));
    }

    /// One to three buffers of the next call are of a length that is right or another.
    pub fn lend_any(&mut self) {
        for _ in 0..self.rng.pick(&[1, 1, 2, 3]) {
            let text = self.rng.pick(&[
                "M 0", "M 16383", "M 16384", "M 16385", "R 0", "R 31", "R 32", "R 33", "R 1", "U 0", "U 999",
                "U 1000", "U 1001", "U 2000", "U 999", "U 1001",
            ]);
            self.say(text.to_string());
        }
    }
}
