//! Clock calls in a script, by C or by Q, and where an E may pass over the rest.

use crate::gen_calls::Script;

impl Script<'_> {
    /// So many clock calls, with an E behind them that is rare: it passes over the rest where something runs.
    pub fn clocks(&mut self, calls: u64) {
        let letter = self.rng.pick(&['C', 'Q']);
        self.say(format!("{letter} {calls}"));
        self.end_once_in(400);
    }

    fn end_once_in(&mut self, times: u64) {
        if self.late && self.rng.once_in(times) {
            self.say("E".to_string());
        }
    }

    /// Runs until quiet, with stops and bytes for waits between them. A run without end, or one of a long
    /// program that still stands in the store, is mostly cut sooner than at 100,000 calls.
    pub fn run_quietly(&mut self) {
        for _ in 0..self.rng.between(1, 4) {
            let enough = if self.rng.once_in(12) { 100_000 } else { self.rng.pick(&[300, 1_000]) };
            if self.rng.once_in(3) {
                let calls = self.rng.below(9);
                self.clocks(calls);
                self.byte(253);
                self.say(format!("Q {enough}"));
                self.line("@0S");
            }
            self.say(format!("Q {enough}"));
            self.end_once_in(2);
            let answer = self.rng.between(33, 41) as u8;
            self.byte(answer);
        }
    }

    /// A movement that a Q does not always end, an E soon after it, and one more scene.
    pub fn last_scene(&mut self) {
        if self.altered {
            self.repair();
        }
        self.byte(255);
        self.line("");
        self.line("@01");
        self.line("@0A4,600");
        let calls = self.rng.below(7);
        self.say(format!("Q {calls}"));
        match self.rng.below(6) {
            0 => self.byte(255),
            1 => self.say("C 1".to_string()),
            2 => self.say("Q".to_string()),
            3 => self.say("Q 100000".to_string()),
            _ => {}
        }
        self.say("E".to_string());
        self.hurt();
        self.scene();
    }
}
