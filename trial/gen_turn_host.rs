//! The A axis in a script: where a host puts it, set or not, and axes that change before a program is started.

use crate::axes;
use crate::gen_calls::Script;

const LOW: i64 = -8_388_608;
const HIGH: i64 = 8_388_607;

impl Script<'_> {
    /// A anywhere in 24 bits, mostly near an end, also where it is not set.
    pub fn put_a(&mut self) {
        self.altered = true;
        let (near, far) = (self.rng.between(0, 9), self.rng.between(LOW, HIGH));
        let at = self.rng.pick(&[HIGH - near, LOW + near, HIGH, LOW, near, far]);
        self.say(format!("H a {at}"));
        if self.rng.once_in(2) {
            let origin = self.rng.pick(&[HIGH - near, LOW + near, at, 3, -3, far]);
            self.say(format!("H oa {origin}"));
        }
    }

    /// Axes lines in states that the host has made, each with the state that it leaves.
    pub fn set_axes_often(&mut self) {
        self.altered = true;
        for _ in 0..self.rng.between(1, 4) {
            for name in ["x", "y", "z", "a", "ox", "oy", "oz", "oa"] {
                let value = self.rng.between(-9, 9);
                self.say(format!("H {name} {value}"));
            }
            let (axes, z) = (self.rng.pick(&[0, 1, 3, 7, 7, 8, 15]), self.rng.below(2));
            let (plane, turn) = (self.rng.below(3), self.rng.between(-1, 0));
            self.line(&format!("@0z{z}"));
            self.say(format!("H axes {axes}\nH plane {plane}\nH turn {turn}"));
            let other = self.rng.between(9, 16);
            let value = self.rng.pick(&[1, 3, 7, 8, 8, 8, 8, other]);
            self.line(&format!("@0{value}"));
            self.say("S".to_string());
        }
    }

    /// A movement of A, or of another axis, that just stays within 24 bits or just does not, from where the host
    /// has put it.
    pub fn move_at_an_end(&mut self, axes: u8) {
        self.altered = true;
        let pair = if self.rng.once_in(4) { 0 } else { axes::pairs(axes) - 1 };
        let name =
            if axes & 8 != 0 && pair + 1 == axes::pairs(axes) { "a" } else { ["x", "y", "z", "z"][pair] };
        let (near, by) = (self.rng.between(0, 4), self.rng.between(-6, 6));
        let at = self.rng.pick(&[HIGH - near, LOW + near]);
        let absolute = self.rng.once_in(2);
        let origin = self.rng.pick(&[0, at, at, HIGH, LOW]);
        self.say(format!("H {name} {at}"));
        self.say(format!("H o{name} {origin}"));
        let number = if absolute { at + by - origin } else { by };
        let letter = if absolute { 'M' } else { 'A' };
        self.line(&format!("@0{letter}{}", axes::single(axes, pair, number)));
    }

    /// The host alters A's position, origin or points in a movement under way, and mostly mends it after a call.
    pub fn alter_a(&mut self) {
        self.altered = true;
        let names = ["a", "oa", "starta", "firsta", "firsta", "seconda", "seconda", "thirda", "thirda"];
        let name = self.rng.pick(&names);
        let value = self.rng.pick(&[0, 1, -1, 2, -3, 5, HIGH, LOW, HIGH + 1, 4_286_578_687]);
        self.say(format!("H {name} {value}"));
        let calls = self.rng.pick(&[1, 1, 2, 5]);
        self.clocks(calls);
        if !self.rng.once_in(3) {
            let mended = self.rng.pick(&[0, 0, 1, -1]);
            self.say(format!("H {name} {mended}"));
        }
    }

    /// Before a program is started: other axes by a line or by the host, or the same again.
    pub fn change_axes(&mut self) {
        if self.rng.once_in(3) {
            self.altered = true;
            let axes = self.rng.pick(&[0, 1, 3, 7, 8, 15, 15]);
            return self.say(format!("H axes {axes}"));
        }
        let line = self.rng.pick(&["@07", "@08", "@08", "@08", "@01", "@03", "@015"]);
        self.line(line);
    }
}
