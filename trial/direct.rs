//! What each line does outside storing.

use crate::arc::Turn;
use crate::board::{Board, Job};
use crate::line::{self, Line};
use crate::motion::{self, Motion, Setting, A};
use crate::number::write_hexadecimal;
use crate::receive::{refuse_if, say, Outcome, Ports};
use crate::record;

impl Board {
    pub(crate) fn direct_line(&mut self, text: &[u8], ports: Ports, reply: &mut [u8]) -> Outcome {
        let Line { letter, numbers } = line::direct(text).ok_or(b'5')?;
        refuse_if(self.standing && !matches!(letter, b'P' | b'b' | b'S'), b'W')?;
        let needs_axes =
            matches!(letter, b'A' | b'M' | b'n' | b'N' | b'z' | b'i' | b'S' | b'e' | b'f' | b'y');
        refuse_if(needs_axes && self.axes == 0, b'4')?;
        refuse_if(numbers.count != self.count_for_line(letter), b'7')?;
        let values = &numbers.values[..numbers.count];
        match letter {
            0 => self.set_axes(values[0])?,
            b'A' => return self.start_movement(b'0', values, reply),
            b'M' => return self.start_movement(b'm', values, reply),
            b'y' => return self.start_arc(values, reply),
            b'e' => self.turn.plane = self.right_number(b'e', values)? as u8,
            b'f' => self.turn.counter = self.right_number(b'f', values)? == -1,
            b'n' => self.set_origin(self.mask(values[0])?),
            b'N' => self.set_zero(self.mask(values[0])?),
            b'z' => self.three = self.right_number(b'z', values)? == 1,
            b'P' => return Ok(self.report_position(reply)),
            b'b' => return report_port(values[0], ports, reply),
            b'B' => {
                refuse_if(values[0] != 0 || !(0..=255).contains(&values[1]), b'1')?;
                self.output = values[1] as u8;
            }
            b'i' => {
                self.empty_store();
                self.store_axes = self.axes;
                self.job = Job::Storing;
                self.clear_place();
            }
            b'k' => self.empty_store(),
            _ => return self.start(),
        }
        Ok(say(reply, b'0'))
    }

    fn count_for_line(&self, letter: u8) -> usize {
        match letter {
            b'A' | b'M' => record::movement_count(self.axes).unwrap_or(0),
            b'P' | b'i' | b'k' | b'S' => 0,
            b'B' => 2,
            b'y' => 7,
            _ => 1,
        }
    }

    fn set_axes(&mut self, value: i32) -> Result<(), u8> {
        if value == 8 {
            return self.add_a();
        }
        refuse_if(!matches!(value, 1 | 3 | 7), b'3')?;
        self.axes = value as u8;
        let kept = if cfg!(slip_a_kept) { self.position[A] } else { 0 };
        self.position = [0, 0, 0, kept];
        self.origin = [0; 4];
        self.three = false;
        if !cfg!(slip_arc_plane_kept) {
            self.turn = Turn::FRESH;
        }
        Ok(())
    }

    /// A beside all three axes or alone. Nothing of the others changes, nor how they move.
    fn add_a(&mut self) -> Result<(), u8> {
        self.axes = match self.axes {
            0 | 8 => 8,
            15 if cfg!(slip_a_drops_others) => 8,
            7 | 15 => 15,
            3 if cfg!(slip_a_after_3) => 15,
            _ => return Err(b'3'),
        };
        self.position[A] = 0;
        if !cfg!(slip_a_origin_kept) {
            self.origin[A] = 0;
        }
        if cfg!(slip_a_zeroes_x) {
            self.position[0] = 0;
        }
        self.three &= !cfg!(slip_a_resets_3d);
        if cfg!(slip_a_resets_turn) {
            self.turn = Turn::FRESH;
        }
        Ok(())
    }

    /// The one number of a line, if a record may have it too.
    fn right_number(&self, code: u8, values: &[i32]) -> Result<i32, u8> {
        record::refusal(code, self.axes, values).map_or(Ok(values[0]), Err)
    }

    fn mask(&self, value: i32) -> Result<u8, u8> {
        refuse_if(!record::mask_right(value, self.axes), b'3')?;
        Ok(value as u8)
    }

    /// Origin := position on the axes of the mask.
    pub(crate) fn set_origin(&mut self, mask: u8) {
        for a in 0..4 {
            if mask >> a & 1 == 1 {
                self.origin[a] = self.position[a];
            }
        }
    }

    fn set_zero(&mut self, mask: u8) {
        for a in 0..4 {
            if mask >> a & 1 == 1 {
                self.position[a] = 0;
                self.origin[a] = 0;
            }
        }
    }

    fn start_movement(&mut self, code: u8, values: &[i32], reply: &mut [u8]) -> Outcome {
        if let Some(refused) = record::refusal(code, self.axes, values) {
            return Err(refused);
        }
        let setting = self.setting(self.axes);
        let movement = motion::plan(&setting, code == b'm', values).ok_or(b'9')?;
        if !movement.pulse_left() {
            return Ok(say(reply, b'0'));
        }
        self.job = Job::Direct(Motion::Straight(movement));
        Ok(0)
    }

    /// An arc of no length meets every refusal that others meet.
    fn start_arc(&mut self, values: &[i32], reply: &mut [u8]) -> Outcome {
        refuse_if(!self.turn.fits(self.axes), b'3')?;
        refuse_if(!record::arc_right(values) || !self.turn.expects(values), b'1')?;
        refuse_if(!record::speed_right(values[1]), b'D')?;
        let arc = self.turn.arc(&self.position, values).ok_or(b'9')?;
        if arc.length == 0 {
            return Ok(say(reply, b'0'));
        }
        self.job = Job::Direct(Motion::Arc(arc));
        Ok(0)
    }

    /// What a plan takes from the board, for a line or for the store's axes.
    pub(crate) fn setting(&self, axes: u8) -> Setting {
        Setting { axes, three: self.three, position: self.position, origin: self.origin }
    }

    fn report_position(&self, reply: &mut [u8]) -> usize {
        let axes = if self.axes == 15 || self.axes == 8 && cfg!(slip_a_p_24) { 4 } else { 3 };
        reply[0] = b'0';
        for a in 0..axes {
            write_hexadecimal(&mut reply[1 + 6 * a..7 + 6 * a], self.position[a] as u32);
        }
        1 + 6 * axes
    }

    /// Goes on with what stands stopped, else starts the stored program.
    fn start(&mut self) -> Outcome {
        if self.standing {
            self.standing = false;
            self.lose_pulse();
            return Ok(0);
        }
        refuse_if(self.records == 0, b'8')?;
        let taken = cfg!(slip_a_store_7) && (self.axes, self.store_axes) == (15, 7);
        refuse_if(self.axes != self.store_axes && !taken, b'G')?;
        self.clear_place();
        self.job = Job::Ready;
        Ok(0)
    }

    /// A planted slip: a pulse is made and not answered when a movement goes on.
    fn lose_pulse(&mut self) {
        if let (true, Job::Direct(m) | Job::Moving(m)) = (cfg!(slip_pulse_lost), &mut self.job) {
            m.pulse(&mut self.position);
        }
    }
}

fn report_port(port: i32, ports: Ports, reply: &mut [u8]) -> Outcome {
    refuse_if(!(0..=3).contains(&port), b'1')?;
    reply[0] = b'0';
    write_hexadecimal(&mut reply[1..3], ports[port as usize] as u32);
    Ok(3)
}
