//! The sheet: distances in mm and speeds become whole steps.

use crate::number::{HIGH, LOW};

/// Lead in mm, steps per turn, and the gear ratio.
#[derive(Clone, Copy, PartialEq, Debug)]
pub struct Axis {
    pub lead: f64,
    pub steps: f64,
    pub gear: f64,
}

#[derive(Clone, Copy, PartialEq, Debug)]
pub enum Speed {
    MmPerSecond(f64),
    MmPerMinute(f64),
    StepsPerSecond(i64),
}

pub const AXIS_WRONG: u8 = 201;
pub const VALUE_WRONG: u8 = 202;
pub const RESULT_WRONG: u8 = 203;

pub(crate) fn axis_right(axis: Axis) -> Result<(), u8> {
    let right = |v: f64| (0.001..=1_000_000.0).contains(&v);
    if right(axis.lead) && right(axis.steps) && right(axis.gear) {
        Ok(())
    } else {
        Err(AXIS_WRONG)
    }
}

/// The nearest whole number, halves away from zero, if it is in the range.
fn nearest(value: f64, low: i32, high: i32) -> Result<i32, u8> {
    let whole = if cfg!(slip_half_even) { value.round_ties_even() } else { value.round() };
    if (low as f64..=high as f64).contains(&whole) {
        Ok(whole as i32)
    } else {
        Err(RESULT_WRONG)
    }
}

/// mm to steps.
pub fn distance(axis: Axis, mm: f64) -> Result<i32, u8> {
    axis_right(axis)?;
    if !(-1_000_000.0..=1_000_000.0).contains(&mm) {
        return Err(VALUE_WRONG);
    }
    steps(axis, mm)
}

/// The same once axis and distance are known to be right.
pub(crate) fn steps(axis: Axis, mm: f64) -> Result<i32, u8> {
    nearest(mm / axis.lead * axis.steps * axis.gear, LOW, HIGH)
}

/// A speed of the sheet to steps per second.
pub fn speed(axis: Axis, speed: Speed) -> Result<i32, u8> {
    axis_right(axis)?;
    let per_second = |v: f64| {
        if !(0.0..=1_000_000.0).contains(&v) {
            return Err(VALUE_WRONG);
        }
        Ok(v * axis.steps * axis.gear / axis.lead)
    };
    match speed {
        Speed::MmPerSecond(v) => nearest(per_second(v)?, 30, 10_000),
        Speed::MmPerMinute(v) => nearest(per_second(v)? / 60.0, 30, 10_000),
        Speed::StepsPerSecond(v) if !(0..=1_000_000).contains(&v) => Err(VALUE_WRONG),
        Speed::StepsPerSecond(v) if !(30..=10_000).contains(&v) => Err(RESULT_WRONG),
        Speed::StepsPerSecond(v) => Ok(v as i32),
    }
}
