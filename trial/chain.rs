//! A chain of relative distances: each partial sum is rounded in place of each distance, so that the steps
//! of a long rack come to those of its length.

use crate::number::in_24_bits;
use crate::sheet::{axis_right, steps, Axis, RESULT_WRONG, VALUE_WRONG};
use std::iter;

pub const LENGTH_WRONG: u8 = 105;
/// The most distances of a chain.
pub const LONGEST: usize = 1_000;
/// 1,000,000 mm in thousandths.
const FAR: i128 = 1_000_000_000;

/// Thousandths of a mm to steps, distance by distance. A refusal leaves `out` as it was.
pub fn chain(axis: Axis, distances: &[i64], out: &mut [i32]) -> Result<(), u8> {
    if distances.len() > LONGEST || out.len() != distances.len() {
        return Err(LENGTH_WRONG);
    }
    axis_right(axis)?;
    let sums = sums(distances);
    if cfg!(slip_chain_order) {
        relative(axis, &sums[..near(&sums)])?;
    }
    let asked = if cfg!(slip_chain_last) { &sums[sums.len().saturating_sub(1)..] } else { &sums };
    if near(asked) < asked.len() {
        return Err(VALUE_WRONG);
    }
    out.copy_from_slice(&relative(axis, &sums)?);
    Ok(())
}

/// In 128 bits, which a thousand numbers of 64 bits never leave.
fn sums(distances: &[i64]) -> Vec<i128> {
    let add = |sum: &mut i128, &distance: &i64| {
        *sum += i128::from(distance);
        Some(*sum)
    };
    distances.iter().scan(0, add).collect()
}

/// How many sums stand before the first that is too far.
fn near(sums: &[i128]) -> usize {
    sums.iter().take_while(|sum| (-FAR..=FAR).contains(sum)).count()
}

/// The steps to each sum from the one before it.
fn relative(axis: Axis, sums: &[i128]) -> Result<Vec<i32>, u8> {
    let before = iter::once(0).chain(sums.iter().copied());
    before.zip(sums).map(|(from, &to)| between(axis, from, to)).collect()
}

/// Both results are in 24 bits, so 32 hold their difference. No thousandths are no steps.
fn between(axis: Axis, from: i128, to: i128) -> Result<i32, u8> {
    if cfg!(slip_chain_each) {
        return steps(axis, mm(to - from));
    }
    let difference = steps(axis, mm(to))? - steps(axis, mm(from))?;
    if in_24_bits(difference) {
        Ok(difference)
    } else {
        Err(RESULT_WRONG)
    }
}

fn mm(thousandths: i128) -> f64 {
    if cfg!(slip_chain_times) {
        thousandths as f64 * 0.001
    } else {
        thousandths as f64 / 1_000.0
    }
}
