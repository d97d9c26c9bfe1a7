//! Axes in generated lines: how they are set, what n takes under them, and movements of one of them.
#![allow(dead_code)] // the programs use different parts of it

use crate::rng::Rng;

/// All that can be set.
pub const ALL: [u8; 5] = [1, 3, 7, 8, 15];

/// Three and four axes most often.
pub fn any(rng: &mut Rng) -> u8 {
    rng.pick(&[1, 3, 7, 7, 7, 8, 15, 15])
}

/// The lines that set them, on a board without axes or, but for A alone, on any.
pub fn lines(axes: u8) -> Vec<String> {
    let values: &[u8] = if axes == 15 { &[7, 8] } else { &[axes] };
    values.iter().map(|value| format!("@0{value}")).collect()
}

/// The axes that an axes line leaves.
pub fn after(axes: u8, value: i64) -> u8 {
    match (value, axes) {
        (1 | 3 | 7, _) => value as u8,
        (8, 0 | 7) => axes + 8,
        _ => axes,
    }
}

/// Whether an arc may have its plane under these axes.
pub fn turns(axes: u8) -> bool {
    !matches!(axes, 1 | 8)
}

/// Masks of all axes together: A has its own.
pub fn masks(axes: u8) -> Vec<u8> {
    match axes {
        15 => vec![7, 8],
        _ => vec![axes],
    }
}

/// What n takes.
pub fn mask(rng: &mut Rng, axes: u8) -> i64 {
    match axes {
        8 => 8,
        15 => rng.between(1, 8),
        _ => rng.between(1, axes as i64),
    }
}

/// What n takes, or in half of the cases any number near.
pub fn near_mask(rng: &mut Rng, axes: u8) -> i64 {
    if rng.once_in(2) {
        mask(rng, axes)
    } else {
        rng.pick(&[-1, 0, 1, 3, 4, 7, 8, 8, 9, 10, 11, 12, 13, 14, 15, 16])
    }
}

/// The pairs of a movement's numbers.
pub fn pairs(axes: u8) -> usize {
    match axes {
        1 | 8 => 1,
        3 => 2,
        _ => 4,
    }
}

/// The numbers of a movement by one of its pairs, at the speed 600.
pub fn single(axes: u8, pair: usize, distance: i64) -> String {
    let of = |p: usize| format!("{},600", if p == pair { distance } else { 0 });
    (0..pairs(axes)).map(of).collect::<Vec<_>>().join(",")
}
