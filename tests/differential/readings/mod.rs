//! Whole readings: small ones of which every one of a kind is tried, generated ones, and large ones.

mod exhaustive;
mod large;

use crate::compare::{Comparison, Disagreement};
use crate::lendings;
use crate::random::Random;

/// Readings generated; every kind of change is made in its turn, at least 250 times.
const TURNS: usize = 120_000;

/// Of these, every kind of damage at least 30 times.
const DAMAGED: usize = 3_000;

pub fn compare_all(comparison: &mut Comparison, random: &mut Random) -> Result<(), Disagreement> {
    exhaustive::compare_all(comparison)?;
    for turn in 0..TURNS {
        let (kind, reading) = lendings::generated(random, turn);
        comparison.reading(kind, &reading)?;
    }
    for turn in 0..DAMAGED {
        let (kind, reading) = lendings::damaged(random, turn);
        comparison.reading(kind, &reading)?;
    }
    large::compare_all(comparison)
}
