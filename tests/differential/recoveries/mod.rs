//! Recoveries: small ones of which every one of a kind is tried, generated ones, and large ones.

mod exhaustive;
mod large;
pub mod overflow;

use crate::compare::{Comparison, Disagreement};
use crate::random::Random;
use crate::reports;

/// Recoveries generated; every kind of change is made in its turn, at least 150 times.
const TURNS: usize = 160_000;

pub fn compare_all(comparison: &mut Comparison, random: &mut Random) -> Result<(), Disagreement> {
    exhaustive::compare_all(comparison)?;
    for turn in 0..TURNS {
        let (kind, recovery) = reports::generated(random, turn);
        comparison.recovery(kind, &recovery)?;
    }
    large::compare_all(comparison)
}
