//! Runs: small ones of which every one of a kind is tried, generated ones, and large ones.

mod exhaustive;
mod large;

use crate::chains::restart::to_the_first_ccw;
use crate::chains::{self, GeneratedRun};
use crate::compare::{Comparison, Disagreement};
use crate::library::ANSWER;
use crate::marks::ANSWER_AREAS;
use crate::random::Random;

/// Runs generated; every kind of change is made in its turn, at least 250 times.
const TURNS: usize = 120_000;

pub fn compare_all(comparison: &mut Comparison, random: &mut Random) -> Result<(), Disagreement> {
    exhaustive::compare_all(comparison)?;
    for turn in 0..TURNS {
        let (kind, run) = chains::generated(random, turn);
        let answer_length = if random.once_in(50) {
            random.pick(&ANSWER_AREAS)
        } else {
            ANSWER
        };
        comparison.run_answering_in(kind, run, answer_length)?;
    }
    large::compare_all(comparison)
}

/// From the chain's first CCW, behind a restart where one is wanted.
fn started(mut run: GeneratedRun, restarted: bool) -> GeneratedRun {
    run.restart = restarted.then(to_the_first_ccw);
    run
}
