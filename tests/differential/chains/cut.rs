//! Runs that a faulted data area cuts, storage as the cut left it.

use super::ground::Ground;
use super::plan::planned_on;
use super::restart::behind_a_cut;
use super::GeneratedRun;
use crate::random::Random;
use crate::simulator::run::Outcome;

pub fn cut(random: &mut Random) -> (GeneratedRun, Outcome) {
    until_cut(random, |random| {
        let ground = Ground::faulted(random);
        planned_on(random, ground)
    })
}

/// Over records up to the longest.
pub fn cut_long(random: &mut Random) -> (GeneratedRun, Outcome) {
    until_cut(random, |random| {
        let ground = Ground::long(random);
        planned_on(random, ground)
    })
}

/// Behind the restart of an earlier cut.
pub fn cut_again(random: &mut Random) -> (GeneratedRun, Outcome) {
    until_cut(random, behind_a_cut)
}

fn until_cut(
    random: &mut Random,
    generated: impl Fn(&mut Random) -> GeneratedRun,
) -> (GeneratedRun, Outcome) {
    loop {
        let mut run = generated(random);
        let outcome = run.simulated().expect("a plan is not refused");
        if outcome.cut.is_some() {
            return (run, outcome);
        }
    }
}
