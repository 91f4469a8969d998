//! Runs over images of few records: chains with a plan, chains changed in one place, chains with no
//! plan, and restarts.

mod change;
mod cut;
mod ground;
mod plan;
pub mod restart;
mod scatter;
pub mod steps;

use crate::random::Random;
pub use crate::simulator::held::{HeldRestart as GeneratedRestart, HeldRun as GeneratedRun};
pub use change::{changed, changed_ccw, refused};
pub use cut::{cut, cut_again, cut_long};
use ground::Ground;
pub use plan::forbidden::{forbidden_steps, ForbiddenSteps};
pub use plan::{planned, planned_long, planned_loop, planned_reads};
pub use scatter::{multitrack_commands, random_bytes, random_ccws, COMMANDS};

impl GeneratedRun {
    fn of(random: &mut Random, ground: Ground, chain: Vec<u8>, arguments: Vec<u8>) -> GeneratedRun {
        GeneratedRun {
            model: ground.model.number(),
            chain,
            arguments,
            storage: random.bytes(ground.storage),
            image: ground.image,
            faults: ground.faults,
            limit: limit(random),
            restart: None,
        }
    }
}

fn limit(random: &mut Random) -> usize {
    match random.below(8) {
        0 => random.within(1..=12),
        1 => random.within(12..=60),
        _ => 4_096,
    }
}

/// A run of one kind; the kinds take turns, and so do the changes of a kind.
pub fn generated(random: &mut Random, turn: usize) -> (&'static str, GeneratedRun) {
    let of_kind = turn / 16;
    match turn % 16 {
        0 if of_kind % 4 == 0 => ("random bytes", scatter::random_bytes(random)),
        0 | 1 => ("random CCWs", scatter::random_ccws(random)),
        2 => ("random steps", steps::random_steps(random)),
        3 if of_kind % 4 == 0 => ("plan over long records", plan::planned_long(random)),
        3..=7 => ("plan", plan::planned(random)),
        8 => ("plan with a loop", plan::planned_loop(random)),
        9..=11 => {
            let run = plan::planned(random);
            change::changed(random, 3 * of_kind + turn % 16 - 9, run)
        }
        12 => ("restart behind a cut", restart::behind_a_cut(random)),
        13 => ("restart anywhere", restart::anywhere(random)),
        14 => {
            let run = if random.once_in(2) {
                restart::behind_a_cut(random)
            } else {
                restart::anywhere(random)
            };
            change::changed_restart(random, of_kind, run)
        }
        _ => {
            let run = if random.once_in(4) {
                restart::anywhere(random)
            } else {
                plan::planned(random)
            };
            change::refused(random, of_kind, run)
        }
    }
}

#[cfg(test)]
mod tests {
    use super::*;
    use crate::simulator::channel::CHANNEL_INCORRECT_LENGTH;
    use crate::simulator::run::End;
    use crate::simulator::Refusal;
    use std::collections::BTreeSet;

    const TURNS: usize = 8_000;

    /// The runs of a seed.
    fn runs(seed: u64) -> impl Iterator<Item = (&'static str, GeneratedRun)> {
        let mut random = Random::new(seed);
        (0..TURNS).map(move |turn| generated(&mut random, turn))
    }

    #[test]
    fn same_seed_same_runs() {
        assert!(runs(1).eq(runs(1)));
        assert!(!runs(1).eq(runs(2)));
    }

    #[test]
    fn every_end_is_seen() {
        let mut seen = BTreeSet::new();
        for (_, mut run) in runs(1) {
            if let Ok(outcome) = run.simulated() {
                let incorrect_length = outcome.csw[5] == CHANNEL_INCORRECT_LENGTH;
                seen.insert((outcome.end, incorrect_length, run.restart.is_some()));
            }
        }
        let alone = (End::all().into_iter())
            .filter(|&end| end != End::IncorrectLength)
            .map(|end| (end, false));
        let with_incorrect_length = [End::IncorrectLength, End::UnitException, End::Cut];
        for (end, incorrect_length) in alone.chain(with_incorrect_length.map(|end| (end, true))) {
            for restarted in [false, true] {
                let end = (end, incorrect_length, restarted);
                assert!(seen.contains(&end), "{end:?}");
            }
        }
    }

    #[test]
    fn every_refusal_is_seen() {
        let refusals: BTreeSet<u8> = runs(1)
            .filter_map(|(_, mut run)| run.simulated().err())
            .map(Refusal::number)
            .collect();
        assert_eq!(refusals, BTreeSet::from([1, 2, 3]));
    }

    #[test]
    fn plans_and_restarts_are_not_refused() {
        for (kind, mut run) in runs(3) {
            if kind.starts_with("plan") || kind.starts_with("restart") {
                assert!(run.simulated().is_ok(), "{kind}");
            }
        }
    }

    #[test]
    fn many_plans_run_to_their_end() {
        let ends = runs(4)
            .filter(|(kind, _)| *kind == "plan")
            .map(|(_, mut run)| run.simulated().unwrap().end);
        let (ended, other): (Vec<End>, Vec<End>) = ends.partition(|end| *end == End::Chain);
        assert!(ended.len() * 2 > other.len());
    }
}
