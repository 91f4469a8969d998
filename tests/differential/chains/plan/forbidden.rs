//! Chains under a file mask that forbids every step, planned as if it forbade none.

use super::{Plan, ROOM_LEFT};
use crate::chains::ground::Ground;
use crate::chains::restart::to_the_first_ccw;
use crate::chains::GeneratedRun;
use crate::random::Random;
use crate::simulator::channel::FLAG_CHAIN_COMMAND;
use crate::simulator::drive::{MASK_SEEK_INHIBITED, SET_FILE_MASK};
use crate::simulator::faults::FaultList;
use crate::simulator::held::MOST_COMMANDS;
use crate::simulator::pack::TrackAddress;

pub struct ForbiddenSteps {
    pub run: GeneratedRun,
    /// By the last seek, which is before the mask.
    pub sought: TrackAddress,
    /// Place of the mask in the arguments.
    pub mask: usize,
}

impl ForbiddenSteps {
    /// The same under a mask that allows every step; nothing else of the chain asks for those bits.
    pub fn allowed(&self) -> GeneratedRun {
        let mut run = self.run.clone();
        run.arguments[self.mask] &= !MASK_SEEK_INHIBITED;
        run
    }
}

/// A seek, now and then steps before the mask, the mask, commands of all kinds but seeks. One in four
/// begins behind a restart, which does nothing else.
pub fn forbidden_steps(random: &mut Random) -> ForbiddenSteps {
    let ground = Ground::of_heads(random);
    let (pack, no_faults) = (ground.pack(), FaultList::default());
    let mut plan = Plan::new(random, &ground, &pack, &no_faults);
    plan.multitrack_of_three = 2;
    plan.seek();
    plan.stays = true;
    let sought = plan.drive.track();
    for _ in 0..plan.random.pick(&[0, 0, 0, 1, 2, 4]) {
        plan.search_or_read();
    }
    let mask = plan.forbid_steps();
    for _ in 0..plan.random.within(2..=24) {
        if plan.here() <= ROOM_LEFT {
            plan.step_on_the_cylinder();
        }
    }
    plan.stop();
    let (chain, arguments) = (plan.chain, plan.arguments);
    let run = GeneratedRun::of(random, ground, chain, arguments);
    ForbiddenSteps {
        run: GeneratedRun {
            limit: MOST_COMMANDS,
            restart: random.once_in(4).then(to_the_first_ccw),
            ..run
        },
        sought,
        mask,
    }
}

impl Plan<'_, '_> {
    /// The place of the mask in the arguments; to the plan's drive it forbids nothing.
    fn forbid_steps(&mut self) -> usize {
        let place = self.arguments.len();
        let mask = self.random.pick(&[0x00, 0x01, 0x40, 0x80, 0xC1]);
        self.put_with_argument(SET_FILE_MASK, &[MASK_SEEK_INHIBITED | mask]);
        let _ = self.drive.execute(SET_FILE_MASK, &[mask], false);
        self.mask_set = true;
        place
    }

    fn search_or_read(&mut self) {
        match self.random.below(8) {
            0 => self.search_once(),
            1 | 2 => self.search_loop(),
            _ => self.read(FLAG_CHAIN_COMMAND),
        }
    }

    fn step_on_the_cylinder(&mut self) {
        match self.random.below(32) {
            0 => self.no_operation(),
            1 => self.set_sector(),
            // Mostly no operation either.
            2 => self.set_file_mask(),
            _ => self.search_or_read(),
        }
        if self.random.once_in(12) {
            self.put_tic();
        }
    }
}

#[cfg(test)]
mod tests {
    use super::*;
    use crate::simulator::run::End;

    #[test]
    fn one_bit_pair_of_one_argument_differs() {
        let mut random = Random::new(1);
        for _ in 0..200 {
            let chain = forbidden_steps(&mut random);
            let mut allowed = chain.allowed();
            assert_eq!(chain.run.arguments[chain.mask] & 0x3E, 0x18);
            allowed.arguments[chain.mask] |= 0x18;
            assert!(allowed == chain.run);
            assert!(chain.run.faults.is_empty());
        }
    }

    /// The commands are few enough for any number of restarts too.
    #[test]
    fn no_chain_comes_near_its_limit() {
        let mut random = Random::new(2);
        for _ in 0..2_000 {
            let mut allowed = forbidden_steps(&mut random).allowed();
            allowed.limit = MOST_COMMANDS / 2;
            allowed.restart = None;
            let outcome = allowed.simulated().expect("a plan is not refused");
            assert_ne!(outcome.end, End::Limit);
        }
    }
}
