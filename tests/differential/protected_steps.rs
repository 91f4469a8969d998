//! Chains under a file mask that forbids steps. Each protected step is reported, answered by 10A and run on;
//! so the chain comes to the end that it has under a mask that allows steps.

use crate::chains::{multitrack_commands, ForbiddenSteps, GeneratedRestart, GeneratedRun};
use crate::models::model_of;
use crate::random::Random;
use crate::reports::GeneratedRecovery;
use crate::simulator::channel::{Ccw, ProgramCheck, CCW_LENGTH, UNIT_CHECK};
use crate::simulator::drive::{
    is_multitrack, Done, Drive, NotFoundRule, RejectRule, UnitCheck, SEARCH_ID_EQUAL_MULTITRACK,
};
use crate::simulator::encode;
use crate::simulator::extent::whole_pack;
use crate::simulator::pack::{TrackAddress, LAST_HEAD};
use crate::simulator::recovery::{Answer, RestartAction};
use crate::simulator::report::{Report, HEAD_REACHED};
use crate::simulator::run::{End, Outcome, Watch};
use std::collections::{BTreeMap, BTreeSet};
use std::fmt;

/// What runs chains and recovers from reports; none where a question refuses. The areas are left as the
/// call leaves them.
pub trait Machine {
    type Wrong;
    fn run_held(&mut self, run: &mut GeneratedRun) -> Result<Option<Outcome>, Self::Wrong>;
    fn recover_held(
        &mut self,
        recovery: &mut GeneratedRecovery,
    ) -> Result<Option<Answer>, Self::Wrong>;
}

pub enum Failed<Wrong> {
    Machine(Wrong),
    /// What is not as it must be.
    Otherwise(&'static str),
}

#[derive(Clone, Copy, Debug, PartialEq, Eq, PartialOrd, Ord)]
pub enum RunOnMark {
    /// The command of a protected step.
    Protected(u8),
    /// Behind a protected step, the end under the mask that allows it.
    Ended(End),
    Met(RunOnEvent),
}

rules! {
    RunOnEvent {
        // At the first protected step: by steps before the mask.
        HeadAboveTheSeek,
        // Neither the one sought nor the one reached.
        AnotherHeadInTag14,
        HighBitsOfSense6,
        // One command, on a track with R0 alone.
        ProtectedTwice,
        // The chain itself began behind a restart.
        RestartedFirst,
    }
}

const TO_NO_TRACK: UnitCheck = UnitCheck::NoRecordFound(NotFoundRule::NextHeadNotInImage);
const NEXT_HEAD_NOT_IN_IMAGE: End = End::UnitCheck(TO_NO_TRACK);

/// Ends that must be seen behind a protected step.
const ENDS: [End; 9] = [
    End::Chain,
    End::IncorrectLength,
    End::UnitException,
    End::ProgramCheck(ProgramCheck::DataRange),
    End::UnitCheck(UnitCheck::EndOfCylinder),
    End::UnitCheck(UnitCheck::NoRecordFound(NotFoundRule::IndexPassedTwice)),
    End::UnitCheck(UnitCheck::NoRecordFound(NotFoundRule::R0Alone)),
    NEXT_HEAD_NOT_IN_IMAGE,
    End::UnitCheck(UnitCheck::Reject(RejectRule::SecondMask)),
];

impl RunOnMark {
    pub fn all() -> Vec<RunOnMark> {
        (multitrack_commands().map(RunOnMark::Protected))
            .chain(ENDS.map(RunOnMark::Ended))
            .chain(RunOnEvent::ALL.iter().copied().map(RunOnMark::Met))
            .collect()
    }
}

impl fmt::Display for RunOnMark {
    fn fmt(&self, out: &mut fmt::Formatter) -> fmt::Result {
        match self {
            RunOnMark::Protected(command) => write!(out, "step of {command:02X} protected"),
            RunOnMark::Ended(NEXT_HEAD_NOT_IN_IMAGE) => {
                write!(out, "1A on a track not in the image")
            }
            RunOnMark::Ended(end) => write!(out, "{end:?}"),
            RunOnMark::Met(event) => write!(out, "{event:?}"),
        }
    }
}

/// A chain run on to its end.
#[derive(Default)]
pub struct RunOn {
    /// The protected steps that were answered.
    pub steps: usize,
    marks: BTreeSet<RunOnMark>,
}

impl RunOn {
    fn meet_if(&mut self, met: bool, event: RunOnEvent) {
        if met {
            self.marks.insert(RunOnMark::Met(event));
        }
    }

    fn step(&mut self, step: &ProtectedStep, last: Option<&ProtectedStep>, chain: &ForbiddenSteps) {
        let [head_reached, head_in_tag_14] = [step.report.head_reached(), step.head_in_tag_14()];
        let sought = chain.sought.head;
        // A search steps once; in a loop it is the next one.
        let is_search = step.command == SEARCH_ID_EQUAL_MULTITRACK;
        let is_again = last.is_some_and(|last| last.report.csw == step.report.csw);
        self.steps += 1;
        self.marks.insert(RunOnMark::Protected(step.command));
        self.meet_if(
            last.is_none() && head_reached > sought,
            RunOnEvent::HeadAboveTheSeek,
        );
        self.meet_if(
            head_in_tag_14 != sought && head_in_tag_14 != head_reached,
            RunOnEvent::AnotherHeadInTag14,
        );
        self.meet_if(
            step.report.sense[6] & !HEAD_REACHED != 0,
            RunOnEvent::HighBitsOfSense6,
        );
        self.meet_if(is_again && !is_search, RunOnEvent::ProtectedTwice);
        self.meet_if(chain.run.restart.is_some(), RunOnEvent::RestartedFirst);
    }
}

/// A protected step and its report.
struct ProtectedStep {
    command: u8,
    report: Report,
}

impl ProtectedStep {
    /// None where a run ended otherwise. Tag 14 has the cylinder sought. What 10A does not ask for is any
    /// once in four: the head of tag 14, the high bits of sense 6.
    fn of(
        random: &mut Random,
        chain: &[u8],
        outcome: &Outcome,
        sought: TrackAddress,
    ) -> Option<ProtectedStep> {
        let at = address(outcome.csw).checked_sub(CCW_LENGTH)?;
        let command = chain.get(at).copied().filter(|&code| is_multitrack(code))?;
        if outcome.csw[4] & UNIT_CHECK == 0 || outcome.sense[1] & FILE_PROTECTED == 0 {
            return None;
        }
        let head = match random.once_in(4) {
            true => random.within(0..=LAST_HEAD.into()) as u16,
            false => sought.head,
        };
        let [c0, c1, h0, h1] = encode::track_address(TrackAddress { head, ..sought });
        let mut sense = outcome.sense;
        if random.once_in(4) {
            sense[6] |= random.byte() & !HEAD_REACHED;
        }
        let report = Report {
            sense,
            csw: outcome.csw,
            first: random.below(0x10000),
            mask: outcome.mask,
            seek_argument: Some([0, 0, c0, c1, h0, h1]),
            tries: 0,
        };
        Some(ProtectedStep { command, report })
    }

    fn head_in_tag_14(&self) -> u16 {
        let argument = self.report.seek_argument.expect("tag 14 is there");
        TrackAddress::decode(&argument[2..]).head
    }
}

const FILE_PROTECTED: u8 = 0x04;

fn address(csw: [u8; 8]) -> usize {
    u32::from_be_bytes([0, csw[1], csw[2], csw[3]]) as usize
}

/// Runs a chain, and on from each protected step, and asks whether it ends as it does where steps are
/// allowed.
pub fn run_on<M: Machine>(
    machine: &mut M,
    random: &mut Random,
    chain: &ForbiddenSteps,
) -> Result<RunOn, Failed<M::Wrong>> {
    let mut run = chain.run.clone();
    let mut run_on = RunOn::default();
    let mut outcome = ran(machine, &mut run)?;
    let mut last = None;
    while let Some(step) = ProtectedStep::of(random, &run.chain, &outcome, chain.sought) {
        if run_on.steps == LAST_HEAD.into() {
            return Err(Failed::Otherwise("more protected steps than heads"));
        }
        run_on.step(&step, last.as_ref(), chain);
        run.restart = Some(restart_of(machine, random, &run, &step)?);
        outcome = ran(machine, &mut run)?;
        last = Some(step);
    }
    let mut allowed = chain.allowed();
    let mut steps = StepsUnderMask::default();
    let expected = allowed.watched(&mut steps).expect("the run is not refused");
    if last.is_some() {
        run_on.marks.insert(RunOnMark::Ended(expected.end));
    }
    if outcome.csw != csw_of(&expected, last.as_ref())? {
        Err(Failed::Otherwise("another CSW"))
    } else if outcome.sense != expected.sense {
        Err(Failed::Otherwise("another sense"))
    } else if run.storage != allowed.storage {
        Err(Failed::Otherwise("other storage"))
    } else if run_on.steps != steps.0 {
        Err(Failed::Otherwise("another number of steps"))
    } else {
        Ok(run_on)
    }
}

/// How many steps a run makes behind its mask, that to a track not in the image among them.
#[derive(Default)]
struct StepsUnderMask(usize);

impl Watch for StepsUnderMask {
    fn command(&mut self, _: &Ccw, _: &[u8], done: &Result<Done, UnitCheck>, drive: &Drive) {
        let is_to_no_track = done.as_ref().err() == Some(&TO_NO_TRACK);
        if drive.mask().is_some() {
            self.0 += drive.steps() + usize::from(is_to_no_track);
        }
    }
}

fn ran<M: Machine>(machine: &mut M, run: &mut GeneratedRun) -> Result<Outcome, Failed<M::Wrong>> {
    let outcome = machine.run_held(run).map_err(Failed::Machine)?;
    outcome.ok_or(Failed::Otherwise("a run is refused"))
}

/// By 10A, in an extent of the whole pack.
fn restart_of<M: Machine>(
    machine: &mut M,
    random: &mut Random,
    run: &GeneratedRun,
    step: &ProtectedStep,
) -> Result<GeneratedRestart, Failed<M::Wrong>> {
    let mut recovery = GeneratedRecovery {
        model: run.model,
        chain: run.chain.clone(),
        report: encode::report(&step.report),
        extent: whole_pack(model_of(run.model)).to_vec(),
        storage: run.storage.clone(),
        program: random.bytes(64),
        restart_arguments: random.bytes(16),
        ..GeneratedRecovery::default()
    };
    let answer = machine
        .recover_held(&mut recovery)
        .map_err(Failed::Machine)?;
    if answer != Some(Answer::Restart(RestartAction::TenA)) {
        return Err(Failed::Otherwise("a protected step is not answered by 10A"));
    }
    if recovery.storage != run.storage {
        return Err(Failed::Otherwise("10A changes storage"));
    }
    Ok(GeneratedRestart {
        program: recovery.program,
        arguments: recovery.restart_arguments,
    })
}

/// The CSW behind this last protected step, by the outcome where steps are allowed. A track that is not in
/// the image is met by the restart's 1A, not by the step to it.
fn csw_of<Wrong>(
    expected: &Outcome,
    last: Option<&ProtectedStep>,
) -> Result<[u8; 8], Failed<Wrong>> {
    match last {
        Some(step) if expected.end == NEXT_HEAD_NOT_IN_IMAGE => {
            if step.report.csw != expected.csw {
                return Err(Failed::Otherwise("another step than that to no track"));
            }
            Ok(AT_HOME_ADDRESS)
        }
        _ => Ok(expected.csw),
    }
}

/// Of a 1A behind seek, mask and sector.
const AT_HOME_ADDRESS: [u8; 8] = [0, 0, 0x10, 0x20, 0x0E, 0, 0, 5];

/// The fewest chains, and the fewest with 0, 1, 2 and more protected steps, that are enough.
const FEWEST: u64 = 20_000;
const FEWEST_OF_EACH: u64 = 1_000;

/// How many chains were run on.
#[derive(Default)]
pub struct RunOnTally {
    /// By protected steps; more than two are last.
    by_steps: [u64; 4],
    marks: BTreeMap<RunOnMark, u64>,
}

impl RunOnTally {
    pub fn count(&mut self, run_on: RunOn) {
        self.by_steps[run_on.steps.min(3)] += 1;
        for mark in run_on.marks {
            *self.marks.entry(mark).or_default() += 1;
        }
    }

    pub fn all(&self) -> u64 {
        self.by_steps.iter().sum()
    }

    pub fn of_two(&self) -> u64 {
        self.by_steps[2..].iter().sum()
    }

    pub fn are_enough(&self) -> bool {
        self.all() >= FEWEST && self.by_steps.iter().all(|&times| times >= FEWEST_OF_EACH)
    }

    fn times(&self, mark: RunOnMark) -> u64 {
        self.marks.get(&mark).copied().unwrap_or(0)
    }

    pub fn never_seen(&self) -> impl Iterator<Item = RunOnMark> + '_ {
        let all = RunOnMark::all().into_iter();
        all.filter(|&mark| self.times(mark) == 0)
    }
}

impl fmt::Display for RunOnTally {
    fn fmt(&self, out: &mut fmt::Formatter) -> fmt::Result {
        let steps = ["no protected step", "one", "two", "three or more"];
        for (steps, times) in steps.into_iter().zip(self.by_steps) {
            writeln!(out, "  {steps:<58}{times:>10}")?;
        }
        RunOnMark::all().into_iter().try_for_each(|mark| {
            let times = self.times(mark);
            writeln!(out, "  {:<58}{times:>10}", mark.to_string())
        })
    }
}

#[cfg(test)]
mod tests {
    use super::*;
    use crate::chains::forbidden_steps;
    use crate::chains::steps::{self, Step};
    use crate::simulator::drive::READ_COUNT_MULTITRACK;
    use std::convert::Infallible;

    /// The simulator alone, but for what is done behind each recovery.
    struct Simulator {
        behind_recovery: fn(&mut GeneratedRecovery),
    }

    impl Machine for Simulator {
        type Wrong = Infallible;

        fn run_held(&mut self, run: &mut GeneratedRun) -> Result<Option<Outcome>, Infallible> {
            Ok(run.simulated().ok())
        }

        fn recover_held(
            &mut self,
            recovery: &mut GeneratedRecovery,
        ) -> Result<Option<Answer>, Infallible> {
            let recovered = recovery.simulated();
            (self.behind_recovery)(recovery);
            Ok(recovered.ok().map(|recovered| recovered.answer))
        }
    }

    /// A chain run on, or what is not as it must be.
    fn ran_on(
        behind_recovery: fn(&mut GeneratedRecovery),
        random: &mut Random,
        chain: &ForbiddenSteps,
    ) -> Result<RunOn, &'static str> {
        let mut simulator = Simulator { behind_recovery };
        run_on(&mut simulator, random, chain).map_err(|failed| match failed {
            Failed::Otherwise(what) => what,
            Failed::Machine(wrong) => match wrong {},
        })
    }

    /// Read counts over heads 3, 4 and 5, of which 4 has R0 alone.
    fn counts(how_many: usize) -> ForbiddenSteps {
        let counts = [Step::Command(READ_COUNT_MULTITRACK)].repeat(how_many);
        steps::forbidden(3, &[1, 0, 1], &counts)
    }

    #[test]
    fn steps_and_ends_of_read_counts() {
        let ended = |counts: Result<RunOn, _>| {
            let run_on = counts.expect("the end is as it must be");
            let marks = run_on.marks.into_iter().filter_map(|mark| match mark {
                RunOnMark::Ended(end) => Some(end),
                _ => None,
            });
            (run_on.steps, marks.collect())
        };
        let random = &mut Random::new(1);
        // A read count of one track ends each chain.
        for (how_many, steps, ends) in [
            (1, 0, vec![]),
            (2, 2, vec![End::Chain]),
            (3, 3, vec![NEXT_HEAD_NOT_IN_IMAGE]),
        ] {
            let run_on = ran_on(|_| (), random, &counts(how_many));
            assert_eq!(ended(run_on), (steps, ends));
        }
    }

    #[test]
    fn what_is_not_as_it_must_be() {
        type Change = fn(&mut GeneratedRecovery);
        let changes: [(Change, &str); 5] = [
            // To the head sought, to the one with R0 alone, over it, to no track.
            (
                |recovery| recovery.restart_arguments[5] = 3,
                "other storage",
            ),
            (
                |recovery| recovery.restart_arguments[5] = 4,
                "more protected steps than heads",
            ),
            (
                |recovery| recovery.restart_arguments[5] = 5,
                "another number of steps",
            ),
            (|recovery| recovery.restart_arguments[5] = 6, "another CSW"),
            (|recovery| recovery.storage[0] ^= 1, "10A changes storage"),
        ];
        for (change, what) in changes {
            let otherwise = ran_on(change, &mut Random::new(1), &counts(2));
            assert_eq!(otherwise.err(), Some(what));
        }
    }

    #[test]
    fn chains_end_as_where_steps_are_allowed() {
        let mut random = Random::new(1);
        let mut tally = RunOnTally::default();
        for _ in 0..FEWEST {
            let chain = forbidden_steps(&mut random);
            let run_on = ran_on(|_| (), &mut random, &chain);
            tally.count(run_on.unwrap_or_else(|what| panic!("{what}: {:02X?}", chain.run)));
        }
        assert!(tally.are_enough(), "{tally}");
        assert_eq!(tally.never_seen().collect::<Vec<_>>(), []);
    }
}
