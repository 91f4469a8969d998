//! What is looked for in reports that send to actions 9 and 11. Each mark must be seen often of both
//! actions, or of the one that can have it.

mod seen;

use crate::recovery_marks::MaskKind;
use crate::simulator::channel::{
    Ccw, ProgramCheck, FLAG_CHAIN_COMMAND, FLAG_CHAIN_DATA, FLAG_PCI, FLAG_SKIP,
    FLAG_SUPPRESS_LENGTH,
};
use crate::simulator::drive::TAKING_DATA;
use crate::simulator::recovery::{NotBuilt, RestartAction};
pub use seen::marks_of;
use std::collections::{BTreeMap, BTreeSet};
use std::fmt;

const ACTIONS: [RestartAction; 2] = [RestartAction::Nine, RestartAction::Eleven];

#[derive(Clone, Copy, Debug, PartialEq, Eq, PartialOrd, Ord)]
pub enum OverflowMark {
    /// Every report has it.
    Sent,
    Restarted,
    /// Of a restart, as the marks down to `Met` are: command of the read's first CCW.
    First(u8),
    /// How the interrupted CCW chains. Where it does not, no last TIC stands.
    Chained(Chaining),
    /// A flag that restart CCW 1 keeps.
    Kept(u8),
    Masked(MaskKind),
    Met(OverflowEvent),
    NotBuilt(NotBuilt),
    /// Number 9, for this cause and no other.
    Refused(Cause),
    /// Number 9, where action 2 would be the answer without its cause.
    RefusedBefore(NotBuilt),
}

rules! {
    Chaining {
        Nothing,
        Commands,
        Data,
        DataAndCommands,
    }
}

impl Chaining {
    pub fn of(ccw: &Ccw) -> Chaining {
        match (ccw.has(FLAG_CHAIN_DATA), ccw.has(FLAG_CHAIN_COMMAND)) {
            (false, false) => Chaining::Nothing,
            (false, true) => Chaining::Commands,
            (true, false) => Chaining::Data,
            (true, true) => Chaining::DataAndCommands,
        }
    }
}

rules! {
    OverflowEvent {
        // A displacement of 0: restart CCW 1 is the whole first CCW.
        NothingRead,
        // The CCW before it had run out under CD.
        NothingTakenByALaterCcw,
        PartStored,
        PartSkipped,
        DataChained,
        DataChainedByTic,
        // More bytes than all CCWs of the chain count.
        DataChainedRound,
        MillionsOfBytesRound,
        LongestDisplacement,
        // By its code, which means nothing; 11 does not go on behind a seek as 10 does.
        SeekInterrupted,
        OtherCodeInterrupted,
        NextBehindTic,
        // Its count, flags or data range are a program check.
        NextWithProgramCheck,
        NothingBehindAndNotChained,
        // Without effect.
        PciFetchMode,
        // Action 5 would refuse these.
        LongerThanARecord,
        NoErrorDisplacement,
        RestartBelowError,
        SectorPastTheLast,
        AnotherFormat,
        LengthShownThoughSuppressed,
        LengthNotShown,
        // Nothing of the CSW is asked but address and count left.
        NoUnitCheckShown,
        ProgramCheckShown,
        // Of 9, which does not ask for the head reached.
        HeadReachedAboveLast,
        // Of 11. Where it differs, by what the head of tag 14 would give.
        HeadCarried,
        AnotherTrackThanSought,
        HighBitsOfSense6,
    }
}

impl OverflowEvent {
    /// The action that alone can have it.
    fn only_of(self) -> Option<RestartAction> {
        match self {
            OverflowEvent::HeadReachedAboveLast => Some(RestartAction::Nine),
            OverflowEvent::HeadCarried
            | OverflowEvent::AnotherTrackThanSought
            | OverflowEvent::HighBitsOfSense6 => Some(RestartAction::Eleven),
            _ => None,
        }
    }
}

/// Of number 9.
#[derive(Clone, Copy, Debug, PartialEq, Eq, PartialOrd, Ord)]
pub enum Cause {
    Own(OwnCause),
    /// In the walk, of the read's first CCW.
    AtFirst(ProgramCheck),
    /// In the walk, of another.
    BehindFirst(ProgramCheck),
    /// Behind an interrupted CCW that chains like this.
    NoNext(NoNext, Chaining),
}

rules! {
    OwnCause {
        // Tag 14.
        NoSeekArgument,
        SeekNotZero,
        CylinderOffThePack,
        HeadOffThePack,
        // Sense 6, in 11.
        HeadReachedAboveLast,
        // Sense 3.
        OtherRestartCommand,
        // Tag 12.
        FirstPastTheChain,
        FirstNotAMultipleOf8,
        FirstIsTic,
        FirstIsReadCount,
        FirstIsMultitrackReadCount,
        FirstIsReadHomeAddress,
        FirstIsAnother,
        // The walk's end.
        OtherCcw,
        OtherCount,
        NoCountLeft,
        NoCountLeftBytesLeftOver,
    }
}

rules! {
    NoNext {
        ChainEnds,
        TicPastTheChain,
        TicNotAMultipleOf8,
        TicToTic,
    }
}

/// Which program checks each place of a walk can have.
const AT_FIRST: [ProgramCheck; 3] = [
    ProgramCheck::CountZero,
    ProgramCheck::LowFlags,
    ProgramCheck::DataRange,
];
const BEHIND_FIRST: [ProgramCheck; 6] = [
    ProgramCheck::PastTheChain,
    ProgramCheck::NotAMultipleOf8,
    ProgramCheck::TicToTic,
    ProgramCheck::CountZero,
    ProgramCheck::LowFlags,
    ProgramCheck::DataRange,
];

impl Cause {
    fn all() -> Vec<Cause> {
        let no_next = NoNext::ALL.iter().flat_map(|&why| {
            let chaining = Chaining::ALL.iter();
            chaining.map(move |&chaining| Cause::NoNext(why, chaining))
        });
        let no_next = no_next.filter(|cause| !matches!(cause, Cause::NoNext(_, Chaining::Nothing)));
        (OwnCause::ALL.iter().copied().map(Cause::Own))
            .chain(AT_FIRST.map(Cause::AtFirst))
            .chain(BEHIND_FIRST.map(Cause::BehindFirst))
            .chain(no_next)
            .collect()
    }
}

impl OverflowMark {
    pub fn all(action: RestartAction) -> Vec<OverflowMark> {
        let kept = [FLAG_SUPPRESS_LENGTH, FLAG_SKIP, FLAG_PCI];
        ([OverflowMark::Sent, OverflowMark::Restarted].into_iter())
            .chain(TAKING_DATA.map(OverflowMark::First))
            .chain(Chaining::ALL.iter().copied().map(OverflowMark::Chained))
            .chain(kept.map(OverflowMark::Kept))
            .chain(MaskKind::ALL.iter().copied().map(OverflowMark::Masked))
            .chain(OverflowEvent::ALL.iter().copied().map(OverflowMark::Met))
            .chain(NotBuilt::ALL.iter().copied().map(OverflowMark::NotBuilt))
            .chain(Cause::all().into_iter().map(OverflowMark::Refused))
            .chain(
                NotBuilt::ALL
                    .iter()
                    .copied()
                    .map(OverflowMark::RefusedBefore),
            )
            .filter(|mark| mark.can_be_of(action))
            .collect()
    }

    fn can_be_of(self, action: RestartAction) -> bool {
        match self {
            OverflowMark::Met(event) => event.only_of().is_none_or(|only| only == action),
            OverflowMark::Refused(Cause::Own(OwnCause::HeadReachedAboveLast)) => {
                action == RestartAction::Eleven
            }
            _ => true,
        }
    }
}

impl fmt::Display for OverflowMark {
    fn fmt(&self, out: &mut fmt::Formatter) -> fmt::Result {
        match self {
            OverflowMark::Sent => write!(out, "all"),
            OverflowMark::Restarted => write!(out, "restarts"),
            OverflowMark::First(command) => write!(out, "read by a {command:02X}"),
            OverflowMark::Chained(chaining) => write!(out, "chained: {chaining:?}"),
            OverflowMark::Kept(flag) => write!(out, "flag {flag:02X}"),
            OverflowMark::Masked(kind) => write!(out, "{kind:?}"),
            OverflowMark::Met(event) => write!(out, "{event:?}"),
            OverflowMark::NotBuilt(why) => write!(out, "action 2, {why:?}"),
            OverflowMark::Refused(cause) => write!(out, "9 by {cause}"),
            OverflowMark::RefusedBefore(why) => write!(out, "9 before action 2, {why:?}"),
        }
    }
}

impl fmt::Display for Cause {
    fn fmt(&self, out: &mut fmt::Formatter) -> fmt::Result {
        match self {
            Cause::Own(cause) => write!(out, "{cause:?}"),
            Cause::AtFirst(check) => write!(out, "{check:?} of the first CCW"),
            Cause::BehindFirst(check) => write!(out, "{check:?} of a later CCW"),
            Cause::NoNext(why, chaining) => write!(out, "no next, {why:?}, {chaining:?}"),
        }
    }
}

/// What became of a report that sends to action 9 or 11.
#[derive(Clone, Debug, PartialEq, Eq)]
pub struct Overflow {
    action: RestartAction,
    marks: BTreeSet<OverflowMark>,
}

/// Of each action on packs of a model, the fewest reports and the fewest with each mark that are enough; one
/// report in four is answered by a restart.
const FEWEST: u64 = 50_000;
const FEWEST_OF_EACH: u64 = 50;
const RESTART_ONCE_IN: u64 = 4;

/// How many such reports were tried.
#[derive(Default)]
pub struct OverflowTally {
    marks: BTreeMap<(RestartAction, OverflowMark), u64>,
    /// Recoveries that do not come to these actions.
    pub others: u64,
}

impl OverflowTally {
    /// None is told of a recovery that does not come to these actions.
    pub fn count(&mut self, overflow: Option<Overflow>) {
        let Some(overflow) = overflow else {
            self.others += 1;
            return;
        };
        for mark in overflow.marks {
            *self.marks.entry((overflow.action, mark)).or_default() += 1;
        }
    }

    pub fn reports(&self) -> u64 {
        self.of_both(OverflowMark::Sent)
    }

    pub fn restarts(&self) -> u64 {
        self.of_both(OverflowMark::Restarted)
    }

    fn of_both(&self, mark: OverflowMark) -> u64 {
        let times = ACTIONS.iter().map(|&action| self.times(action, mark));
        times.sum()
    }

    pub fn are_enough(&self) -> bool {
        ACTIONS.iter().all(|&action| {
            let reports = self.times(action, OverflowMark::Sent);
            let restarts = self.times(action, OverflowMark::Restarted);
            reports >= FEWEST && restarts * RESTART_ONCE_IN >= reports
        })
    }

    fn times(&self, action: RestartAction, mark: OverflowMark) -> u64 {
        self.marks.get(&(action, mark)).copied().unwrap_or(0)
    }

    /// Marks that were not seen often enough, and the action of each.
    pub fn seldom_seen(&self) -> impl Iterator<Item = (RestartAction, OverflowMark)> + '_ {
        let all = ACTIONS.iter().flat_map(|&action| {
            let marks = OverflowMark::all(action).into_iter();
            marks.map(move |mark| (action, mark))
        });
        all.filter(|&(action, mark)| self.times(action, mark) < FEWEST_OF_EACH)
    }
}

impl fmt::Display for OverflowTally {
    fn fmt(&self, out: &mut fmt::Formatter) -> fmt::Result {
        for action in ACTIONS {
            writeln!(out, "reports that send to action {action:?}")?;
            for mark in OverflowMark::all(action) {
                let times = self.times(action, mark);
                writeln!(out, "  {:<58}{times:>10}", mark.to_string())?;
            }
        }
        Ok(())
    }
}
