//! What is looked for in whole readings. Each mark must be seen.

mod seen;

use crate::chains::{multitrack_commands, COMMANDS};
use crate::demand::Proviso;
use crate::lendings::{ANSWER_AREAS, LIST_SHORT_BY};
use crate::recovery_marks::{MaskKind, PatternKind, NO_NEXT};
use crate::simulator::areas::Area;
use crate::simulator::channel::ProgramCheck;
use crate::simulator::drive::{
    NotFoundRule, ProtectedRule, UnitCheck, READ_COUNT, READ_COUNT_MULTITRACK, TAKING_DATA,
};
use crate::simulator::extent::ExtentRule;
use crate::simulator::faults::FaultRule;
use crate::simulator::pack::ImageRule;
use crate::simulator::reading::{End, LimitOf, Stop};
use crate::simulator::recovery::RestartAction;
use crate::simulator::{run, Refusal};
pub use seen::marks_of;
use std::fmt;

#[derive(Clone, Copy, Debug, PartialEq, Eq, PartialOrd, Ord)]
pub enum ReadingMark {
    /// How it ended, and behind how many recoveries.
    Ended(End, Behind),
    Made(HowMany),
    /// A recovery, and how it was answered.
    Recovered(Order, Answered),
    /// A restart, and the mask that it sets.
    Masked(RestartAction, MaskKind),
    /// The command of a read that was cut.
    Cut(u8),
    /// The command that a restart goes on with.
    Next(u8),
    /// The read count of a restart.
    ReadCount(u8),
    /// What became of a pattern byte.
    Pattern(PatternKind),
    Met(ReadingEvent),
    /// So many recoveries where every proviso of demand 3 is met.
    DemandThree(HowMany),
    /// By demand 3 the end is at the restart's 92, for this and with a mask or without.
    AtReadCount(UnitCheck, bool),
    /// This command ends by a step, and by demand 3 the end is at it all the same.
    BesideReadCount(u8),
    NotMet(Proviso),
    /// A refusal, by the rule that decided.
    Refused(Refusal),
    /// Length of an area to answer in that is not as it must be.
    AnswerArea(usize),
    /// Bytes that the list has less than it must.
    ListShortBy(usize),
}

rules! {
    Behind {
        NoRecovery,
        OneRecovery,
        MoreRecoveries,
    }
}

rules! {
    HowMany {
        None,
        One,
        Two,
        To9,
        To99,
        To255,
        // Two bytes of the answer are not 0.
        From256,
    }
}

rules! {
    Order {
        First,
        Later,
    }
}

rules! {
    Answered {
        By5,
        By5A,
        Finished,
        CorrectedOnly,
    }
}

rules! {
    ReadingEvent {
        // Of two recoveries, one behind the other.
        SameRecord,
        OtherRecord,
        OtherTrack,
        // Of three or more recoveries, on as many tracks.
        ThreeTracks,
        FiveBehindFiveA,
        FiveABehindFive,
        // No mask at the first, a mask at the second.
        MaskSetBetween,
        // Of two recoveries with others between them.
        SameRecordLater,
        // And it ends otherwise than by a further cut.
        AsManyAsTheLimit,
        DataChained,
        ListLongerThanItMustBe,
    }
}

impl ReadingMark {
    pub fn all() -> Vec<ReadingMark> {
        let recovered = Order::ALL.iter().flat_map(|&order| {
            let answered = Answered::ALL.iter();
            answered.map(move |&answered| ReadingMark::Recovered(order, answered))
        });
        let masked = [RestartAction::Five, RestartAction::FiveA]
            .into_iter()
            .flat_map(|action| {
                let kinds = MaskKind::ALL.iter();
                kinds.map(move |&kind| ReadingMark::Masked(action, kind))
            });
        ended()
            .into_iter()
            .chain(HowMany::ALL.iter().copied().map(ReadingMark::Made))
            .chain(recovered)
            .chain(masked)
            .chain(TAKING_DATA.map(ReadingMark::Cut))
            .chain(COMMANDS.map(ReadingMark::Next))
            .chain([READ_COUNT, READ_COUNT_MULTITRACK].map(ReadingMark::ReadCount))
            .chain(PatternKind::ALL.iter().copied().map(ReadingMark::Pattern))
            .chain(ReadingEvent::ALL.iter().copied().map(ReadingMark::Met))
            .chain(HowMany::ALL.iter().copied().map(ReadingMark::DemandThree))
            .chain(at_read_count())
            .chain(multitrack_commands().map(ReadingMark::BesideReadCount))
            .chain(Proviso::ALL.iter().copied().map(ReadingMark::NotMet))
            .chain(refusals().into_iter().map(ReadingMark::Refused))
            .chain(ANSWER_AREAS.map(ReadingMark::AnswerArea))
            .chain(LIST_SHORT_BY.map(ReadingMark::ListShortBy))
            .collect()
    }
}

/// Every end that there is, behind as many recoveries as it can be.
fn ended() -> Vec<ReadingMark> {
    let of_runs =
        (run::End::all().into_iter()).filter(|end| ![run::End::Cut, run::End::Limit].contains(end));
    let no_next = NO_NEXT.map(|check| Stop::Refused(Refusal::Next(check)));
    let ends = (of_runs.map(End::Run))
        .chain([End::Finished, End::CorrectedOnly])
        .chain(LimitOf::ALL.iter().copied().map(End::Limit))
        .chain([Stop::Action2].into_iter().chain(no_next).map(End::Stopped));
    ends.flat_map(|end| {
        let behind = Behind::ALL
            .iter()
            .filter(move |&&behind| can_be(end, behind));
        behind.map(move |&behind| ReadingMark::Ended(end, behind))
    })
    .collect()
}

/// A step is protected under a mask alone.
fn at_read_count() -> [ReadingMark; 5] {
    let no_track = UnitCheck::NoRecordFound(NotFoundRule::NextHeadNotInImage);
    let protected = UnitCheck::FileProtected(ProtectedRule::Step);
    [
        (UnitCheck::EndOfCylinder, false),
        (UnitCheck::EndOfCylinder, true),
        (no_track, false),
        (no_track, true),
        (protected, true),
    ]
    .map(|(ended_by, is_masked)| ReadingMark::AtReadCount(ended_by, is_masked))
}

fn can_be(end: End, behind: Behind) -> bool {
    match end {
        // A restart begins with a seek.
        End::Run(run::End::ProgramCheck(ProgramCheck::TicFirst)) => behind == Behind::NoRecovery,
        End::Finished | End::CorrectedOnly | End::Limit(LimitOf::Recoveries) => {
            behind != Behind::NoRecovery
        }
        _ => true,
    }
}

/// By the rules of every question of a reading.
fn refusals() -> Vec<Refusal> {
    (Area::ALL.iter().copied().map(Refusal::Areas))
        .chain(ImageRule::ALL.iter().copied().map(Refusal::Image))
        .chain(FaultRule::ALL.iter().copied().map(Refusal::Faults))
        .chain(ExtentRule::ALL.iter().copied().map(Refusal::Extent))
        .collect()
}

impl fmt::Display for ReadingMark {
    fn fmt(&self, out: &mut fmt::Formatter) -> fmt::Result {
        match self {
            ReadingMark::Ended(end, behind) => write!(out, "{end:?}, {behind:?}"),
            ReadingMark::Made(how_many) => write!(out, "recoveries {how_many:?}"),
            ReadingMark::Recovered(order, answered) => write!(out, "{order:?} cut {answered:?}"),
            ReadingMark::Masked(action, kind) => write!(out, "restart {action:?}, {kind:?}"),
            ReadingMark::Cut(command) => write!(out, "cut of a {command:02X}"),
            ReadingMark::Next(command) => write!(out, "restart to a {command:02X}"),
            ReadingMark::ReadCount(command) => write!(out, "restart with a {command:02X}"),
            ReadingMark::AtReadCount(ended_by, is_masked) => {
                write!(out, "end at a 92, {ended_by:?}, mask {is_masked}")
            }
            ReadingMark::BesideReadCount(command) => write!(out, "end at the {command:02X} itself"),
            ReadingMark::Pattern(kind) => write!(out, "pattern byte {kind:?}"),
            ReadingMark::Met(event) => write!(out, "{event:?}"),
            ReadingMark::DemandThree(how_many) => write!(out, "demand 3, recoveries {how_many:?}"),
            ReadingMark::NotMet(proviso) => write!(out, "not met: {proviso:?}"),
            ReadingMark::Refused(refusal) => write!(out, "refused by {refusal:?}"),
            ReadingMark::AnswerArea(length) => write!(out, "answer area of {length} bytes"),
            ReadingMark::ListShortBy(bytes) => write!(out, "list short by {bytes} bytes"),
        }
    }
}
