//! What is looked for in recoveries. Each mark must be seen.

mod seen;

use crate::in_place::MOST_CHANGED;
use crate::reports::ANSWER_AREAS;
use crate::simulator::areas::Area;
use crate::simulator::channel::ProgramCheck;
use crate::simulator::cut::CutRule;
use crate::simulator::drive::{READ_COUNT, READ_COUNT_MULTITRACK, TAKING_DATA};
use crate::simulator::extent::ExtentRule;
use crate::simulator::interrupted::InterruptedRule;
use crate::simulator::recovery::{NotBuilt, RestartAction};
use crate::simulator::report::ReportRule;
use crate::simulator::table::{Action, TABLE};
use crate::simulator::Refusal;
pub use seen::{kind_of_fate, marks_of};
use std::fmt;

#[derive(Clone, Copy, Debug, PartialEq, Eq, PartialOrd, Ord)]
pub enum RecoveryMark {
    /// Place of a row that matched.
    Row(usize),
    /// An answer, and the action that the table sent to.
    Answered(Action, AnswerKind),
    /// A restart by this action, and the mask that it sets.
    Masked(RestartAction, MaskKind),
    /// The command of a read that was corrected.
    Cut(u8),
    /// The read count of a restart.
    ReadCount(u8),
    /// A refusal, by the rule that decided; where it is number 9, not of actions 9 and 11.
    Refused(Refusal),
    /// A refusal's number where the report's sense sends to this action, or where no row matches.
    RefusedFor(u8, Option<Action>),
    /// What became of the pattern byte of this number.
    Pattern(usize, PatternKind),
    /// How many bytes of storage a correcting answer changed.
    Changed(AnswerKind, usize),
    Met(RecoveryEvent),
    /// Length of an area to answer in that is not as it must be.
    AnswerArea(usize),
}

#[derive(Clone, Copy, Debug, PartialEq, Eq, PartialOrd, Ord)]
pub enum AnswerKind {
    Action1,
    Action2,
    NotBuilt(RestartAction, NotBuilt),
    Repeat,
    CorrectedOnly,
    Finished,
    Restart(RestartAction),
}

rules! {
    MaskKind {
        NoMask,
        Zeros,
        Other,
    }
}

impl MaskKind {
    pub fn of(mask: Option<u8>) -> MaskKind {
        match mask {
            None => MaskKind::NoMask,
            Some(0) => MaskKind::Zeros,
            Some(_) => MaskKind::Other,
        }
    }
}

rules! {
    PatternKind {
        Stored,
        PastTheDataArea,
        PastTheCounts,
        Skipped,
        Overwritten,
    }
}

rules! {
    RecoveryEvent {
        DataChained,
        DataChainedByTic,
        // A CCW took bytes of the read twice.
        DataChainedRound,
        // Pattern bytes went to places that are not adjacent.
        PatternApart,
        // The error begins with the read.
        ErrorAtTheFront,
        CountLeft,
        BytesLeftOver,
        LastSector,
        NextBehindTic,
        FinishedByLength,
        FinishedWithoutCc,
        FinishedOutsideTheExtent,
        CorrectedOnlyWithLength,
        CorrectedOnlyWithoutCc,
        CorrectedOnlyWithoutNext,
        CorrectedOnlyOutsideTheExtent,
        // By action 10A. Where it differs, by what the head of tag 14 would give.
        HeadCarried,
        AnotherTrackThanSought,
        CarriedThoughSoughtLower,
        NotCarriedThoughSoughtLast,
        OffThePackByHeadReached,
        OutsideTheExtentByHeadReached,
        InTheExtentByHeadReached,
        HighBitsOfSense6NotAsked,
        // Nothing else is wrong with the report.
        HeadSoughtOffThePackIn10A,
        // Actions 8 and 10 do not ask for the head reached.
        HeadAboveLastIn8,
        HeadAboveLastIn10,
        // Actions 8 and 10 make nothing of bit 7.
        PciFetchModeSetAgain,
        // Tries at which action 4 ends, and one less.
        TenTries,
        NineTries,
    }
}

impl RecoveryMark {
    pub fn all() -> Vec<RecoveryMark> {
        let answered = Action::ALL.iter().flat_map(|&action| {
            let kinds = answers_of(action).into_iter();
            kinds.map(move |kind| RecoveryMark::Answered(action, kind))
        });
        let masked = RestartAction::ALL.iter().flat_map(|&action| {
            let kinds = MaskKind::ALL.iter();
            kinds.map(move |&kind| RecoveryMark::Masked(action, kind))
        });
        let actions = Action::ALL.iter().copied().map(Some);
        let refused_for = actions.chain([None]).flat_map(|action| {
            let numbers = numbers_of(action).into_iter();
            numbers.map(move |number| RecoveryMark::RefusedFor(number, action))
        });
        let patterns = (0..3).flat_map(|at| {
            let kinds = PatternKind::ALL.iter();
            kinds.map(move |&kind| RecoveryMark::Pattern(at, kind))
        });
        // An error displacement is not 0.
        let patterns =
            patterns.filter(|&mark| mark != RecoveryMark::Pattern(0, PatternKind::PastTheDataArea));
        let changes = CORRECTING.iter().flat_map(|&kind| {
            let numbers = 0..=MOST_CHANGED;
            numbers.map(move |number| RecoveryMark::Changed(kind, number))
        });
        (0..TABLE.len())
            .map(RecoveryMark::Row)
            .chain(answered)
            .chain(masked)
            .chain(TAKING_DATA.map(RecoveryMark::Cut))
            .chain([READ_COUNT, READ_COUNT_MULTITRACK].map(RecoveryMark::ReadCount))
            .chain(refusals().into_iter().map(RecoveryMark::Refused))
            .chain(refused_for)
            .chain(patterns)
            .chain(changes)
            .chain(RecoveryEvent::ALL.iter().copied().map(RecoveryMark::Met))
            .chain(ANSWER_AREAS.map(RecoveryMark::AnswerArea))
            .collect()
    }
}

/// The answers with a correction.
const CORRECTING: [AnswerKind; 4] = [
    AnswerKind::CorrectedOnly,
    AnswerKind::Finished,
    AnswerKind::Restart(RestartAction::Five),
    AnswerKind::Restart(RestartAction::FiveA),
];

/// Every answer that an action has.
fn answers_of(action: Action) -> Vec<AnswerKind> {
    let restarts: &[RestartAction] = match action {
        Action::Five => &[RestartAction::Five, RestartAction::FiveA],
        Action::Eight => &[RestartAction::Eight],
        Action::Nine => &[RestartAction::Nine],
        Action::Ten => &[RestartAction::Ten, RestartAction::TenA],
        Action::Eleven => &[RestartAction::Eleven],
        _ => &[],
    };
    let mut kinds = match action {
        Action::One => vec![AnswerKind::Action1],
        Action::Two => vec![AnswerKind::Action2],
        Action::Three | Action::Four => vec![AnswerKind::Repeat, AnswerKind::Action1],
        Action::Five => vec![AnswerKind::CorrectedOnly, AnswerKind::Finished],
        _ => Vec::new(),
    };
    for &restart in restarts {
        kinds.push(AnswerKind::Restart(restart));
        for &why in NotBuilt::ALL {
            // The user's own track was asked for before.
            if (restart, why) != (RestartAction::Ten, NotBuilt::OffThePack) {
                kinds.push(AnswerKind::NotBuilt(restart, why));
            }
        }
    }
    kinds
}

/// Numbers of the questions that may refuse where the table sends to an action, or to none.
fn numbers_of(action: Option<Action>) -> Vec<u8> {
    let own: &[u8] = match action {
        None => &[6],
        Some(Action::Five) => &[8, 9],
        Some(Action::Eight | Action::Nine | Action::Ten | Action::Eleven) => &[9],
        Some(action) if action.is_known() => &[],
        Some(_) => &[7],
    };
    [&[1, 4, 5], own].concat()
}

/// Why there may be no next CCW.
pub const NO_NEXT: [ProgramCheck; 3] = [
    ProgramCheck::PastTheChain,
    ProgramCheck::NotAMultipleOf8,
    ProgramCheck::TicToTic,
];

/// By the rules of every question of a recovery.
fn refusals() -> Vec<Refusal> {
    let areas = [
        Area::Chain,
        Area::Storage,
        Area::RestartProgram,
        Area::RestartArguments,
        Area::Extent,
    ];
    let unknown = Action::ALL.iter().filter(|action| !action.is_known());
    // The first CCW of a walk is a read.
    let walk = ProgramCheck::ALL
        .iter()
        .filter(|&&check| check != ProgramCheck::TicFirst);
    (areas.into_iter().map(Refusal::Areas))
        .chain(ReportRule::ALL.iter().copied().map(Refusal::Report))
        .chain(ExtentRule::ALL.iter().copied().map(Refusal::Extent))
        .chain([Refusal::NoRow, Refusal::SenseFormat])
        .chain(unknown.copied().map(Refusal::Action))
        .chain(CutRule::ALL.iter().copied().map(Refusal::Cut))
        .chain(walk.copied().map(Refusal::Walk))
        .chain(NO_NEXT.map(Refusal::Next))
        .chain(
            InterruptedRule::ALL
                .iter()
                .copied()
                .map(Refusal::Interrupted),
        )
        .collect()
}

impl fmt::Display for RecoveryMark {
    fn fmt(&self, out: &mut fmt::Formatter) -> fmt::Result {
        match self {
            RecoveryMark::Row(place) => {
                let row = &TABLE[*place];
                write!(out, "row {:?}, action {:?}", row.bits, row.action)
            }
            RecoveryMark::Answered(action, kind) => write!(out, "action {action:?}: {kind:?}"),
            RecoveryMark::Masked(action, kind) => write!(out, "restart {action:?}, {kind:?}"),
            RecoveryMark::Cut(command) => write!(out, "cut of a {command:02X}"),
            RecoveryMark::ReadCount(command) => write!(out, "restart with a {command:02X}"),
            RecoveryMark::Refused(refusal) => write!(out, "refused by {refusal:?}"),
            RecoveryMark::RefusedFor(number, Some(action)) => {
                write!(out, "refused {number} for action {action:?}")
            }
            RecoveryMark::RefusedFor(number, None) => write!(out, "refused {number} for no row"),
            RecoveryMark::Pattern(at, kind) => write!(out, "pattern byte {at}: {kind:?}"),
            RecoveryMark::Changed(kind, number) => write!(out, "{kind:?}, {number} bytes changed"),
            RecoveryMark::Met(event) => write!(out, "{event:?}"),
            RecoveryMark::AnswerArea(length) => write!(out, "answer area of {length} bytes"),
        }
    }
}
