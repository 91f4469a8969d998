//! One recovery given to library and simulator.

use super::{is_off_the_pack, Comparison, Disagreement, Left, Sides};
use crate::arena::Arena;
use crate::calls::RECOVER;
use crate::in_place;
use crate::library::{self, RecoveryAreas, RestartAreas, ACTION_5, ACTION_5A};
use crate::overflow_marks;
use crate::random::Random;
use crate::recovery_marks::{marks_of, RecoveryMark};
use crate::reports::GeneratedRecovery;
use crate::rest_of_read::InterruptedRead;
use crate::simulator::held::RECOVERY_ANSWER;
use crate::simulator::recovery::{
    recover, recover_without_overflow, Answer, Areas, Lent, NotBuilt, Recovered, RestartAction,
};
use crate::simulator::report::Report;
use crate::simulator::table::{row_of, Action, TABLE};
use crate::simulator::Refusal;
use crate::tally::OfModel;

/// The areas of a recovery, in the order in which they are held here.
const NAMES: [&str; 7] = [
    "chain",
    "report",
    "extent",
    "storage",
    "restart program",
    "restart arguments",
    "answer",
];
const STORAGE: usize = 3;
const PROGRAM: usize = 4;
const ANSWER: usize = 6;

type RecoveryArena = Arena<7>;
pub(super) type RecoveryLeft = Left<7>;

impl Comparison {
    /// Compares the answer, all areas and the bytes around them, where no row gives 9 or 11 also with what
    /// the simulator does without these actions; then asks for the rest of the read behind a restart by
    /// one of them.
    pub fn recovery(
        &mut self,
        kind: &'static str,
        recovery: &GeneratedRecovery,
    ) -> Result<(), Disagreement> {
        self.recovery_compared(kind, recovery).map(|_| ())
    }

    /// The same, and what the library left. No answer where it is refused.
    pub(super) fn recovery_compared(
        &mut self,
        kind: &'static str,
        recovery: &GeneratedRecovery,
    ) -> Result<(RecoveryLeft, Option<Answer>), Disagreement> {
        let lent = lend(&mut Random::new(self.tally.compared), recovery);
        let (by_simulator, recovered) = by_simulator(recovery.model, lent.clone(), recover);
        let sides = Sides {
            names: &NAMES,
            model: recovery.model,
            limit: None,
            by_library: by_library(recovery.model, lent.clone()),
            by_simulator,
            lent,
        };
        let answered = recovered
            .as_ref()
            .and_then(|recovered| recovered.as_ref().ok());
        let answer = answered.map(|recovered| recovered.answer.clone());
        let is_by_the_end = match &recovered {
            Some(Ok(recovered)) => is_not_built_off_the_pack(&recovered.answer),
            Some(Err(refusal)) => is_off_the_pack(*refusal),
            None => false,
        };
        let wrong = match sides.agree() {
            true => in_place::wrong(changed(&sides), corrects(&sides.by_library))
                .or_else(|| wrong_beside_no_overflow(&sides))
                .or_else(|| wrong_rest(recovery, answer.as_ref(), &sides.by_library))
                .or_else(|| match is_by_the_end {
                    true => None,
                    false => self.wrong_on_model_11(&sides, by_library),
                }),
            false => Some("disagreement"),
        };
        if let Some(wrong) = wrong {
            return Err(sides.told(RECOVER, kind, wrong, self.tally.compared));
        }
        let number = sides.by_simulator.number;
        let of_model = self.tally.count_on(RECOVER, kind, recovery.model, number);
        if let Some(of_model) = of_model {
            count_marks(of_model, recovery, recovered.as_ref(), changed(&sides));
        }
        if let Some(recovered) = &recovered {
            self.see_borders(RECOVER, recovery.model, |borders, model| {
                let refusal = recovered.as_ref().err().copied();
                borders.see_extent(model, &recovery.extent, refusal);
                borders.see_recovery(recovery, recovered);
            });
        }
        Ok((sides.by_library, answer))
    }
}

/// Of a recovery that changed so many bytes of storage.
fn count_marks(
    of_model: &mut OfModel,
    recovery: &GeneratedRecovery,
    recovered: Option<&Recovery>,
    changed: usize,
) {
    let Some(recovered) = recovered else {
        let mark = RecoveryMark::AnswerArea(recovery.answer_length);
        of_model.count_recovery_marks([mark]);
        of_model.overflow.count(None);
        return;
    };
    of_model.count_recovery_marks(marks_of(recovery, recovered, changed));
    let overflow = overflow_marks::marks_of(recovery, recovered);
    of_model.overflow.count(overflow);
}

type Recovery = Result<Recovered, Refusal>;

/// Nothing is told of the recovery where the area to answer in has another length.
fn by_simulator(
    model: u8,
    mut arena: RecoveryArena,
    recover: fn(Lent, Areas) -> Recovery,
) -> (RecoveryLeft, Option<Recovery>) {
    let [chain, report, extent, storage, program, restart_arguments, answer] = arena.lent();
    if answer.len() != RECOVERY_ANSWER {
        return (Left { number: 1, arena }, None);
    }
    let lent = Lent {
        model,
        chain,
        report,
        extent,
    };
    let areas = Areas {
        storage,
        program,
        restart_arguments,
    };
    let recovered = recover(lent, areas);
    let number = match &recovered {
        Ok(recovered) => {
            answer.copy_from_slice(&written(&recovered.answer));
            library::ANSWERED
        }
        Err(refusal) => refusal.number(),
    };
    (Left { number, arena }, Some(recovered))
}

/// "Every report whose row gives another action gets its old answer": as where actions 9 and 11 are not
/// built, of which the answer is number 7 unless an earlier question refuses.
fn wrong_beside_no_overflow(sides: &Sides<7>) -> Option<&'static str> {
    let lent = sides.lent.clone();
    let (without, _) = by_simulator(sides.model, lent, recover_without_overflow);
    let [_, report, ..] = sides.lent.areas();
    let is_overflow = matches!(action_of(report), Some(Action::Nine | Action::Eleven));
    if is_overflow && ![1, 5].contains(&without.number) {
        let refused = without.number == 7 && without.arena == sides.lent;
        (!refused).then_some("not number 7 without 9 and 11")
    } else {
        (without != sides.by_library).then_some("another answer than without 9 and 11")
    }
}

fn is_not_built_off_the_pack(answer: &Answer) -> bool {
    matches!(answer, Answer::NotBuilt(_, NotBuilt::OffThePack))
}

/// Of the row that a report matches.
fn action_of(report: &[u8]) -> Option<Action> {
    let report = Report::decode(report).ok()?;
    row_of(&report.sense).map(|row| TABLE[row].action)
}

/// What is wrong behind a restart by 9 or 11.
fn wrong_rest(
    recovery: &GeneratedRecovery,
    answer: Option<&Answer>,
    left: &RecoveryLeft,
) -> Option<&'static str> {
    let Some(Answer::Restart(RestartAction::Nine | RestartAction::Eleven)) = answer else {
        return None;
    };
    let report = Report::decode(&recovery.report).expect("question 4 was answered yes");
    let interrupted = InterruptedRead {
        chain: &recovery.chain,
        storage: recovery.storage.len(),
        report: &report,
    };
    interrupted.otherwise(left.arena.areas()[PROGRAM])
}

/// How many bytes of storage the library changed.
fn changed(sides: &Sides<7>) -> usize {
    let [before, after] =
        [&sides.lent, &sides.by_library.arena].map(|arena| arena.areas()[STORAGE]);
    in_place::changed(before, after)
}

/// Whether the answer is an action 5 that corrects.
fn corrects(left: &RecoveryLeft) -> bool {
    let action = left.arena.areas()[ANSWER].get(1);
    left.number == library::ANSWERED
        && action.is_some_and(|action| [ACTION_5, ACTION_5A].contains(action))
}

fn lend(random: &mut Random, recovery: &GeneratedRecovery) -> RecoveryArena {
    let answer = random.bytes(recovery.answer_length);
    let areas = [
        &recovery.chain[..],
        &recovery.report,
        &recovery.extent,
        &recovery.storage,
        &recovery.program,
        &recovery.restart_arguments,
        &answer,
    ];
    Arena::new(random, areas)
}

fn by_library(model: u8, mut arena: RecoveryArena) -> RecoveryLeft {
    let [chain, report, extent, storage, program, arguments, answer] = arena.lent();
    let areas = RecoveryAreas {
        chain,
        report,
        extent,
        storage,
        restart: RestartAreas { program, arguments },
    };
    let number = library::recover(model, areas, answer);
    Left { number, arena }
}

/// An answer as the library writes it.
fn written(answer: &Answer) -> [u8; RECOVERY_ANSWER] {
    let (first, action) = match answer {
        Answer::Action1 => (library::ACTION_1, 0),
        Answer::Action2 | Answer::NotBuilt(..) => (library::ACTION_2, 0),
        Answer::Repeat => (library::REPEAT, 0),
        Answer::CorrectedOnly => (library::CORRECTED_ONLY, 0x05),
        Answer::Finished(_) => (library::FINISHED, 0x05),
        Answer::Restart(action) => (library::RESTART, written_action(*action)),
    };
    let mut bytes = [0; RECOVERY_ANSWER];
    bytes[..2].copy_from_slice(&[first, action]);
    if let Answer::Finished(csw) = answer {
        bytes[2..].copy_from_slice(csw);
    }
    bytes
}

fn written_action(action: RestartAction) -> u8 {
    match action {
        RestartAction::Five => 0x05,
        RestartAction::FiveA => 0x15,
        RestartAction::Eight => 0x08,
        RestartAction::Nine => 0x09,
        RestartAction::Ten => 0x0A,
        RestartAction::TenA => 0x1A,
        RestartAction::Eleven => 0x0B,
    }
}
