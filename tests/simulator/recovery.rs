//! Recovery from one report.

use super::areas::{check_recovery, RecoverySizes};
use super::channel::{Ccw, FLAG_CHAIN_COMMAND};
use super::correct::{self, Fate};
use super::cut::CutRead;
use super::extent::Extent;
use super::interrupted::{
    next_command, next_cylinder, next_track, sought, track_reached, Interrupted,
};
use super::model::Model;
use super::overflow::OverflowRead;
use super::pack::TrackAddress;
use super::report::Report;
use super::restart::{self, read_count_before, BuiltRestart};
use super::table::{self, Action};
use super::Refusal;

/// Sense 7 of a data check in a data area.
pub const DATA_AREA_FORMAT: u8 = 0x53;

/// Tries under which action 4 repeats.
const MOST_TRIES: u8 = 10;

/// The areas that a recovery only reads, and the number of the pack's model.
#[derive(Clone, Copy, Debug)]
pub struct Lent<'a> {
    pub model: u8,
    pub chain: &'a [u8],
    pub report: &'a [u8],
    pub extent: &'a [u8],
}

/// The areas that it may write.
pub struct Areas<'a> {
    pub storage: &'a mut [u8],
    pub program: &'a mut [u8],
    pub restart_arguments: &'a mut [u8],
}

impl Areas<'_> {
    /// The same areas, which the lender has again afterwards.
    fn lent_on(&mut self) -> Areas<'_> {
        Areas {
            storage: self.storage,
            program: self.program,
            restart_arguments: self.restart_arguments,
        }
    }
}

rules! {
    /// The actions that restart.
    RestartAction {
        Five,
        FiveA,
        Eight,
        Nine,
        Ten,
        TenA,
        Eleven,
    }
}

rules! {
    /// Why a restart is not built.
    NotBuilt {
        OffThePack,
        OutsideTheExtent,
    }
}

#[derive(Clone, Debug, PartialEq, Eq)]
pub enum Answer {
    Action1,
    Action2,
    /// Action 2 instead of a restart; nothing is written.
    NotBuilt(RestartAction, NotBuilt),
    Repeat,
    CorrectedOnly,
    /// With this CSW.
    Finished([u8; 8]),
    Restart(RestartAction),
}

/// What action 5 did to storage.
#[derive(Clone, Debug, PartialEq, Eq)]
pub struct Correction {
    pub read: CutRead,
    /// Of the pattern bytes in order.
    pub fates: [Fate; 3],
}

#[derive(Clone, Debug, PartialEq, Eq)]
pub struct Recovered {
    /// Place of the row in the table.
    pub row: usize,
    pub answer: Answer,
    /// None where storage was not to be corrected.
    pub correction: Option<Correction>,
}

/// Questions 1 and 4 to 9, then the action. A refusal leaves all areas.
pub fn recover(lent: Lent, mut areas: Areas) -> Result<Recovered, Refusal> {
    let without_overflow = recover_without_overflow(lent, areas.lent_on());
    let Err(Refusal::Action(action @ (Action::Nine | Action::Eleven))) = without_overflow else {
        return without_overflow;
    };
    let (row, case) = Case::of(lent)?;
    let decision = match action {
        Action::Nine => case.action_9(areas.storage.len())?,
        _ => case.action_11(areas.storage.len())?,
    };
    Ok(Recovered {
        row,
        answer: decision.carried_out(areas),
        correction: None,
    })
}

/// The same where actions 9 and 11 are not built: they are number 7, as 6, 6A and 7 are. "Every report
/// whose row gives another action" gets this answer.
pub fn recover_without_overflow(lent: Lent, areas: Areas) -> Result<Recovered, Refusal> {
    Model::check(lent.model)?;
    check_recovery(RecoverySizes {
        chain: lent.chain.len(),
        extent: lent.extent.len(),
        storage: areas.storage.len(),
        program: areas.program.len(),
        restart_arguments: areas.restart_arguments.len(),
    })?;
    let (row, case) = Case::of(lent)?;
    let mut correction = None;
    let decision = match table::TABLE[row].action {
        Action::One => Decision::Answer(Answer::Action1),
        Action::Two => Decision::Answer(Answer::Action2),
        Action::Three => repeat_if(case.report.tries == 0),
        Action::Four => repeat_if(case.report.tries < MOST_TRIES),
        Action::Five => {
            let (decision, read) = case.action_5(areas.storage.len())?;
            if decision.corrects() {
                let fates = correct::fates(&read, &case.report);
                correct::mend(areas.storage, fates, case.report.pattern());
                correction = Some(Correction { read, fates });
            }
            decision
        }
        Action::Eight => case.action_8()?,
        Action::Ten => case.action_10()?,
        unknown => return Err(Refusal::Action(unknown)),
    };
    Ok(Recovered {
        row,
        answer: decision.carried_out(areas),
        correction,
    })
}

enum Decision {
    Answer(Answer),
    Restart(RestartAction, BuiltRestart),
}

impl Decision {
    /// Of action 5: whether storage is corrected.
    fn corrects(&self) -> bool {
        !matches!(self, Decision::Answer(Answer::NotBuilt(..)))
    }

    fn carried_out(self, areas: Areas) -> Answer {
        match self {
            Decision::Answer(answer) => answer,
            Decision::Restart(action, built) => {
                areas.program.copy_from_slice(&built.program);
                areas.restart_arguments.copy_from_slice(&built.arguments);
                Answer::Restart(action)
            }
        }
    }
}

fn repeat_if(again: bool) -> Decision {
    Decision::Answer(if again {
        Answer::Repeat
    } else {
        Answer::Action1
    })
}

/// A report with the areas that it is judged by.
struct Case<'a> {
    chain: &'a [u8],
    report: Report,
    extent: Extent,
    model: Model,
}

impl<'a> Case<'a> {
    /// Questions 4, 5 and 6; the row's place in the table is told beside the case.
    fn of(lent: Lent<'a>) -> Result<(usize, Case<'a>), Refusal> {
        let model = Model::check(lent.model)?;
        let report = Report::decode(lent.report).map_err(Refusal::Report)?;
        let extent = Extent::decode(lent.extent, model).map_err(Refusal::Extent)?;
        let row = table::row_of(&report.sense).ok_or(Refusal::NoRow)?;
        let case = Case {
            chain: lent.chain,
            report,
            extent,
            model,
        };
        Ok((row, case))
    }

    fn action_5(&self, storage: usize) -> Result<(Decision, CutRead), Refusal> {
        let report = &self.report;
        if report.sense[7] != DATA_AREA_FORMAT {
            return Err(Refusal::SenseFormat);
        }
        let read = CutRead::of(self.chain, report, storage)?;
        let current = read.end.ccw;
        let decision = if report.is_pci_fetch_mode() {
            Decision::Answer(Answer::CorrectedOnly)
        } else if read.end.is_incorrect_length() || !current.has(FLAG_CHAIN_COMMAND) {
            Decision::Answer(Answer::Finished(report.csw_less_unit_check()))
        } else {
            let next = next_command(self.chain, current.behind())?;
            self.behind_the_record(&next)
        };
        Ok((decision, read))
    }

    fn behind_the_record(&self, next: &Ccw) -> Decision {
        let action = match read_count_before(next) {
            Some(_) => RestartAction::FiveA,
            None => RestartAction::Five,
        };
        let &[c0, c1, h0, h1, number] = &self.report.sense[8..13] else {
            unreachable!("five bytes");
        };
        let track = TrackAddress::decode(&[c0, c1, h0, h1]);
        let (mask, sector) = (self.report.mask, self.report.sector());
        self.if_allowed(action, track, || {
            restart::behind_record([c0, c1, h0, h1, number], mask, sector, next)
        })
    }

    fn action_8(&self) -> Result<Decision, Refusal> {
        let interrupted = self.interrupted()?;
        let track = next_cylinder(interrupted.track);
        Ok(self.from_home_address(RestartAction::Eight, track, &interrupted.ccw))
    }

    fn action_10(&self) -> Result<Decision, Refusal> {
        let interrupted = self.interrupted()?;
        if interrupted.is_seek() {
            let next = interrupted.next_of_seek(self.chain)?;
            return Ok(self.from_home_address(RestartAction::Ten, interrupted.track, &next));
        }
        let track = next_track(interrupted.track_reached(&self.report)?);
        Ok(self.from_home_address(RestartAction::TenA, track, &interrupted.ccw))
    }

    fn interrupted(&self) -> Result<Interrupted, Refusal> {
        Interrupted::of(self.chain, &self.report, self.model)
    }

    fn from_home_address(&self, action: RestartAction, track: TrackAddress, to: &Ccw) -> Decision {
        self.if_allowed(action, track, || {
            restart::from_home_address(track, self.report.mask, to)
        })
    }

    fn action_9(&self, storage: usize) -> Result<Decision, Refusal> {
        let track = next_cylinder(self.sought()?);
        self.through_ccw_1(RestartAction::Nine, track, storage)
    }

    /// At a seek too: it is a CCW of the data chain like any other.
    fn action_11(&self, storage: usize) -> Result<Decision, Refusal> {
        let track = next_track(track_reached(self.sought()?, &self.report)?);
        self.through_ccw_1(RestartAction::Eleven, track, storage)
    }

    fn sought(&self) -> Result<TrackAddress, Refusal> {
        sought(&self.report, self.model).map_err(Refusal::Interrupted)
    }

    /// All that is number 9 comes before action 2.
    fn through_ccw_1(
        &self,
        action: RestartAction,
        track: TrackAddress,
        storage: usize,
    ) -> Result<Decision, Refusal> {
        let read = OverflowRead::of(self.chain, &self.report, storage)?;
        let next = read.next(self.chain)?;
        let mask = self.report.mask;
        Ok(self.if_allowed(action, track, || {
            restart::through_ccw_1(track, mask, &read, next.as_ref())
        }))
    }

    /// The restart, unless its seek may not be.
    fn if_allowed(
        &self,
        action: RestartAction,
        track: TrackAddress,
        build: impl FnOnce() -> BuiltRestart,
    ) -> Decision {
        let not_built = |why| Decision::Answer(Answer::NotBuilt(action, why));
        if !track.on_pack(self.model) {
            not_built(NotBuilt::OffThePack)
        } else if !self.extent.contains(track) {
            not_built(NotBuilt::OutsideTheExtent)
        } else {
            Decision::Restart(action, build())
        }
    }
}

#[cfg(test)]
mod tests;
