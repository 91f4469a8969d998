//! The whole reading: run, recover, run on.

use super::areas::{check_restart, Area};
use super::channel::Restart;
use super::drive::Drive;
use super::pack::TrackAddress;
use super::recovery::{self, recover, Answer, Recovered, RestartAction};
use super::report::Report;
use super::run::{self, run_drive, Watch, RESTARTED_LIMIT};
use super::{check_extent, check_faults, encode, Refusal};

/// The areas that a reading only reads, and the number of the pack's model.
#[derive(Clone, Copy, Debug)]
pub struct Lent<'a> {
    pub run: run::Lent<'a>,
    pub extent: &'a [u8],
}

/// The areas that it may write.
pub use super::recovery::Areas;

/// A cut answered by a restart, "finished" or "corrected only".
#[derive(Clone, Debug, PartialEq, Eq)]
pub struct Recovery {
    pub cut: Report,
    pub recovered: Recovered,
}

impl Recovery {
    /// 5 or 5A.
    pub fn action(&self) -> RestartAction {
        match self.recovered.answer {
            Answer::Restart(action) => action,
            _ => RestartAction::Five,
        }
    }

    pub fn track(&self) -> TrackAddress {
        TrackAddress::decode(&self.cut.sense[8..12])
    }

    /// The record number R.
    pub fn number(&self) -> u8 {
        self.cut.sense[12]
    }
}

rules! {
    /// What there were too many of.
    LimitOf {
        Commands,
        Recoveries,
    }
}

/// Why a cut was not recovered from.
#[derive(Clone, Copy, Debug, PartialEq, Eq, PartialOrd, Ord)]
pub enum Stop {
    Action2,
    Refused(Refusal),
}

impl Stop {
    pub fn number(self) -> u8 {
        match self {
            Stop::Action2 => 2,
            Stop::Refused(refusal) => refusal.number(),
        }
    }
}

/// Why a reading ended.
#[derive(Clone, Copy, Debug, PartialEq, Eq, PartialOrd, Ord)]
pub enum End {
    /// As its last run, which was neither cut nor at its limit.
    Run(run::End),
    Finished,
    CorrectedOnly,
    Limit(LimitOf),
    Stopped(Stop),
}

#[derive(Clone, Debug, PartialEq, Eq)]
pub struct Reading {
    pub end: End,
    pub csw: [u8; 8],
    /// In order.
    pub recoveries: Vec<Recovery>,
}

/// Questions 1, 2, 3 and 5, then the reading. A refusal leaves all areas.
pub fn read(lent: Lent, areas: Areas, limit: usize) -> Result<Reading, Refusal> {
    read_watched(lent, areas, limit, &mut ())
}

/// The same, and `watch` is told of all its runs.
pub fn read_watched(
    lent: Lent,
    mut areas: Areas,
    limit: usize,
    watch: &mut impl Watch,
) -> Result<Reading, Refusal> {
    let model = lent.run.check(areas.storage.len(), limit)?;
    check_restart(areas.program.len(), areas.restart_arguments.len())?;
    Area::Extent.check(lent.extent.len())?;
    let (pack, faults) = check_faults(lent.run.model, lent.run.image, lent.run.faults)?;
    check_extent(lent.run.model, lent.extent)?;
    let drive = || Drive::new(&pack, &faults, model);
    let chain = lent.run.program(None);
    let mut outcome = run_drive(drive(), chain, areas.storage, limit, watch);
    let mut recoveries = Vec::new();
    let (end, csw) = loop {
        let Some(cut) = Report::of_cut(&outcome) else {
            break (of_run(outcome.end), outcome.csw);
        };
        if recoveries.len() == limit {
            break (End::Limit(LimitOf::Recoveries), outcome.csw);
        }
        let recovered = match recovered(lent, &mut areas, &cut) {
            Ok(recovered) => recovered,
            Err(stop) => break (End::Stopped(stop), outcome.csw),
        };
        let answer = recovered.answer.clone();
        recoveries.push(Recovery { cut, recovered });
        match answer {
            Answer::Finished(csw) => break (End::Finished, csw),
            Answer::CorrectedOnly => break (End::CorrectedOnly, outcome.csw),
            Answer::Restart(_) => (),
            _ => unreachable!("the sense of a cut sends to action 5"),
        }
        let restart = lent.run.program(Some(Restart {
            program: areas.program,
            arguments: areas.restart_arguments,
        }));
        outcome = run_drive(drive(), restart, areas.storage, RESTARTED_LIMIT, watch);
    };
    Ok(Reading {
        end,
        csw,
        recoveries,
    })
}

fn recovered(lent: Lent, areas: &mut Areas, cut: &Report) -> Result<Recovered, Stop> {
    let lent = recovery::Lent {
        model: lent.run.model,
        chain: lent.run.chain,
        report: &encode::report(cut),
        extent: lent.extent,
    };
    let areas = Areas {
        storage: areas.storage,
        program: areas.program,
        restart_arguments: areas.restart_arguments,
    };
    let recovered = recover(lent, areas).map_err(Stop::Refused)?;
    match recovered.answer {
        Answer::NotBuilt(..) => Err(Stop::Action2),
        _ => Ok(recovered),
    }
}

fn of_run(end: run::End) -> End {
    match end {
        run::End::Limit => End::Limit(LimitOf::Commands),
        end => End::Run(end),
    }
}

#[cfg(test)]
mod tests;
