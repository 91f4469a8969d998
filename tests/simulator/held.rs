//! All that is lent to a call, held in one place: as it is lent, then as the call leaves it.

use super::channel::Restart;
use super::model::Model;
use super::reading::{self, read, Reading};
use super::recovery::{self, recover, Areas, Recovered};
use super::run::{self, run_restarted_watched, run_watched, Outcome, Watch};
use super::Refusal;

/// The most commands that a chain's run may have.
pub const MOST_COMMANDS: usize = 4_096;

/// Bytes of the area that a recovery answers in: the answer, its action, a CSW.
pub const RECOVERY_ANSWER: usize = 1 + 1 + 8;

/// Bytes of the area that a reading answers in: CSW, number of recoveries, the number that stopped
/// it.
pub const READING_ANSWER: usize = 8 + 2 + 1;

/// Bytes of a reading's list for each recovery: action, cylinder, head, R.
pub const RECOVERY_ENTRY: usize = 1 + 2 + 2 + 1;

/// What the areas of a restart hold where nothing is said of them.
const KEPT: u8 = 0xA5;

/// The model, the areas and the limit of a run.
#[derive(Clone, Debug, PartialEq, Eq)]
pub struct HeldRun {
    /// The number that the caller gives.
    pub model: u8,
    pub chain: Vec<u8>,
    pub arguments: Vec<u8>,
    pub storage: Vec<u8>,
    pub image: Vec<u8>,
    pub faults: Vec<u8>,
    /// The chain's; a restarted run has its own.
    pub limit: usize,
    pub restart: Option<HeldRestart>,
}

/// The areas that a restarted run has besides.
#[derive(Clone, Debug, Default, PartialEq, Eq)]
pub struct HeldRestart {
    pub program: Vec<u8>,
    pub arguments: Vec<u8>,
}

/// The model and the areas of a recovery.
#[derive(Clone, Debug, PartialEq, Eq)]
pub struct HeldRecovery {
    /// The number that the caller gives.
    pub model: u8,
    pub chain: Vec<u8>,
    pub report: Vec<u8>,
    pub extent: Vec<u8>,
    pub storage: Vec<u8>,
    pub program: Vec<u8>,
    pub restart_arguments: Vec<u8>,
    pub answer_length: usize,
}

/// The model, the areas and the limit of a reading.
#[derive(Clone, Debug, PartialEq, Eq)]
pub struct HeldReading {
    /// The number that the caller gives.
    pub model: u8,
    pub chain: Vec<u8>,
    pub arguments: Vec<u8>,
    pub storage: Vec<u8>,
    pub image: Vec<u8>,
    pub faults: Vec<u8>,
    pub extent: Vec<u8>,
    pub limit: usize,
    pub program: Vec<u8>,
    pub restart_arguments: Vec<u8>,
    pub list_length: usize,
    pub answer_length: usize,
}

// By default: model 1; no bytes, but as many as there must be where one length alone is allowed; the
// highest limit.

impl Default for HeldRun {
    fn default() -> HeldRun {
        HeldRun {
            model: Model::One.number(),
            chain: Vec::new(),
            arguments: Vec::new(),
            storage: Vec::new(),
            image: Vec::new(),
            faults: Vec::new(),
            limit: MOST_COMMANDS,
            restart: None,
        }
    }
}

impl Default for HeldRecovery {
    fn default() -> HeldRecovery {
        HeldRecovery {
            model: Model::One.number(),
            chain: Vec::new(),
            report: Vec::new(),
            extent: Vec::new(),
            storage: Vec::new(),
            program: vec![KEPT; 64],
            restart_arguments: vec![KEPT; 16],
            answer_length: RECOVERY_ANSWER,
        }
    }
}

impl Default for HeldReading {
    fn default() -> HeldReading {
        HeldReading::of_run(HeldRun::default(), Vec::new())
    }
}

impl HeldRun {
    /// What the simulator says of it; storage is left as the run leaves it.
    pub fn simulated(&mut self) -> Result<Outcome, Refusal> {
        self.watched(&mut ())
    }

    /// The same, and `watch` is told of the run.
    pub fn watched(&mut self, watch: &mut impl Watch) -> Result<Outcome, Refusal> {
        let lent = run::Lent {
            model: self.model,
            chain: &self.chain,
            arguments: &self.arguments,
            image: &self.image,
            faults: &self.faults,
        };
        match &self.restart {
            None => run_watched(lent, &mut self.storage, self.limit, watch),
            Some(restart) => {
                let restart = Restart {
                    program: &restart.program,
                    arguments: &restart.arguments,
                };
                run_restarted_watched(lent, restart, &mut self.storage, watch)
            }
        }
    }
}

impl HeldRecovery {
    /// What the simulator says of it; the areas are left as the recovery leaves them.
    pub fn simulated(&mut self) -> Result<Recovered, Refusal> {
        let lent = recovery::Lent {
            model: self.model,
            chain: &self.chain,
            report: &self.report,
            extent: &self.extent,
        };
        let areas = Areas {
            storage: &mut self.storage,
            program: &mut self.program,
            restart_arguments: &mut self.restart_arguments,
        };
        recover(lent, areas)
    }
}

impl HeldReading {
    /// From what its runs are lent.
    pub fn of_run(run: HeldRun, extent: Vec<u8>) -> HeldReading {
        HeldReading {
            model: run.model,
            chain: run.chain,
            arguments: run.arguments,
            storage: run.storage,
            image: run.image,
            faults: run.faults,
            extent,
            limit: run.limit,
            program: vec![KEPT; 64],
            restart_arguments: vec![KEPT; 16],
            list_length: RECOVERY_ENTRY * run.limit,
            answer_length: READING_ANSWER,
        }
    }

    /// What its runs are lent.
    pub fn into_run(self) -> HeldRun {
        HeldRun {
            model: self.model,
            chain: self.chain,
            arguments: self.arguments,
            storage: self.storage,
            image: self.image,
            faults: self.faults,
            limit: self.limit,
            restart: None,
        }
    }

    /// What the simulator says of it; the areas are left as the reading leaves them.
    pub fn simulated(&mut self) -> Result<Reading, Refusal> {
        let lent = reading::Lent {
            run: run::Lent {
                model: self.model,
                chain: &self.chain,
                arguments: &self.arguments,
                image: &self.image,
                faults: &self.faults,
            },
            extent: &self.extent,
        };
        let areas = Areas {
            storage: &mut self.storage,
            program: &mut self.program,
            restart_arguments: &mut self.restart_arguments,
        };
        read(lent, areas, self.limit)
    }
}
