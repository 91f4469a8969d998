//! A chain over the heads of a cylinder whose mask forbids steps: each protected step is reported, answered by 10A
//! and run on. Beside it the same chain under a mask that allows steps, which is one run.

use crate::library::{self, ANSWER};
use crate::simulator::encode::{self, ccw};
use crate::simulator::extent::whole_pack;
use crate::simulator::held::{HeldRecovery, HeldRestart, HeldRun, RECOVERY_ANSWER};
use crate::simulator::large::cylinder_of;
use crate::simulator::model::Model;
use crate::simulator::pack::LAST_HEAD;
use crate::simulator::report::Report;
use crate::times::{measured, Times};

/// Chains of one measurement.
const CALLS: u32 = 2;

const RECORDS: u8 = 50;
const DATA: usize = 30;

const FORBIDDEN: u8 = 0x18;
const ALLOWED: u8 = 0;

/// In sense byte 1.
const FILE_PROTECTED: u8 = 0x04;

pub fn print() {
    println!(
        "{:<32}{:>10}{:>14}{:>14}{:>8}",
        "19 heads of 50 records", "steps", "library ns", "simulator ns", "ratio"
    );
    let forbidden = printed("10A for each step", FORBIDDEN, LAST_HEAD as u8);
    let allowed = printed("steps allowed", ALLOWED, 0);
    println!(
        "{:<32}{:>10}{:>14.2}{:>14.2}",
        "  forbidden over allowed",
        "",
        forbidden.library / allowed.library,
        forbidden.simulator / allowed.simulator
    );
}

fn printed(name: &str, mask: u8, steps: u8) -> Times {
    let by_library = |held: &mut Held| held.run_on(run_by_library, recovered_by_library);
    let by_simulator = |held: &mut Held| held.run_on(run_by_simulator, recovered_by_simulator);
    let times = measured(CALLS, steps, Held::under(mask), by_library, by_simulator);
    println!(
        "{name:<32}{steps:>10}{:>14.0}{:>14.0}{:>8.2}",
        times.library,
        times.simulator,
        times.ratio()
    );
    times
}

#[derive(Clone, PartialEq)]
struct Held {
    run: HeldRun,
    recovery: HeldRecovery,
}

/// How a run ended.
struct Ended {
    csw: [u8; 8],
    sense: [u8; 24],
}

impl Held {
    /// Every record of cylinder 0 by 92 and 86, to the end of the cylinder.
    fn under(mask: u8) -> Held {
        let ccws = [
            ccw(0x1F, 0, 0x40, 1),
            ccw(0x92, 0, 0x40, 8),
            ccw(0x86, 8, 0x40, DATA as u16),
            ccw(0x08, 8, 0, 0),
        ];
        let run = HeldRun {
            chain: ccws.concat(),
            arguments: vec![mask],
            storage: vec![0; 8 + DATA],
            image: cylinder_of(|_| RECORDS, DATA),
            ..HeldRun::default()
        };
        let recovery = HeldRecovery {
            chain: run.chain.clone(),
            extent: whole_pack(Model::One).to_vec(),
            storage: run.storage.clone(),
            ..HeldRecovery::default()
        };
        Held { run, recovery }
    }

    /// Runs the chain from its first CCW to its end; the number of protected steps.
    fn run_on(
        &mut self,
        run: impl Fn(&mut HeldRun) -> Ended,
        recover: impl Fn(&mut HeldRecovery),
    ) -> u8 {
        let mut steps = 0;
        self.run.restart = None;
        loop {
            let ended = run(&mut self.run);
            if ended.sense[1] != FILE_PROTECTED {
                return steps;
            }
            steps += 1;
            self.recovery.report = encode::report(&Report {
                sense: ended.sense,
                csw: ended.csw,
                mask: Some(FORBIDDEN),
                seek_argument: Some([0; 6]),
                ..Report::default()
            });
            recover(&mut self.recovery);
            self.run.restart = Some(HeldRestart {
                program: self.recovery.program.clone(),
                arguments: self.recovery.restart_arguments.clone(),
            });
        }
    }
}

fn run_by_library(run: &mut HeldRun) -> Ended {
    let mut answer = [0; ANSWER];
    library::run_held(run, &mut answer);
    let (csw, behind) = answer.split_at(8);
    Ended {
        csw: csw.try_into().expect("eight bytes"),
        sense: behind[..24].try_into().expect("24 bytes"),
    }
}

fn run_by_simulator(run: &mut HeldRun) -> Ended {
    let outcome = run.simulated().expect("the run is not refused");
    Ended {
        csw: outcome.csw,
        sense: outcome.sense,
    }
}

fn recovered_by_library(recovery: &mut HeldRecovery) {
    library::recover_held(recovery, &mut [0; RECOVERY_ANSWER]);
}

fn recovered_by_simulator(recovery: &mut HeldRecovery) {
    recovery.simulated().expect("the report is not refused");
}
