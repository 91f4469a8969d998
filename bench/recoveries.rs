//! Recoveries by action 5: reads of few bytes and of many, by one CCW and by a full chain of them.

use crate::library;
use crate::simulator::answer;
use crate::simulator::encode::{self, ccw};
use crate::simulator::held::{HeldRecovery, RECOVERY_ANSWER};
use crate::simulator::pack::LONGEST_RECORD;
use crate::simulator::report::Report;
use crate::times::measured;

/// A cut whose correction changes the last three bytes of the read.
pub struct Workload {
    name: &'static str,
    pub bytes: usize,
    pub held: HeldRecovery,
}

/// Recoveries of one measurement.
pub const CALLS: u32 = 2_000;

const STORAGE: usize = 65_536;
const MOST_CCWS: usize = 256;
pub const FEW_BYTES: usize = 30;

pub fn print() {
    println!(
        "{:<32}{:>10}{:>14}{:>14}{:>8}",
        "recovering by action 5", "bytes", "library ns", "simulator ns", "ratio"
    );
    printed(one_ccw(FEW_BYTES));
    printed(one_ccw(LONGEST_RECORD));
    printed(full_chain());
}

fn printed(workload: Workload) {
    let Workload { name, bytes, held } = workload;
    let times = measured(
        CALLS,
        library::ANSWERED,
        held,
        recovered_by_library,
        recovered_by_simulator,
    );
    println!(
        "{name:<32}{bytes:>10}{:>14.0}{:>14.0}{:>8.2}",
        times.library,
        times.simulator,
        times.ratio()
    );
}

/// A 06 and a command behind it: the answer is a restart.
pub fn one_ccw(bytes: usize) -> Workload {
    let ccws = [ccw(0x06, 0, 0x40, bytes as u16), ccw(0x06, 0, 0, 1)];
    workload("read by one CCW", bytes, ccws.concat())
}

/// All CCWs that a chain has room for in one read; the answer is "finished".
fn full_chain() -> Workload {
    const EACH: usize = 50;
    let last = MOST_CCWS - 1;
    let ccws: Vec<_> = (0..=last)
        .map(|place| {
            let flags = if place == last { 0 } else { 0x80 };
            ccw(0x06, EACH * place, flags, EACH as u16)
        })
        .collect();
    workload("read by 256 CCWs", EACH * MOST_CCWS, ccws.concat())
}

/// A read from the chain's first CCW on; the one that ends it has its bit 80 off.
fn workload(name: &'static str, bytes: usize, chain: Vec<u8>) -> Workload {
    let ccws = chain.chunks(8);
    let chained = ccws.take_while(|ccw| ccw[4] & 0x80 != 0).count();
    let [_, a0, a1, a2] = (8 * (chained as u32 + 1)).to_be_bytes();
    let mut sense = [0; 24];
    sense[..8].copy_from_slice(&[0x08, 0, 0x40, 0, 0, 0, 0, 0x53]);
    sense[15..18].copy_from_slice(&(bytes as u32).to_be_bytes()[1..]);
    sense[19..23].copy_from_slice(&[3, 1, 2, 4]);
    let report = Report {
        sense,
        csw: [0, a0, a1, a2, 0x0E, 0, 0, 0],
        ..Report::default()
    };
    let held = HeldRecovery {
        chain,
        report: encode::report(&report),
        extent: vec![0; 8],
        storage: vec![0; STORAGE],
        ..HeldRecovery::default()
    };
    Workload { name, bytes, held }
}

pub fn recovered_by_library(held: &mut HeldRecovery) -> u8 {
    library::recover_held(held, &mut [0; RECOVERY_ANSWER])
}

pub fn recovered_by_simulator(held: &mut HeldRecovery) -> u8 {
    answer(&held.simulated())
}
