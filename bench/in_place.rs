//! Recovery stores where it corrects and copies no storage out: its time does not grow with the record.

use crate::recoveries::{one_ccw, recovered_by_library, Workload, CALLS, FEW_BYTES};
use crate::simulator::pack::LONGEST_RECORD;
use crate::times::{ratios, Ratios};
use std::hint::black_box;
use std::process::ExitCode;

/// What the longest record may take by the time of a short one; what is aimed at.
const MOST: f64 = 2.0;
const GOAL: f64 = 1.1;

/// What a copy of the data area must come to, at least, by what the recovery itself comes to.
const TOLD: f64 = 1.5;

/// Prints the longest record's time by that of a short one, each read by one CCW; fails above `MOST`. The
/// same with the data area copied out and back must come out longer: else the measuring tells nothing.
pub fn check() -> ExitCode {
    println!(
        "{:<32}{:>10}{:>14}{:>14}",
        "13,030 bytes over 30", "median", "lowest", "highest"
    );
    let recovery = printed("recovery", |work| recovered_by_library(&mut work.held));
    let copying = printed("data area copied out and back", recovered_by_copying);
    println!("{:<32}{MOST:>10.2}{GOAL:>14.2}", "at most, and the goal");
    if recovery > MOST {
        eprintln!("bench: a recovery takes {recovery:.2} times as long for the longest record");
        return ExitCode::FAILURE;
    }
    if copying < TOLD * recovery {
        eprintln!(
            "bench: {copying:.2} with a copy of the data area: the measuring does not tell it"
        );
        return ExitCode::FAILURE;
    }
    ExitCode::SUCCESS
}

/// The median of the ratios.
fn printed(name: &str, recover: impl Fn(&mut Workload) -> u8) -> f64 {
    let [mut few, mut many] = [FEW_BYTES, LONGEST_RECORD].map(one_ccw);
    let over = ratios(CALLS, || recover(&mut many), || recover(&mut few));
    let Ratios {
        median,
        lowest,
        highest,
    } = over;
    println!("  {name:<30}{median:>10.2}{lowest:>14.2}{highest:>14.2}");
    median
}

/// The library's recovery, and the bytes of the read copied out of storage and back.
fn recovered_by_copying(work: &mut Workload) -> u8 {
    let number = recovered_by_library(&mut work.held);
    let read = &mut work.held.storage[..work.bytes];
    let out = black_box(read.to_vec());
    read.copy_from_slice(&out);
    number
}
