//! Runs to their command limit over one track, and over the heads of a cylinder.

use crate::library::{self, ANSWER, LIMIT};
use crate::simulator::encode::ccw;
use crate::simulator::held::HeldRun;
use crate::simulator::large::{cylinder_of, track_of};
use crate::simulator::pack::LONGEST_RECORD;
use crate::simulator::run::End;
use crate::times::{measured, Times};

/// Runs of one measurement.
const CALLS: u32 = 10;

const STORAGE: usize = 65_536;

pub fn print() {
    println!(
        "{:<32}{:>10}{:>14}{:>14}{:>8}",
        "running a chain", "commands", "library ns", "simulator ns", "ratio"
    );
    for (name, held) in [
        ("255 records searched to the end", searched_to_the_end()),
        ("13,030 bytes read by one CCW", long_records()),
        ("1,020 bytes read by 255 CCWs", short_ccws()),
    ] {
        printed(name, held);
    }
    let heads = printed(
        "19 heads of 50 records by 92, 86",
        records_in_turn(0x92, 0x86),
    );
    let round = printed("19 times 50 records by 12, 06", records_in_turn(0x12, 0x06));
    println!(
        "{:<32}{:>10}{:>14.2}{:>14.2}",
        "  heads over one track",
        "",
        heads.library / round.library,
        heads.simulator / round.simulator
    );
}

fn printed(name: &str, held: HeldRun) -> Times {
    let limit = held.limit;
    let times = measured(CALLS, LIMIT, held, run_by_library, run_by_simulator);
    println!(
        "{name:<32}{limit:>10}{:>14.0}{:>14.0}{:>8.2}",
        times.library,
        times.simulator,
        times.ratio()
    );
    times
}

// Each run below goes on to its limit.

/// The last of 255 small records searched for from the index, again and again.
fn searched_to_the_end() -> HeldRun {
    let ccws = [
        ccw(0x31, 0, 0x40, 5),
        ccw(0x08, 0, 0, 0),
        ccw(0x03, 0, 0x40, 1),
        ccw(0x08, 0, 0, 0),
    ];
    HeldRun {
        chain: ccws.concat(),
        arguments: vec![0, 0, 0, 0, 255],
        storage: vec![0; STORAGE],
        image: track_of(255, 1),
        ..HeldRun::default()
    }
}

/// Records as long as they may be, each read by one CCW.
fn long_records() -> HeldRun {
    let ccws = [
        ccw(0x06, 0, 0x40, LONGEST_RECORD as u16),
        ccw(0x08, 0, 0, 0),
    ];
    HeldRun {
        chain: ccws.concat(),
        storage: vec![0; STORAGE],
        image: track_of(4, LONGEST_RECORD),
        limit: 400,
        ..HeldRun::default()
    }
}

/// Records each read by as many CCWs as a chain has room for, four bytes by each.
fn short_ccws() -> HeldRun {
    const CCWS: usize = 255;
    let mut chain = Vec::new();
    for place in 0..CCWS {
        let flags = if place == CCWS - 1 { 0x40 } else { 0x80 };
        chain.extend(ccw(0x06, 4 * place, flags, 4));
    }
    chain.extend(ccw(0x08, 0, 0, 0));
    HeldRun {
        chain,
        storage: vec![0; STORAGE],
        image: track_of(4, 4 * CCWS),
        limit: 100,
        ..HeldRun::default()
    }
}

/// 950 records of a cylinder, each by these two commands: from head to head by the multitrack forms, 19
/// times round the first track by the others.
fn records_in_turn(read_count: u8, read_data: u8) -> HeldRun {
    const DATA: usize = 30;
    let ccws = [
        ccw(read_count, 0, 0x40, 8),
        ccw(read_data, 8, 0x40, DATA as u16),
        ccw(0x08, 0, 0, 0),
    ];
    HeldRun {
        chain: ccws.concat(),
        storage: vec![0; STORAGE],
        image: cylinder_of(|_| 50, DATA),
        limit: 2 * 950,
        ..HeldRun::default()
    }
}

fn run_by_library(held: &mut HeldRun) -> u8 {
    library::run_held(held, &mut [0; ANSWER])
}

fn run_by_simulator(held: &mut HeldRun) -> u8 {
    match held.simulated().map(|outcome| outcome.end) {
        Ok(End::Limit) => LIMIT,
        Ok(_) => library::ENDED,
        Err(refusal) => refusal.number(),
    }
}
