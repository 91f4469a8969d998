//! Recoveries by action 9: reads cut inside one CCW and inside the last of many; and the longest walk there is.

use crate::library;
use crate::recoveries::{recovered_by_library, recovered_by_simulator};
use crate::simulator::encode::{self, ccw};
use crate::simulator::held::HeldRecovery;
use crate::simulator::report::Report;
use crate::times::measured;
use std::time::Instant;

/// Recoveries of one measurement.
const CALLS: u32 = 2_000;

/// Of times the least one counts.
const REPEATS: usize = 5;

const STORAGE: usize = 65_536;
const EACH: usize = 50;
const LEFT: u16 = 20;
const LONGEST: u32 = 0xFF_FFFF;

pub fn print() {
    println!(
        "{:<32}{:>10}{:>14}{:>14}{:>8}",
        "recovering by action 9", "CCWs", "library ns", "simulator ns", "ratio"
    );
    for ccws in [1, 16, 255] {
        printed(ccws);
    }
    println!(
        "  {LONGEST} CCWs of one byte: {:.0} ms",
        longest_walk() * 1_000.0
    );
}

fn printed(ccws: usize) {
    let times = measured(
        CALLS,
        library::ANSWERED,
        data_chained(ccws),
        recovered_by_library,
        recovered_by_simulator,
    );
    println!(
        "{:<32}{ccws:>10}{:>14.0}{:>14.0}{:>8.2}",
        "  read cut inside the last CCW",
        times.library,
        times.simulator,
        times.ratio()
    );
}

/// A read by so many CCWs, cut inside the last one, which chains to a command.
fn data_chained(ccws: usize) -> HeldRecovery {
    let last = ccws - 1;
    let read = (0..ccws).map(|place| {
        let flags = if place == last { 0x40 } else { 0x80 };
        ccw(0x06, EACH * place, flags, EACH as u16)
    });
    let behind = ccw(0x06, 0, 0, 1);
    let chain: Vec<_> = read.chain([behind]).collect();
    let displacement = EACH * ccws - usize::from(LEFT);
    cut(chain.concat(), displacement as u32, 8 * ccws as u32, LEFT)
}

/// A CCW of one byte that chains data to itself by a TIC, gone round as often as the restart displacement can say.
fn longest_walk() -> f64 {
    let chain = [ccw(0x06, 0, 0x80, 1), ccw(0x08, 0, 0, 0)];
    let mut held = cut(chain.concat(), LONGEST, 8, 1);
    (0..REPEATS)
        .map(|_| {
            let start = Instant::now();
            assert_eq!(recovered_by_library(&mut held), library::ANSWERED);
            start.elapsed().as_secs_f64()
        })
        .fold(f64::INFINITY, f64::min)
}

/// The read of the chain's first CCW, cut at a restart displacement, with this address and count in the CSW.
fn cut(chain: Vec<u8>, displacement: u32, address: u32, left: u16) -> HeldRecovery {
    let mut sense = [0; 24];
    sense[..4].copy_from_slice(&[0, 0x21, 0, 0x06]);
    sense[15..18].copy_from_slice(&displacement.to_be_bytes()[1..]);
    let [_, a0, a1, a2] = address.to_be_bytes();
    let [c0, c1] = left.to_be_bytes();
    let report = Report {
        sense,
        csw: [0, a0, a1, a2, 0x0E, 0, c0, c1],
        seek_argument: Some([0; 6]),
        ..Report::default()
    };
    HeldRecovery {
        chain,
        report: encode::report(&report),
        extent: vec![0, 0, 0, 0, 0, 1, 0, 0],
        storage: vec![0; STORAGE],
        ..HeldRecovery::default()
    }
}
