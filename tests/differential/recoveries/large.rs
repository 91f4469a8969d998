//! Recoveries with areas as long as they may be, and longer.

use crate::compare::{Comparison, Disagreement};
use crate::reports::GeneratedRecovery;
use crate::simulator::channel::CCW_LENGTH;
use crate::simulator::cut::LONGEST_READ;
use crate::simulator::encode;
use crate::simulator::model::Model;
use crate::simulator::report::Report;

const LONGEST_STORAGE: usize = 65_536;
const LONGEST_CHAIN: usize = 2_048;

pub fn compare_all(comparison: &mut Comparison) -> Result<(), Disagreement> {
    Model::ALL
        .iter()
        .try_for_each(|model| compare_on(comparison, model.number()))
}

fn compare_on(comparison: &mut Comparison, model: u8) -> Result<(), Disagreement> {
    let mut compare = |kind, recovery| {
        let recovery = GeneratedRecovery { model, ..recovery };
        comparison.recovery(kind, &recovery)
    };
    for error in [
        1,
        2,
        3,
        4,
        255,
        256,
        257,
        6_519,
        LONGEST_READ - 1,
        LONGEST_READ,
    ] {
        compare("13,038 bytes by one CCW", one_ccw(LONGEST_READ, error))?;
        compare("13,039 bytes by one CCW", one_ccw(LONGEST_READ + 1, error))?;
        for step in [0, 1, 2, 51, 200] {
            compare("256 CCWs in a read", many_ccws(step, error.min(13_005)))?;
        }
        compare("13,038 CCWs in a read", round(error))?;
    }
    for (name, lengthen) in LONGER {
        let mut recovery = many_ccws(200, 3);
        lengthen(&mut recovery);
        compare(name, recovery)?;
    }
    Ok(())
}

fn of(chain: Vec<u8>, csw: [u8; 8], restart: usize, error: usize) -> GeneratedRecovery {
    let mut sense = [0; 24];
    sense[..8].copy_from_slice(&[0x08, 0, 0x40, 0, 0, 0, 0, 0x53]);
    sense[15..18].copy_from_slice(&(restart as u32).to_be_bytes()[1..]);
    sense[18..20].copy_from_slice(&(error as u16).to_be_bytes());
    sense[20..23].copy_from_slice(&[0x81, 0x42, 0x24]);
    let report = Report {
        sense,
        csw,
        ..Report::default()
    };
    GeneratedRecovery {
        chain,
        report: encode::report(&report),
        extent: vec![0; 8],
        storage: vec![0xEE; LONGEST_STORAGE],
        ..GeneratedRecovery::default()
    }
}

/// A read to the end of storage, and a command behind it.
fn one_ccw(length: usize, error: usize) -> GeneratedRecovery {
    let address = LONGEST_STORAGE - length;
    let ccws = [
        encode::ccw(0x1E, address, 0x40, length as u16),
        encode::ccw(0x03, 0, 0, 1),
    ];
    let csw = [0, 0, 0, 8, 0x0E, 0, 0, 0];
    of(ccws.concat(), csw, length, error)
}

/// A chain that is one data chain: 255 CCWs of 51 bytes, each `step` behind the one before, then one
/// for which no byte is left.
fn many_ccws(step: usize, error: usize) -> GeneratedRecovery {
    let last = LONGEST_CHAIN / CCW_LENGTH - 1;
    let ccws: Vec<_> = (0..=last)
        .map(|place| {
            let (flags, count) = if place == last {
                (0x20, 84)
            } else {
                (0x80, 51)
            };
            encode::ccw(0x1E, place * step, flags, count)
        })
        .collect();
    let csw = [0, 0, 0x08, 0, 0x0E, 0, 0, 84];
    of(ccws.concat(), csw, 51 * last, error)
}

/// A data chain that goes round, one byte a turn.
fn round(error: usize) -> GeneratedRecovery {
    let ccws = [encode::ccw(0x1E, 7, 0x80, 1), encode::ccw(0x08, 0, 0, 0)];
    let csw = [0, 0, 0, 8, 0x0E, 0x40, 0, 1];
    of(ccws.concat(), csw, LONGEST_READ, error)
}

type Lengthen = (&'static str, fn(&mut GeneratedRecovery));

const LONGER: [Lengthen; 6] = [
    ("chain of 2,056 bytes", |recovery| {
        recovery.chain.resize(LONGEST_CHAIN + CCW_LENGTH, 0);
    }),
    ("storage of 65,537 bytes", |recovery| {
        recovery.storage.push(0)
    }),
    ("report of 65,600 bytes", |recovery| {
        recovery.report.resize(65_600, 0);
    }),
    ("restart program of 65 bytes", |recovery| {
        recovery.program.push(0)
    }),
    ("restart arguments of 17 bytes", |recovery| {
        recovery.restart_arguments.push(0);
    }),
    ("extent of 9 bytes", |recovery| recovery.extent.push(0)),
];
