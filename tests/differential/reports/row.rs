//! Reports for each row of the table and for none, and with any contents.

use super::{any_mask, any_planned, any_seek_argument, any_tries, extent_around, Planned};
use crate::random::Random;
use crate::simulator::channel::CCW_LENGTH;
use crate::simulator::pack::TrackAddress;
use crate::simulator::report::Report;
use crate::simulator::table::TABLE;

/// The bits of a row, and half of the time some bits besides; what else there is agrees with one of
/// the actions that ask for it.
pub fn planned(random: &mut Random, turn: usize) -> Planned {
    let mut planned = any_planned(random);
    take_turn(&mut planned.report, turn);
    for byte in &mut planned.report.sense[..3] {
        *byte |= match random.below(4) {
            0 => random.byte() & random.byte(),
            1 => 1 << random.below(8),
            _ => 0,
        };
    }
    planned.report.tries = any_tries(random);
    planned
}

/// Sense bytes 0 to 2 of the row whose turn it is; the last turn is that of no row.
pub fn take_turn(report: &mut Report, turn: usize) {
    report.sense[..3].fill(0);
    let row = TABLE.get(turn % (TABLE.len() + 1));
    let bits = row.map_or(OF_NO_ROW, |row| row.bits);
    for &(byte, bit) in bits {
        report.sense[byte] |= 0x80 >> bit;
    }
}

/// T4's.
const OF_NO_ROW: &[(usize, u8)] = &[(0, 4)];

/// A well formed report with nothing behind it.
pub fn any_contents(random: &mut Random) -> Planned {
    let mut planned = any_planned(random);
    let report = &mut planned.report;
    report.sense.copy_from_slice(&random.bytes(24));
    if random.once_in(2) {
        take_turn(report, random.below(TABLE.len() + 1));
    }
    report.csw[1..].copy_from_slice(&random.bytes(7));
    if random.once_in(2) {
        let ccws = planned.chain.len() / CCW_LENGTH;
        report.csw[1..3].fill(0);
        report.csw[3] = (random.within(0..=ccws) * CCW_LENGTH) as u8;
    }
    report.first = random.below(0x10000);
    report.mask = any_mask(random);
    report.seek_argument = match random.below(3) {
        0 => None,
        1 => Some(any_seek_argument(random, planned.model)),
        _ => random.bytes(6).try_into().ok(),
    };
    report.tries = random.byte();
    let track = TrackAddress::decode(&planned.report.sense[8..12]);
    planned.extent = extent_around(random, planned.model, track);
    planned
}
