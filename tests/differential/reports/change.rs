//! Changes to one thing of a recovery. Some of them leave it as good as it was.

use super::interrupted::any_sense_6;
use super::{any_mask, any_seek_argument, any_tries, extent_around, Planned};
use crate::generate;
use crate::models::border_track;
use crate::random::Random;
use crate::simulator::channel::{
    CCW_LENGTH, CHANNEL_INCORRECT_LENGTH, FLAG_CHAIN_COMMAND, RESTART_PROGRAM,
};
use crate::simulator::cut::LONGEST_READ;
use crate::simulator::encode;
use crate::simulator::pack::TrackAddress;

pub fn changed(random: &mut Random, turn: usize, mut planned: Planned) -> (&'static str, Planned) {
    let (name, change) = CHANGES[turn % CHANGES.len()];
    change(random, &mut planned);
    (name, planned)
}

type Change = (&'static str, fn(&mut Random, &mut Planned));

const CHANGES: [Change; 50] = [
    ("sense 6 changed", |random, planned| {
        planned.report.sense[6] = any_sense_6(random);
    }),
    ("sense 7 changed", |random, planned| {
        planned.report.sense[7] ^= random.pick(&[0x01, 0x10, 0x40, 0x53, 0x80]);
    }),
    ("error displacement 0", |_, planned| {
        set_error_displacement(planned, 0)
    }),
    ("error displacement 1", |_, planned| {
        set_error_displacement(planned, 1)
    }),
    ("error displacement at restart", |_, planned| {
        let restart = planned.report.restart_displacement();
        set_error_displacement(planned, restart);
    }),
    ("error displacement past restart", |_, planned| {
        let restart = planned.report.restart_displacement();
        set_error_displacement(planned, restart + 1);
    }),
    ("error displacement far off", |random, planned| {
        planned.report.sense[18] ^= random.nonzero_byte();
    }),
    ("restart displacement one more", |_, planned| {
        let restart = planned.report.restart_displacement();
        set_restart_displacement(planned, restart + 1);
    }),
    ("restart displacement one less", |_, planned| {
        let restart = planned.report.restart_displacement();
        set_restart_displacement(planned, restart.saturating_sub(1));
    }),
    ("restart displacement's high byte", |random, planned| {
        planned.report.sense[15] = random.nonzero_byte();
    }),
    ("restart displacement at its limit", |random, planned| {
        set_restart_displacement(planned, LONGEST_READ + random.below(2));
    }),
    ("pattern changed", |random, planned| {
        planned.report.sense[20..23].copy_from_slice(&random.bytes(3));
    }),
    ("sector at its limit", |random, planned| {
        planned.report.sense[13] = random.pick(&[0, 127]);
    }),
    ("sector past its limit", |random, planned| {
        planned.report.sense[13] = random.pick(&[128, 200, 255]);
    }),
    ("CSW address 8 more", |_, planned| {
        let address = planned.report.address();
        set_address(planned, address + 8);
    }),
    ("CSW address 8 less", |_, planned| {
        let address = planned.report.address();
        set_address(planned, address.saturating_sub(8));
    }),
    ("CSW address no multiple of 8", |random, planned| {
        let address = planned.report.address();
        set_address(planned, address ^ random.within(1..=7));
    }),
    ("CSW address 0 or near it", |random, planned| {
        set_address(planned, random.below(9));
    }),
    ("CSW address at the chain's end", |random, planned| {
        let end = planned.chain.len();
        set_address(planned, end + random.below(2) * CCW_LENGTH);
    }),
    ("CSW address far off", |random, planned| {
        planned.report.csw[random.pick(&[1, 2])] ^= random.nonzero_byte();
    }),
    ("count left one more", |_, planned| {
        let count = planned.report.count_left();
        set_count_left(planned, count + 1);
    }),
    ("count left one less", |_, planned| {
        let count = planned.report.count_left();
        set_count_left(planned, count.wrapping_sub(1));
    }),
    ("count left far off", |random, planned| {
        planned.report.csw[6] ^= random.nonzero_byte();
    }),
    ("incorrect length changed", |_, planned| {
        planned.report.csw[5] ^= CHANNEL_INCORRECT_LENGTH;
    }),
    ("other status bits", |random, planned| {
        planned.report.csw[4] = random.byte();
        planned.report.csw[5] ^= random.byte() & !CHANNEL_INCORRECT_LENGTH;
    }),
    ("first CCW another", |random, planned| {
        let ccws = planned.chain.len() / CCW_LENGTH;
        planned.report.first = random.below(ccws) * CCW_LENGTH;
    }),
    ("first CCW no multiple of 8", |random, planned| {
        planned.report.first ^= random.within(1..=7);
    }),
    ("first CCW past the chain", |random, planned| {
        let past = [
            planned.chain.len(),
            planned.report.first | RESTART_PROGRAM,
            0xFFF8,
        ];
        planned.report.first = random.pick(&past);
    }),
    ("first CCW of another command", |random, planned| {
        let command = random.pick(&[0x02, 0x03, 0x07, 0x08, 0x12, 0x1A, 0x16, 0x92, 0xB1]);
        if let Some(byte) = planned.chain.get_mut(planned.report.first) {
            *byte = command;
        }
    }),
    ("track off the pack", |random, planned| {
        let at = random.pick(&[8, 10]);
        planned.report.sense[at] = random.pick(&[3, 4, 0xFF]);
        planned.report.sense[at + 1] = random.pick(&[0x2F, 0xFF]);
    }),
    ("track at the end of a pack", |random, planned| {
        let track = encode::track_address(border_track(random));
        planned.report.sense[8..12].copy_from_slice(&track);
    }),
    ("head off the pack", |_, planned| {
        planned.report.sense[11] = 19
    }),
    ("track elsewhere", |random, planned| {
        let track = encode::track_address(super::any_track(random, planned.model));
        planned.report.sense[8..12].copy_from_slice(&track);
    }),
    ("bytes that are not asked", |random, planned| {
        for at in [3, 4, 5, 12, 14, 23] {
            planned.report.sense[at] = random.byte();
        }
    }),
    ("bit of sense 0 to 2 changed", |random, planned| {
        planned.report.sense[random.below(3)] ^= 1 << random.below(8);
    }),
    ("no mask", |_, planned| planned.report.mask = None),
    ("other mask", |random, planned| {
        planned.report.mask = any_mask(random);
    }),
    ("mask bit changed", |random, planned| {
        let mask = planned.report.mask.unwrap_or(0);
        planned.report.mask = Some(mask ^ 1 << random.below(8));
    }),
    ("no seek argument", |_, planned| {
        planned.report.seek_argument = None;
    }),
    ("seek argument's first bytes", |random, planned| {
        let argument = planned.report.seek_argument.get_or_insert_default();
        argument[random.below(2)] = random.nonzero_byte();
    }),
    ("seek argument off the pack", |random, planned| {
        let argument = planned.report.seek_argument.get_or_insert_default();
        let off = [[0, 0, 0, 19], [0, 0, 1, 0], [0xFF; 4]];
        argument[2..].copy_from_slice(&random.pick(&off));
    }),
    ("seek argument at the end of a pack", |random, planned| {
        let argument = planned.report.seek_argument.get_or_insert_default();
        let track = encode::track_address(border_track(random));
        argument[2..].copy_from_slice(&track);
    }),
    ("other seek argument", |random, planned| {
        planned.report.seek_argument = Some(any_seek_argument(random, planned.model));
    }),
    ("other tries", |random, planned| {
        planned.report.tries = any_tries(random);
    }),
    ("other extent", |random, planned| {
        planned.extent = generate::extent(random, planned.model);
    }),
    ("extent at the track", |random, planned| {
        let track = TrackAddress::decode(&planned.report.sense[8..12]);
        planned.extent = extent_around(random, planned.model, track);
    }),
    ("chain ends behind the last CCW", |_, planned| {
        let end = planned.report.address();
        if end % CCW_LENGTH == 0 && end > 0 {
            planned.chain.truncate(end);
        }
    }),
    ("TIC behind the last CCW", |random, planned| {
        let length = planned.chain.len();
        let target = match random.below(4) {
            0 => random.below(length),
            1 => length + random.below(2) * RESTART_PROGRAM,
            _ => random.below(length / CCW_LENGTH) * CCW_LENGTH,
        };
        if let Some(ccw) = behind(planned) {
            let code = random.byte() & 0xF0 | 0x08;
            ccw.copy_from_slice(&encode::ccw(code, target, 0, 0));
        }
    }),
    ("any command behind the last CCW", |random, planned| {
        let command = random.byte();
        if let Some(ccw) = behind(planned) {
            ccw[0] = command;
        }
    }),
    ("CC of the last CCW changed", |_, planned| {
        let flags = planned.report.address().wrapping_sub(4);
        if let Some(flags) = planned.chain.get_mut(flags) {
            *flags ^= FLAG_CHAIN_COMMAND;
        }
    }),
];

fn set_error_displacement(planned: &mut Planned, displacement: usize) {
    let bytes = (displacement as u16).to_be_bytes();
    planned.report.sense[18..20].copy_from_slice(&bytes);
}

fn set_restart_displacement(planned: &mut Planned, displacement: usize) {
    let bytes = (displacement as u32).to_be_bytes();
    planned.report.sense[15..18].copy_from_slice(&bytes[1..]);
}

fn set_address(planned: &mut Planned, address: usize) {
    let bytes = (address as u32).to_be_bytes();
    planned.report.csw[1..4].copy_from_slice(&bytes[1..]);
}

fn set_count_left(planned: &mut Planned, count: usize) {
    let bytes = (count as u16).to_be_bytes();
    planned.report.csw[6..8].copy_from_slice(&bytes);
}

/// The CCW at the CSW's address.
fn behind(planned: &mut Planned) -> Option<&mut [u8]> {
    let at = planned.report.address();
    planned.chain.get_mut(at..at + CCW_LENGTH)
}
