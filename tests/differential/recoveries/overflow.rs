//! Reports that send to actions 9 and 11: small ones of which every one of a kind is tried, generated ones,
//! and reads as long as a displacement can tell.

use super::exhaustive::{each_byte, each_length, each_other_model, Kinds};
use crate::compare::{Comparison, Disagreement};
use crate::generate::tracks_of;
use crate::models::{border_tracks, borders_on};
use crate::random::Random;
use crate::reports::{overflow, GeneratedRecovery};
use crate::simulator::channel::{
    CCW_LENGTH, FLAG_CHAIN_COMMAND, FLAG_CHAIN_DATA, FLAG_SKIP, FLAG_SUPPRESS_LENGTH,
};
use crate::simulator::encode::{self, ccw};
use crate::simulator::extent::whole_pack;
use crate::simulator::large::track_at;
use crate::simulator::model::Model;
use crate::simulator::pack::{TrackAddress, LAST_HEAD};
use crate::simulator::report::Report;

/// Data chains generated. Each is reported as it is and with a change; every kind of change is made in its
/// turn, at least 120 times for each action.
const TURNS: usize = 50_000;

pub fn compare_all(comparison: &mut Comparison, random: &mut Random) -> Result<(), Disagreement> {
    for sense_1 in [NINE, ELEVEN] {
        let base = reported(sense_1, &CHAIN, PART_READ);
        each_byte(comparison, KINDS, |model| base.recovery(model))?;
        each_length(comparison, KINDS, |model| base.recovery(model))?;
        each_other_model(comparison, |model| base.recovery(model))?;
        each_mask(comparison, &base)?;
        for &model in Model::ALL {
            each_track(comparison, &base, model)?;
            each_sense_6(comparison, &base, model)?;
        }
        each_border_track(comparison, &base)?;
        each_command_behind(comparison, sense_1)?;
        each_pair_of_flags(comparison, sense_1)?;
        each_end(comparison, sense_1)?;
        long_reads(comparison, sense_1)?;
    }
    for turn in 0..TURNS {
        for (kind, recovery) in overflow::generated(random, turn) {
            comparison.recovery(kind, &recovery)?;
        }
    }
    Ok(())
}

const KINDS: Kinds = Kinds {
    byte_set: "overflow record, one byte set",
    report_cut: "overflow record, report cut",
    storage_cut: "overflow record, storage cut",
};

/// Sense 1.
const NINE: u8 = 0x21;
const ELEVEN: u8 = 0x05;

const CD: u8 = FLAG_CHAIN_DATA;
const CC: u8 = FLAG_CHAIN_COMMAND;

/// Where a read was interrupted.
#[derive(Clone, Copy)]
struct At {
    restart: usize,
    /// Address of the interrupted CCW.
    ccw: usize,
    left: usize,
}

/// 4 bytes, 2 of the 6 bytes behind a TIC; 6 more bytes would be read.
const CHAIN: [[u8; 8]; 5] = [
    ccw(0x0E, 0, CD, 4),
    ccw(0x08, 0x18, 0, 0),
    ccw(0x03, 0, 0, 1),
    ccw(0x07, 4, CD | CC, 6),
    ccw(0x06, 10, FLAG_SUPPRESS_LENGTH, 6),
];
const PART_READ: At = At {
    restart: 6,
    ccw: 0x18,
    left: 4,
};

/// A chain whose read begins with its first CCW, and its report.
struct Reported {
    chain: Vec<u8>,
    storage: usize,
    report: Report,
}

impl Reported {
    /// In an extent of the whole pack.
    fn recovery(&self, model: Model) -> GeneratedRecovery {
        GeneratedRecovery {
            model: model.number(),
            chain: self.chain.clone(),
            report: encode::report(&self.report),
            extent: whole_pack(model).to_vec(),
            storage: vec![0xEE; self.storage],
            ..GeneratedRecovery::default()
        }
    }

    fn set_track(&mut self, track: TrackAddress) {
        let [c0, c1, h0, h1] = encode::track_address(track);
        self.report.seek_argument = Some([0, 0, c0, c1, h0, h1]);
    }
}

fn reported(sense_1: u8, ccws: &[[u8; CCW_LENGTH]], at: At) -> Reported {
    let mut sense = [0; 24];
    sense[1] = sense_1;
    sense[3] = 0x06;
    sense[6] = 2;
    sense[15..18].copy_from_slice(&(at.restart as u32).to_be_bytes()[1..]);
    let [_, a0, a1, a2] = ((at.ccw + CCW_LENGTH) as u32).to_be_bytes();
    let [c0, c1] = (at.left as u16).to_be_bytes();
    Reported {
        chain: ccws.concat(),
        storage: 16,
        report: Report {
            sense,
            csw: [0, a0, a1, a2, 0x0E, 0x40, c0, c1],
            first: 0,
            mask: Some(0xC0),
            seek_argument: Some([0, 0, 0, 8, 0, 1]),
            tries: 0,
        },
    }
}

/// None, and each mask.
fn each_mask(comparison: &mut Comparison, base: &Reported) -> Result<(), Disagreement> {
    for mask in (0..=255).map(Some).chain([None]) {
        let mut recovery = base.recovery(comparison.any_model());
        let report = Report {
            mask,
            ..base.report.clone()
        };
        recovery.report = encode::report(&report);
        comparison.recovery("overflow record, each mask", &recovery)?;
    }
    Ok(())
}

/// Each track of the pack, and some behind it, in tag 14, its head in sense 6 too; every third in an extent
/// that ends with it.
fn each_track(
    comparison: &mut Comparison,
    base: &Reported,
    model: Model,
) -> Result<(), Disagreement> {
    let behind = usize::from(LAST_HEAD) + 1;
    let mut reported = reported(base.report.sense[1], &CHAIN, PART_READ);
    for place in 0..tracks_of(model) + behind {
        let track = track_at(place);
        reported.set_track(track);
        reported.report.sense[6] = track.head as u8;
        let mut recovery = reported.recovery(model);
        if place % 3 == 0 && place < tracks_of(model) {
            recovery.extent[4..].copy_from_slice(&encode::track_address(track));
        }
        comparison.recovery("overflow record, each track", &recovery)?;
    }
    Ok(())
}

/// Each track at the end of a pack in tag 14, the last head reached or another.
fn each_border_track(comparison: &mut Comparison, base: &Reported) -> Result<(), Disagreement> {
    let mut reported = reported(base.report.sense[1], &CHAIN, PART_READ);
    for (model, track) in border_tracks() {
        reported.set_track(track);
        for head in [0, LAST_HEAD] {
            reported.report.sense[6] = head as u8;
            let recovery = reported.recovery(model);
            comparison.recovery("overflow record, each border track", &recovery)?;
        }
    }
    Ok(())
}

/// Each value of sense 6 with heads of tag 14 that differ from it, on the first cylinder, at the end of the
/// pack and where one of another model ends.
fn each_sense_6(
    comparison: &mut Comparison,
    base: &Reported,
    model: Model,
) -> Result<(), Disagreement> {
    let mut reported = reported(base.report.sense[1], &CHAIN, PART_READ);
    let cylinders = [0, model.last_cylinder() - 1];
    for &cylinder in cylinders.iter().chain(borders_on(model)) {
        for head in [0, LAST_HEAD, LAST_HEAD + 1] {
            reported.set_track(TrackAddress { cylinder, head });
            for sense_6 in 0..=255 {
                reported.report.sense[6] = sense_6;
                let recovery = reported.recovery(model);
                comparison.recovery("overflow record, each sense 6", &recovery)?;
            }
        }
    }
    Ok(())
}

/// Each command behind the interrupted CCW, whichever way that chains.
fn each_command_behind(comparison: &mut Comparison, sense_1: u8) -> Result<(), Disagreement> {
    for flags in [0, CC, CD, CD | CC] {
        for command in 0..=255 {
            for target in [0x00, 0x08, 0x18, 0x20, 0x24, 0x28] {
                let mut ccws = CHAIN;
                ccws[3][4] = flags;
                ccws[4][0] = command;
                ccws[4][3] = target;
                let recovery = reported(sense_1, &ccws, PART_READ).recovery(comparison.any_model());
                comparison.recovery("overflow record, each command behind", &recovery)?;
            }
        }
    }
    Ok(())
}

/// A read by two CCWs of 2 and 3 bytes with all their flags, after each number of bytes; a third CCW may
/// follow.
fn each_pair_of_flags(comparison: &mut Comparison, sense_1: u8) -> Result<(), Disagreement> {
    let flags = || (0..=0xFF).step_by(0x08);
    for (first, second) in flags().flat_map(|one| flags().map(move |other| (one, other))) {
        let ccws = [
            ccw(0x06, 0, first, 2),
            ccw(0x06, 2, second, 3),
            ccw(0x06, 5, 0, 3),
        ];
        for restart in 0..=6 {
            let at = match restart {
                0 | 1 => (0, 2 - restart),
                _ if first & CD == 0 => (0, 0),
                2..=4 => (8, 5 - restart),
                _ if second & CD == 0 => (8, 0),
                _ => (16, 8 - restart),
            };
            let at = At {
                restart,
                ccw: at.0,
                left: at.1,
            };
            let recovery = reported(sense_1, &ccws, at).recovery(comparison.any_model());
            comparison.recovery("overflow record, each pair of flags", &recovery)?;
        }
    }
    Ok(())
}

/// Each displacement with each address and count of a CSW, where the third of three CCWs chains or not.
fn each_end(comparison: &mut Comparison, sense_1: u8) -> Result<(), Disagreement> {
    for last in [0, CC, CD] {
        let ccws = [
            ccw(0x06, 0, CD, 2),
            ccw(0x06, 2, CD | FLAG_SKIP, 1),
            ccw(0x06, 4, last, 3),
            ccw(0x03, 0, 0, 1),
        ];
        for restart in 0..=7 {
            for place in 0..=5 {
                for left in 0..=4 {
                    let at = At {
                        restart,
                        ccw: place * CCW_LENGTH,
                        left,
                    };
                    let recovery = reported(sense_1, &ccws, at).recovery(comparison.any_model());
                    comparison.recovery("overflow record, each end", &recovery)?;
                }
            }
        }
    }
    Ok(())
}

/// The most bytes by 16 at a time and by chains as long as they may be, a million bytes one by one, and all
/// of storage by one CCW.
fn long_reads(comparison: &mut Comparison, sense_1: u8) -> Result<(), Disagreement> {
    const MOST: usize = 0xFF_FFFF;
    const STORAGE: usize = 65_536;
    const COUNT: usize = 65_535;
    const CCWS: usize = 256;
    for (count, restart) in [(16, MOST), (1, 1_000_000)] {
        let ccws = [ccw(0x06, 0, CD, count), ccw(0x08, 0, 0, 0)];
        let count = usize::from(count);
        let at = At {
            restart,
            ccw: 0,
            left: count - restart % count,
        };
        let recovery = reported(sense_1, &ccws, at).recovery(comparison.any_model());
        comparison.recovery("overflow record, going round", &recovery)?;
    }
    let mut ccws = [ccw(0x86, 0, CD | FLAG_SKIP, COUNT as u16); CCWS];
    ccws[CCWS - 1][4] = FLAG_SKIP;
    for restart in [COUNT - 1, COUNT, (CCWS - 1) * COUNT, CCWS * COUNT - 1, MOST] {
        let current = (restart / COUNT).min(CCWS - 1);
        let at = At {
            restart,
            ccw: current * CCW_LENGTH,
            left: ((current + 1) * COUNT).saturating_sub(restart),
        };
        let recovery = reported(sense_1, &ccws, at).recovery(comparison.any_model());
        comparison.recovery("overflow record, 256 CCWs", &recovery)?;
    }
    for (address, flags) in [(0, CC), (1, CC), (2, CC), (0, CC | FLAG_SKIP)] {
        let ccws = [ccw(0x1E, address, flags, COUNT as u16), ccw(0x03, 0, 0, 1)];
        for restart in [0, 1, COUNT - 1, COUNT] {
            let at = At {
                restart,
                ccw: 0,
                left: COUNT - restart,
            };
            let mut reported = reported(sense_1, &ccws, at);
            reported.storage = STORAGE;
            let recovery = reported.recovery(comparison.any_model());
            comparison.recovery("overflow record, all of storage", &recovery)?;
        }
    }
    Ok(())
}
