//! Small recoveries of which every one of a kind is tried.

use crate::compare::{Comparison, Disagreement};
use crate::generate::tracks_of;
use crate::models::{self, borders_on};
use crate::reports::GeneratedRecovery;
use crate::simulator::drive::READ_COUNT;
use crate::simulator::extent::whole_pack;
use crate::simulator::large::track_at;
use crate::simulator::model::Model;
use crate::simulator::pack::{TrackAddress, LAST_HEAD};
use crate::simulator::report::Report;
use crate::simulator::table::TABLE;
use crate::simulator::{encode, sample};
use std::collections::BTreeSet;

pub fn compare_all(comparison: &mut Comparison) -> Result<(), Disagreement> {
    let bases: [fn(Model) -> GeneratedRecovery; 4] = [
        |model| recovery(model, &sample_report(), &sample::EXTENT),
        |model| on_whole_pack(model, &sent_to([0, 0x20, 0], 0x20)),
        |model| on_whole_pack(model, &sent_to([0, 0x04, 0], 0x08)),
        |model| on_whole_pack(model, &sent_to([0, 0x04, 0], 0x20)),
    ];
    for base in bases {
        each_byte(comparison, OF_SAMPLE, base)?;
        each_length(comparison, OF_SAMPLE, base)?;
        each_other_model(comparison, base)?;
    }
    each_combination(comparison)?;
    each_mask(comparison)?;
    each_tries(comparison)?;
    for &model in Model::ALL {
        each_track(comparison, model)?;
        each_sense_6(comparison, model)?;
    }
    each_border_track(comparison)?;
    each_command_behind(comparison)?;
    each_place(comparison)
}

/// Of the sample's cut, with a mask and a seek argument besides.
fn sample_report() -> Report {
    let mut sense = [0; 24];
    sense[..8].copy_from_slice(&[0x08, 0, 0x40, 0, 0, 0, 0, 0x53]);
    sense[8..14].copy_from_slice(&[0, 0, 0, 1, 1, 5]);
    sense[15..23].copy_from_slice(&[0, 0, 4, 0, 3, 1, 2, 4]);
    Report {
        sense,
        csw: [0, 0, 0, 0x20, 0x0E, 0, 0, 0],
        first: 0x18,
        mask: Some(0xC0),
        seek_argument: Some([0, 0, 0, 0, 0, 1]),
        tries: 9,
    }
}

/// The same with other sense bytes 0 to 2 and another CSW address.
fn sent_to(front: [u8; 3], address: u8) -> Report {
    let mut report = sample_report();
    report.sense[..3].copy_from_slice(&front);
    report.csw[3] = address;
    report
}

fn on_whole_pack(model: Model, report: &Report) -> GeneratedRecovery {
    recovery(model, report, &whole_pack(model))
}

fn recovery(model: Model, report: &Report, extent: &[u8]) -> GeneratedRecovery {
    GeneratedRecovery {
        model: model.number(),
        chain: sample::CHAIN.to_vec(),
        report: encode::report(report),
        extent: extent.to_vec(),
        storage: vec![0xEE; 16],
        ..GeneratedRecovery::default()
    }
}

/// What is told of a recovery changed in each way.
#[derive(Clone, Copy)]
pub struct Kinds {
    pub byte_set: &'static str,
    pub report_cut: &'static str,
    pub storage_cut: &'static str,
}

const OF_SAMPLE: Kinds = Kinds {
    byte_set: "sample, one byte set",
    report_cut: "sample, report cut",
    storage_cut: "sample, storage cut",
};

/// Each byte of each area that is only read at each value, on a pack of either model.
pub fn each_byte(
    comparison: &mut Comparison,
    kinds: Kinds,
    base: impl Fn(Model) -> GeneratedRecovery,
) -> Result<(), Disagreement> {
    type Area = fn(&mut GeneratedRecovery) -> &mut Vec<u8>;
    let areas: [Area; 3] = [
        |recovery| &mut recovery.chain,
        |recovery| &mut recovery.report,
        |recovery| &mut recovery.extent,
    ];
    for area in areas {
        // As many on each model.
        let bytes = area(&mut base(Model::One)).len();
        for (at, value) in (0..bytes).flat_map(|at| (0..=255).map(move |value| (at, value))) {
            let mut recovery = base(comparison.any_model());
            area(&mut recovery)[at] = value;
            comparison.recovery(kinds.byte_set, &recovery)?;
        }
    }
    Ok(())
}

/// The report cut at each length, storage too.
pub fn each_length(
    comparison: &mut Comparison,
    kinds: Kinds,
    base: impl Fn(Model) -> GeneratedRecovery,
) -> Result<(), Disagreement> {
    for &model in Model::ALL {
        let recovery = base(model);
        for length in 0..=recovery.report.len() {
            let mut recovery = recovery.clone();
            recovery.report.truncate(length);
            comparison.recovery(kinds.report_cut, &recovery)?;
        }
        for length in 0..=recovery.storage.len() {
            let mut recovery = recovery.clone();
            recovery.storage.truncate(length);
            comparison.recovery(kinds.storage_cut, &recovery)?;
        }
    }
    Ok(())
}

/// As it is, and where other questions refuse too.
pub fn each_other_model(
    comparison: &mut Comparison,
    base: impl Fn(Model) -> GeneratedRecovery,
) -> Result<(), Disagreement> {
    for number in models::others() {
        let mut recovery = base(Model::Eleven);
        recovery.model = number;
        comparison.recovery("no model", &recovery)?;
        recovery.extent.rotate_left(4);
        recovery.report.pop();
        comparison.recovery("no model, extent and report damaged", &recovery)?;
    }
    Ok(())
}

/// Each combination of the bits that are in the table, at tries that differ for actions 3 and 4.
fn each_combination(comparison: &mut Comparison) -> Result<(), Disagreement> {
    let bits: BTreeSet<(usize, u8)> = TABLE.iter().flat_map(|row| row.bits).copied().collect();
    for combination in 0..1_u32 << bits.len() {
        let mut report = sent_to([0; 3], 0x20);
        for (place, &(byte, bit)) in bits.iter().enumerate() {
            if combination & 1 << place != 0 {
                report.sense[byte] |= 0x80 >> bit;
            }
        }
        for tries in [0, 9, 10] {
            report.tries = tries;
            let recovery = on_whole_pack(comparison.any_model(), &report);
            comparison.recovery("each combination of bits", &recovery)?;
        }
    }
    Ok(())
}

/// None, and each mask, for each action that sets one again.
fn each_mask(comparison: &mut Comparison) -> Result<(), Disagreement> {
    for mut report in [
        sample_report(),
        sent_to([0, 0x20, 0], 0x20),
        sent_to([0, 0x04, 0], 0x08),
    ] {
        for mask in (0..=255).map(Some).chain([None]) {
            report.mask = mask;
            let recovery = on_whole_pack(comparison.any_model(), &report);
            comparison.recovery("each mask", &recovery)?;
        }
    }
    Ok(())
}

/// Each number of tries for each row.
fn each_tries(comparison: &mut Comparison) -> Result<(), Disagreement> {
    for row in &TABLE {
        let mut report = sent_to([0; 3], 0x20);
        for &(byte, bit) in row.bits {
            report.sense[byte] |= 0x80 >> bit;
        }
        for tries in 0..=255 {
            report.tries = tries;
            let recovery = on_whole_pack(comparison.any_model(), &report);
            comparison.recovery("each number of tries", &recovery)?;
        }
    }
    Ok(())
}

/// Each track of the pack, and some behind it, in tag 14 and in the sense, its head in sense 6 too;
/// every third in an extent that ends with it.
fn each_track(comparison: &mut Comparison, model: Model) -> Result<(), Disagreement> {
    let behind = usize::from(LAST_HEAD) + 1;
    for place in 0..tracks_of(model) + behind {
        let address = encode::track_address(track_at(place));
        let mut extent = whole_pack(model);
        if place % 3 == 0 && place < tracks_of(model) {
            extent[4..].copy_from_slice(&address);
        }
        for mut report in [
            sample_report(),
            sent_to([0, 0x20, 0], 0x20),
            sent_to([0, 0x04, 0], 0x08),
            sent_to([0, 0x04, 0], 0x20),
        ] {
            report.sense[8..12].copy_from_slice(&address);
            let [c0, c1, h0, h1] = address;
            report.sense[6] = h1;
            report.seek_argument = Some([0, 0, c0, c1, h0, h1]);
            comparison.recovery("each track", &recovery(model, &report, &extent))?;
        }
    }
    Ok(())
}

/// Each track at the end of a pack in tag 14 and in the sense, the last head reached or another; and as
/// extent. Action 5 besides, where the next command has bit 3 on.
fn each_border_track(comparison: &mut Comparison) -> Result<(), Disagreement> {
    for (model, track) in models::border_tracks() {
        let address = encode::track_address(track);
        for front in [[0x08, 0, 0x40], [0, 0x20, 0], [0, 0x04, 0]] {
            for at in [0x08, 0x20] {
                for head in [0, LAST_HEAD] {
                    let mut report = sent_to(front, at);
                    report.sense[8..12].copy_from_slice(&address);
                    report.sense[6] = head as u8;
                    let [c0, c1, h0, h1] = address;
                    report.seek_argument = Some([0, 0, c0, c1, h0, h1]);
                    let mut recovery = on_whole_pack(model, &report);
                    comparison.recovery("each border track", &recovery)?;
                    recovery.chain[0x20] = READ_COUNT;
                    comparison.recovery("each border track", &recovery)?;
                    recovery.extent = [address; 2].concat();
                    comparison.recovery("each border track as extent", &recovery)?;
                }
            }
        }
    }
    Ok(())
}

/// Each value of sense 6 with heads of tag 14 that differ from it, on the first cylinder, at the end of the
/// pack and where one of another model ends, for each action that asks for tag 14.
fn each_sense_6(comparison: &mut Comparison, model: Model) -> Result<(), Disagreement> {
    let cylinders = [0, model.last_cylinder() - 1];
    let cylinders = cylinders.iter().chain(borders_on(model));
    let tracks: Vec<TrackAddress> = cylinders
        .flat_map(|&cylinder| {
            let heads = [0, 1, LAST_HEAD - 1, LAST_HEAD, LAST_HEAD + 1];
            heads.map(|head| TrackAddress { cylinder, head })
        })
        .collect();
    for mut report in [
        sent_to([0, 0x20, 0], 0x20),
        sent_to([0, 0x04, 0], 0x08),
        sent_to([0, 0x04, 0], 0x20),
    ] {
        for &track in &tracks {
            let [c0, c1, h0, h1] = encode::track_address(track);
            report.seek_argument = Some([0, 0, c0, c1, h0, h1]);
            for sense_6 in 0..=255 {
                report.sense[6] = sense_6;
                comparison.recovery("each sense 6", &on_whole_pack(model, &report))?;
            }
        }
    }
    Ok(())
}

/// Each command behind the read that was cut, and behind a seek that was interrupted.
fn each_command_behind(comparison: &mut Comparison) -> Result<(), Disagreement> {
    for command in 0..=255 {
        for target in [0x00, 0x10, 0x18, 0x20, 0x24, 0x28] {
            let mut cut = on_whole_pack(comparison.any_model(), &sample_report());
            cut.chain[0x20] = command;
            cut.chain[0x23] = target;
            comparison.recovery("each command behind", &cut)?;
            let interrupted = sent_to([0, 0x04, 0], 0x08);
            let mut interrupted = on_whole_pack(comparison.any_model(), &interrupted);
            interrupted.chain[0x08] = command;
            interrupted.chain[0x0B] = target;
            comparison.recovery("each command behind", &interrupted)?;
        }
    }
    Ok(())
}

/// Reads of up to 12 bytes by three CCWs that overlap, each error displacement.
fn each_place(comparison: &mut Comparison) -> Result<(), Disagreement> {
    let ccws = [
        (0, [0, 0, 0]),
        (0, [0, 0x10, 0]),
        (3, [0, 0, 0x10]),
        (2, [0x10, 0, 0]),
    ];
    for (second, skips) in ccws {
        let chain = [
            encode::ccw(0x06, 0, 0x80 | skips[0], 4),
            encode::ccw(0x06, second, 0x80 | skips[1], 3),
            encode::ccw(0x06, 1, 0x20 | skips[2], 3),
        ];
        for restart in 8..=12 {
            for error in 0..=restart + 1 {
                let mut report = sample_report();
                report.first = 0;
                report.sense[17] = restart;
                report.sense[19] = error;
                let count_left = 10_u8.saturating_sub(restart);
                report.csw = [0, 0, 0, 0x18, 0x0E, 0, 0, count_left];
                report.mask = None;
                let mut recovery = on_whole_pack(comparison.any_model(), &report);
                recovery.chain = chain.concat();
                comparison.recovery("each place of an error", &recovery)?;
            }
        }
    }
    Ok(())
}
