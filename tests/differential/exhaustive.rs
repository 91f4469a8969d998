//! Small inputs of which every one of a kind is tried.

use crate::compare::{Comparison, Disagreement};
use crate::models::{self, BORDERS};
use crate::simulator::large::track_at;
use crate::simulator::model::Model;
use crate::simulator::pack::{TrackAddress, LAST_HEAD};
use crate::simulator::{encode, sample};

pub fn compare_all(comparison: &mut Comparison) -> Result<(), Disagreement> {
    for model in Model::ALL {
        let model = model.number();
        sample_byte_by_byte(comparison, model)?;
        each_number(comparison, model)?;
        each_track(comparison, model)?;
    }
    each_other_model(comparison)
}

/// The sample, and areas that other questions refuse too.
fn each_other_model(comparison: &mut Comparison) -> Result<(), Disagreement> {
    let (image, faults, extent) = (&sample::IMAGE, &sample::FAULTS, &sample::EXTENT);
    for model in models::others() {
        comparison.image("no model", model, image)?;
        comparison.image("no model, image torn", model, &image[1..])?;
        comparison.faults("no model", model, image, faults)?;
        comparison.faults("no model, image torn", model, &image[1..], faults)?;
        comparison.faults("no model, list torn", model, image, &faults[1..])?;
        comparison.extent("no model", model, extent)?;
        comparison.extent("no model, extent off the pack", model, &[0xFF; 8])?;
    }
    Ok(())
}

/// Document 01's sample with each byte at each value, and cut at each length.
fn sample_byte_by_byte(comparison: &mut Comparison, model: u8) -> Result<(), Disagreement> {
    for image in each_byte_at_each_value(&sample::IMAGE) {
        comparison.image("sample, one byte set", model, &image)?;
    }
    for faults in each_byte_at_each_value(&sample::FAULTS) {
        comparison.faults("sample, one byte set", model, &sample::IMAGE, &faults)?;
    }
    for extent in each_byte_at_each_value(&sample::EXTENT) {
        comparison.extent("sample, one byte set", model, &extent)?;
    }
    for length in 0..=sample::IMAGE.len() {
        comparison.image("sample, cut", model, &sample::IMAGE[..length])?;
    }
    for length in 0..=sample::FAULTS.len() {
        comparison.faults(
            "sample, cut",
            model,
            &sample::IMAGE,
            &sample::FAULTS[..length],
        )?;
    }
    for length in 0..=sample::EXTENT.len() {
        comparison.extent("sample, cut", model, &sample::EXTENT[..length])?;
    }
    Ok(())
}

pub fn each_byte_at_each_value(bytes: &[u8]) -> impl Iterator<Item = Vec<u8>> + '_ {
    (0..bytes.len()).flat_map(move |at| {
        (0..=255).map(move |value| {
            let mut changed = bytes.to_vec();
            changed[at] = value;
            changed
        })
    })
}

fn put_empty_record(image: &mut Vec<u8>, track: TrackAddress, number: u8) {
    encode::put_record(image, track, number, &[], &[]);
}

/// A track with all 256 records, then each R again, there and on the next track.
fn each_number(comparison: &mut Comparison, model: u8) -> Result<(), Disagreement> {
    let [track, next] = [0, 1].map(track_at);
    let mut full = Vec::new();
    encode::put_home_address(&mut full, track);
    for number in 0..=255 {
        put_empty_record(&mut full, track, number);
    }
    for number in 0..=255 {
        let mut twice = full.clone();
        put_empty_record(&mut twice, track, number);
        comparison.image("each R twice", model, &twice)?;
        let mut both = full.clone();
        encode::put_home_address(&mut both, next);
        put_empty_record(&mut both, next, 0);
        put_empty_record(&mut both, next, number);
        comparison.image("each R on two tracks", model, &both)?;
    }
    Ok(())
}

/// Each track of a pack that is one cylinder and one head larger than that of any model, alone and with the
/// next one.
fn each_track(comparison: &mut Comparison, model: u8) -> Result<(), Disagreement> {
    let [.., behind] = BORDERS;
    let tracks: Vec<TrackAddress> = (0..=behind)
        .flat_map(|cylinder| (0..=LAST_HEAD + 1).map(move |head| TrackAddress { cylinder, head }))
        .collect();
    for &track in &tracks {
        comparison.image("each track", model, &r0_alone(&[track]))?;
        comparison.extent("each track", model, &extent(track, track))?;
    }
    for pair in tracks.windows(2) {
        let (track, next) = (pair[0], pair[1]);
        comparison.image("each track and the next", model, &r0_alone(&[track, next]))?;
        comparison.image(
            "each track behind the next",
            model,
            &r0_alone(&[next, track]),
        )?;
        comparison.extent("each track and the next", model, &extent(track, next))?;
        comparison.extent("each track behind the next", model, &extent(next, track))?;
    }
    Ok(())
}

fn r0_alone(tracks: &[TrackAddress]) -> Vec<u8> {
    let mut image = Vec::new();
    for &track in tracks {
        encode::put_home_address(&mut image, track);
        put_empty_record(&mut image, track, 0);
    }
    image
}

fn extent(first: TrackAddress, last: TrackAddress) -> [u8; 8] {
    let mut extent = [0; 8];
    extent[..4].copy_from_slice(&encode::track_address(first));
    extent[4..].copy_from_slice(&encode::track_address(last));
    extent
}
