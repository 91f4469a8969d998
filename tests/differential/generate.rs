//! Well formed images, fault lists and extents, and bytes that follow no plan.

use crate::models::border_track_on;
use crate::random::Random;
use crate::simulator::encode;
use crate::simulator::faults::{Fault, FAULT};
use crate::simulator::large::{place_of, track_at};
use crate::simulator::model::Model;
use crate::simulator::pack::{
    Pack, Record, TrackAddress, HOME_ADDRESS, LAST_HEAD, LONGEST_RECORD, RECORD,
};
use std::collections::BTreeSet;

/// A field before it is written.
#[derive(Clone)]
pub struct DraftField {
    pub tag: u8,
    pub contents: Vec<u8>,
    /// What the written length has more than the contents; 0 unless damaged.
    pub length_error: i32,
}

impl DraftField {
    pub fn new(tag: u8, contents: impl Into<Vec<u8>>) -> DraftField {
        DraftField {
            tag,
            contents: contents.into(),
            length_error: 0,
        }
    }
}

pub type Draft = Vec<DraftField>;

pub fn written(draft: &[DraftField]) -> Vec<u8> {
    let mut bytes = Vec::new();
    for field in draft {
        let head = bytes.len();
        encode::put_field(&mut bytes, field.tag, &field.contents);
        let length = (field.contents.len() as i32 + field.length_error) as u16;
        bytes[head + 1..head + 3].copy_from_slice(&length.to_be_bytes());
    }
    bytes
}

/// A generated image taken apart.
pub fn decoded(model: Model, image: &[u8]) -> Pack<'_> {
    Pack::decode(image, model).expect("the image is well formed")
}

/// Tracks of a cylinder.
const HEADS: usize = LAST_HEAD as usize + 1;

/// Tracks of a pack.
pub fn tracks_of(model: Model) -> usize {
    (usize::from(model.last_cylinder()) + 1) * HEADS
}

/// Key length and data length.
type Lengths = (usize, usize);

const NO_KEY_NO_DATA: Lengths = (0, 0);

fn short(random: &mut Random) -> Lengths {
    let key = match random.below(16) {
        0 => 255,
        1..=6 => random.within(1..=12),
        _ => 0,
    };
    let data = match random.below(16) {
        0 => random.within(200..=300),
        1..=3 => 0,
        _ => random.within(1..=40),
    };
    (key, data)
}

/// Key plus data as long as a record may be.
fn longest(random: &mut Random) -> Lengths {
    let key = random.pick(&[0, 1, 8, 254, 255]);
    (key, LONGEST_RECORD - key)
}

/// Record contents of the lengths asked for.
pub fn record(
    random: &mut Random,
    track: TrackAddress,
    number: u8,
    lengths: Lengths,
) -> DraftField {
    let (key, data) = (random.bytes(lengths.0), random.bytes(lengths.1));
    DraftField::new(RECORD, encode::record(track, number, &key, &data))
}

/// 1 to 255: from 1 on half of the time, else any in any order.
fn distinct_numbers(random: &mut Random, how_many: usize) -> Vec<u8> {
    let mut numbers: Vec<u8> = (1..=255).collect();
    if random.once_in(2) {
        random.shuffle(&mut numbers);
    }
    numbers.truncate(how_many);
    numbers
}

fn put_track(
    random: &mut Random,
    draft: &mut Draft,
    track: TrackAddress,
    r0: Lengths,
    others: &[Lengths],
) {
    draft.push(DraftField::new(HOME_ADDRESS, encode::home_address(track)));
    draft.push(record(random, track, 0, r0));
    let numbers = distinct_numbers(random, others.len());
    for (&number, &lengths) in numbers.iter().zip(others) {
        draft.push(record(random, track, number, lengths));
    }
}

fn lengths_of(random: &mut Random, how_many: usize) -> Vec<Lengths> {
    (0..how_many).map(|_| short(random)).collect()
}

/// Ascending, close together or anywhere, often with the pack's first or last track or one at the end of a
/// pack.
fn ascending_tracks(random: &mut Random, model: Model, how_many: usize) -> Vec<TrackAddress> {
    let tracks = tracks_of(model);
    let mut places = BTreeSet::new();
    if random.once_in(4) {
        places.insert(0);
    }
    if random.once_in(4) {
        places.insert(tracks - 1);
    }
    if random.once_in(4) {
        places.insert(place_of(border_track_on(random, model)));
    }
    let span = random.pick(&[how_many + 2, 60 + how_many, tracks]);
    let first = random.within(0..=tracks - span);
    while places.len() < how_many {
        places.insert(first + random.below(span));
    }
    places.into_iter().take(how_many).map(track_at).collect()
}

fn one_track(random: &mut Random, model: Model) -> TrackAddress {
    ascending_tracks(random, model, 1)[0]
}

/// Tracks with up to `most` short records after R0.
fn tracks(random: &mut Random, model: Model, how_many: usize, most: usize) -> Draft {
    let mut draft = Draft::new();
    for track in ascending_tracks(random, model, how_many) {
        let r0 = random.pick(&[(0, 8), NO_KEY_NO_DATA, (3, 5)]);
        let others = random.within(0..=most);
        let others = lengths_of(random, others);
        put_track(random, &mut draft, track, r0, &others);
    }
    draft
}

pub type Shape = (&'static str, fn(&mut Random, Model) -> Draft);

pub const SHAPES: [Shape; 8] = [
    ("no tracks", |_, _| Draft::new()),
    ("R0 alone", |random, model| {
        let how_many = random.within(1..=4);
        tracks(random, model, how_many, 0)
    }),
    ("one track", |random, model| tracks(random, model, 1, 6)),
    ("few tracks", |random, model| {
        let how_many = random.within(2..=6);
        tracks(random, model, how_many, 5)
    }),
    ("many tracks", |random, model| {
        let how_many = random.within(20..=60);
        tracks(random, model, how_many, 2)
    }),
    ("255 records after R0", |random, model| {
        let mut draft = Draft::new();
        let track = one_track(random, model);
        let others = lengths_of(random, 255);
        put_track(random, &mut draft, track, (0, 8), &others);
        draft
    }),
    ("key plus data 13,030", |random, model| {
        let mut draft = Draft::new();
        let track = one_track(random, model);
        let others = [longest(random), short(random)];
        put_track(random, &mut draft, track, (0, 8), &others);
        draft
    }),
    ("R0 of 13,030", |random, model| {
        let mut draft = Draft::new();
        let track = one_track(random, model);
        let r0 = longest(random);
        put_track(random, &mut draft, track, r0, &[(0, 4)]);
        draft
    }),
];

/// Two to five tracks that every kind of damage can be done to: each has R0 with data, a record
/// with data, a record without, and some more, but not every R.
pub fn ground(random: &mut Random, model: Model) -> Draft {
    let mut draft = Draft::new();
    let how_many = random.within(2..=5);
    for track in ascending_tracks(random, model, how_many) {
        let more = if random.once_in(32) {
            252
        } else {
            random.within(0..=4)
        };
        let mut others = lengths_of(random, more);
        others.push((0, random.within(1..=30)));
        others.push(NO_KEY_NO_DATA);
        random.shuffle(&mut others);
        put_track(random, &mut draft, track, (0, 8), &others);
    }
    draft
}

/// Faults of some records that may have one, in any order, at least one where there is such.
pub fn faults(random: &mut Random, pack: &Pack) -> Draft {
    let mut targets = faultable(pack);
    random.shuffle(&mut targets);
    if !targets.is_empty() {
        let most = targets.len().min(random.pick(&[1, 4, 40]));
        targets.truncate(random.within(1..=most));
    }
    faults_of(random, &targets)
}

/// Faults of most records that may have one, or of all, in any order.
pub fn many_faults(random: &mut Random, pack: &Pack) -> Draft {
    let mut targets = faultable(pack);
    random.shuffle(&mut targets);
    let spared = random.pick(&[0, 0, targets.len() / 4, targets.len() / 2]);
    faults_of(random, &targets[spared..])
}

fn faultable<'p>(pack: &'p Pack) -> Vec<&'p Record<'p>> {
    pack.tracks()
        .flat_map(|(_, records)| records)
        .filter(|record| record.number() != 0 && !record.data.is_empty())
        .collect()
}

fn faults_of(random: &mut Random, records: &[&Record]) -> Draft {
    let fault_of = |record: &&Record| {
        let data_length = record.data.len();
        let anywhere = random.within(1..=data_length);
        let fault = Fault {
            track: record.track(),
            number: record.number(),
            error_displacement: random.pick(&[1, data_length, anywhere]) as u16,
            pattern: [random.byte(), random.byte(), random.byte()],
        };
        DraftField::new(FAULT, encode::fault(fault))
    };
    records.iter().map(fault_of).collect()
}

/// First and last track, with the pack's own edges, those of another model's and single tracks often.
pub fn extent(random: &mut Random, model: Model) -> Vec<u8> {
    let tracks = tracks_of(model);
    let mut places = [0, 1].map(|_| match random.below(6) {
        0..=2 => random.below(tracks),
        3 => place_of(border_track_on(random, model)),
        _ => random.pick(&[0, HEADS - 1, HEADS, tracks - HEADS, tracks - 1]),
    });
    places.sort();
    extent_of(places)
}

/// From one place of the pack to another.
pub fn extent_of(places: [usize; 2]) -> Vec<u8> {
    places
        .map(|place| encode::track_address(track_at(place)))
        .concat()
}

/// Bytes with no plan, with few values, or fields whose tags and lengths are mostly right.
pub fn without_plan(random: &mut Random, field_like: &[(u8, usize)]) -> (&'static str, Vec<u8>) {
    let length = random.within(0..=64);
    match random.below(3) {
        0 => ("random bytes", random.bytes(length)),
        1 => {
            let few = [0, 0, 0, 1, 2, 5, 8, 10, 0x20];
            (
                "random bytes of few values",
                (0..length).map(|_| random.pick(&few)).collect(),
            )
        }
        _ => {
            let mut draft = Draft::new();
            for _ in 0..random.within(1..=4) {
                let (tag, length) = random.pick(field_like);
                let mut contents = random.bytes(length);
                if random.once_in(2) {
                    contents.fill(0);
                }
                draft.push(DraftField::new(tag, contents));
            }
            ("random fields", written(&draft))
        }
    }
}
