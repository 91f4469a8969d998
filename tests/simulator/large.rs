//! Well formed images of an exact size, up to the limit and past it.

use super::encode::{put_home_address, put_record};
use super::pack::{TrackAddress, LAST_HEAD, LONGEST_RECORD};

/// What each track has: R0 with 8 bytes of data, then records of one length with no key.
#[derive(Clone, Copy)]
pub struct TracksOf {
    pub records: u8,
    pub data_length: usize,
}

impl TracksOf {
    pub const TWO_RECORDS: TracksOf = TracksOf {
        records: 2,
        data_length: 48,
    };
    /// An image as long as it may be has more cylinders of these than a pack of model 1.
    pub const SHORT_RECORDS: TracksOf = TracksOf {
        records: 2,
        data_length: 10,
    };
    pub const MANY_RECORDS: TracksOf = TracksOf {
        records: 255,
        data_length: 1,
    };
    pub const LONG_RECORD: TracksOf = TracksOf {
        records: 1,
        data_length: LONGEST_RECORD,
    };
}

/// Bytes of a record beside its key and data: tag, length and count area.
const RECORD_HEAD: usize = 3 + 8;
const HOME_ADDRESS_FIELD: usize = 3 + 5;
const R0_DATA: usize = 8;

/// The track that stands at `place` of a whole pack.
pub fn track_at(place: usize) -> TrackAddress {
    let heads = usize::from(LAST_HEAD) + 1;
    TrackAddress {
        cylinder: (place / heads) as u16,
        head: (place % heads) as u16,
    }
}

/// The place of a track of the pack.
pub fn place_of(track: TrackAddress) -> usize {
    let heads = usize::from(LAST_HEAD) + 1;
    usize::from(track.cylinder) * heads + usize::from(track.head)
}

/// Such tracks from 000/00 on, then one track more that fills `size` bytes, at least 27, exactly.
pub fn image_of(size: usize, tracks: TracksOf) -> Vec<u8> {
    let each = HOME_ADDRESS_FIELD
        + RECORD_HEAD
        + R0_DATA
        + usize::from(tracks.records) * (RECORD_HEAD + tracks.data_length);
    let mut image = Vec::with_capacity(size);
    let mut place = 0;
    while image.len() + each + HOME_ADDRESS_FIELD + RECORD_HEAD + R0_DATA <= size {
        put_track(&mut image, track_at(place), tracks);
        place += 1;
    }
    fill(&mut image, size, track_at(place));
    image
}

/// Track 000/00 with R0 and so many records of one length.
pub fn track_of(records: u8, data_length: usize) -> Vec<u8> {
    let tracks = TracksOf {
        records,
        data_length,
    };
    let mut image = Vec::new();
    put_track(&mut image, track_at(0), tracks);
    image
}

/// Heads 0 to 18 of cylinder 0, each with R0 and so many records of one length.
pub fn cylinder_of(records: impl Fn(u16) -> u8, data_length: usize) -> Vec<u8> {
    let mut image = Vec::new();
    for head in 0..=LAST_HEAD {
        let tracks = TracksOf {
            records: records(head),
            data_length,
        };
        put_track(&mut image, track_at(head.into()), tracks);
    }
    image
}

pub fn put_track(image: &mut Vec<u8>, track: TrackAddress, tracks: TracksOf) {
    put_home_address(image, track);
    put_data(image, track, 0, R0_DATA);
    for number in 1..=tracks.records {
        put_data(image, track, number, tracks.data_length);
    }
}

fn put_data(image: &mut Vec<u8>, track: TrackAddress, number: u8, data_length: usize) {
    put_record(image, track, number, &[], &vec![number; data_length]);
}

/// A last track whose records end at `size`.
fn fill(image: &mut Vec<u8>, size: usize, track: TrackAddress) {
    put_home_address(image, track);
    let mut number = 0;
    while image.len() < size {
        let left = size - image.len() - RECORD_HEAD;
        // What stays must be nothing or room for one more record.
        let data_length = if left <= LONGEST_RECORD {
            left
        } else {
            LONGEST_RECORD.min(left - RECORD_HEAD)
        };
        put_data(image, track, number, data_length);
        number += 1;
    }
}
