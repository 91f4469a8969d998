//! Damage to the fields of an image.

use super::{damaged, ToFields};
use crate::generate::{record, Draft, DraftField};
use crate::models::{border_track, BORDERS};
use crate::random::Random;
use crate::simulator::encode;
use crate::simulator::model::Model;
use crate::simulator::pack::{TrackAddress, HOME_ADDRESS, LAST_HEAD, LONGEST_RECORD};
use std::ops::Range;

/// An image damaged in one way. The draft has two tracks, each with two records after R0.
pub fn damaged_image(
    random: &mut Random,
    turn: usize,
    draft: &[DraftField],
) -> (&'static str, Vec<u8>) {
    damaged(random, turn, draft, IMAGE.len(), |random, draft, at| {
        let (name, damage) = IMAGE[at];
        damage(random, draft);
        name
    })
}

const IMAGE: [ToFields; 34] = [
    ("flag byte not 0", |random, draft| {
        home_address(random, draft)[0] = random.nonzero_byte();
    }),
    ("home address's 00 not 0", |random, draft| {
        home_address(random, draft)[3] = random.nonzero_byte();
    }),
    ("home address of 4 bytes", |random, draft| {
        home_address(random, draft).pop();
    }),
    ("home address of 6 bytes", |random, draft| {
        home_address(random, draft).push(0);
    }),
    ("home address removed", |random, draft| {
        let track = any_track(random, draft);
        draft.remove(track.start);
    }),
    ("home address alone", |random, draft| {
        let track = any_track(random, draft);
        draft.drain(track.start + 1..track.end);
    }),
    ("record before the home address", |random, draft| {
        let track = any_track(random, draft);
        draft.swap(track.start, track.start + 1);
    }),
    ("at the last track of a pack", |random, draft| {
        let cylinder = random.pick(Model::ALL).last_cylinder();
        move_last_track(draft, |_| TrackAddress {
            cylinder,
            head: LAST_HEAD,
        });
    }),
    ("cylinder at the end of a pack", |random, draft| {
        let cylinder = random.pick(&BORDERS);
        move_last_track(draft, |track| TrackAddress { cylinder, ..track });
    }),
    ("one track, at the end of a pack", |random, draft| {
        let last = tracks(draft).pop().expect("a track");
        draft.drain(..last.start);
        let track = border_track(random);
        move_last_track(draft, |_| track);
    }),
    ("cylinder far past the last", |random, draft| {
        let [.., last] = BORDERS;
        let cylinder = random.within(usize::from(last)..=0xFFFF) as u16;
        move_last_track(draft, |track| TrackAddress { cylinder, ..track });
    }),
    ("last head", |_, draft| {
        move_last_track(draft, |track| TrackAddress {
            head: LAST_HEAD,
            ..track
        });
    }),
    ("head one past the last", |_, draft| {
        move_last_track(draft, |track| TrackAddress {
            head: LAST_HEAD + 1,
            ..track
        });
    }),
    ("head past 255", |random, draft| {
        let high = u16::from(random.nonzero_byte()) << 8;
        move_last_track(draft, |track| TrackAddress {
            head: track.head | high,
            ..track
        });
    }),
    ("track twice", |random, draft| {
        let track = any_track(random, draft);
        let again = draft[track.clone()].to_vec();
        draft.splice(track.end..track.end, again);
    }),
    ("tracks swapped", |random, draft| {
        let tracks = tracks(draft);
        let second = random.within(1..=tracks.len() - 1);
        let moved: Draft = draft.drain(tracks[second].clone()).collect();
        let place = tracks[random.below(second)].start;
        draft.splice(place..place, moved);
    }),
    ("two tracks of one address", |_, draft| {
        let tracks = tracks(draft);
        let before = address(draft, &tracks[tracks.len() - 2]);
        move_last_track(draft, |_| before);
    }),
    ("R0 missing", |random, draft| {
        let track = any_track(random, draft);
        draft.remove(track.start + 1);
    }),
    ("R0 behind another record", |random, draft| {
        let (r0, other) = two_records(random, draft);
        draft.swap(r0, other);
    }),
    ("R0 again", |random, draft| {
        let (_, other) = two_records(random, draft);
        draft[other].contents[4] = 0;
    }),
    ("R twice", |random, draft| {
        let track = any_track(random, draft);
        let from = random.within(track.start + 2..=track.end - 2);
        let to = random.within(from + 1..=track.end - 1);
        draft[to].contents[4] = draft[from].contents[4];
    }),
    ("R of one record", |random, draft| {
        any_record(random, draft)[4] = random.byte();
    }),
    ("cylinder of one record", |random, draft| {
        any_record(random, draft)[random.pick(&[0, 1])] ^= random.nonzero_byte();
    }),
    ("head of one record", |random, draft| {
        any_record(random, draft)[random.pick(&[2, 3])] ^= random.nonzero_byte();
    }),
    ("records of two tracks traded", |random, draft| {
        let tracks = tracks(draft);
        let [one, other] =
            [&tracks[0], &tracks[1]].map(|track| random.within(track.start + 1..=track.end - 1));
        draft.swap(one, other);
    }),
    ("key length off by one", |random, draft| {
        let contents = any_record(random, draft);
        contents[5] = contents[5].wrapping_add(random.pick(&[1, 0xFF]));
    }),
    ("data length off by one", |random, draft| {
        let error = random.pick(&[1, 0xFFFF]);
        add_to_data_length(any_record(random, draft), error);
    }),
    ("data length off by 256", |random, draft| {
        let error = random.pick(&[0x100, 0xFF00]);
        add_to_data_length(any_record(random, draft), error);
    }),
    ("one byte from data to key", |random, draft| {
        let contents = any_record(random, draft);
        contents[5] = contents[5].wrapping_add(1);
        add_to_data_length(contents, 0xFFFF);
    }),
    ("count area cut", |random, draft| {
        let left = random.below(8);
        any_record(random, draft).truncate(left);
    }),
    ("byte more behind the data", |random, draft| {
        any_record(random, draft).push(0);
    }),
    ("key plus data 13,030", |random, draft| {
        lengthen(random, draft, LONGEST_RECORD);
    }),
    ("key plus data 13,031", |random, draft| {
        lengthen(random, draft, LONGEST_RECORD + 1);
    }),
    ("key plus data far past 13,030", |random, draft| {
        let length = random.within(LONGEST_RECORD + 2..=0xFFFF - 8);
        lengthen(random, draft, length);
    }),
];

/// The places of each track's fields, its home address first.
fn tracks(draft: &[DraftField]) -> Vec<Range<usize>> {
    let starts: Vec<usize> = (0..draft.len())
        .filter(|&at| draft[at].tag == HOME_ADDRESS)
        .collect();
    let ends = starts[1..].iter().copied().chain([draft.len()]);
    starts
        .iter()
        .copied()
        .zip(ends)
        .map(|(start, end)| start..end)
        .collect()
}

fn any_track(random: &mut Random, draft: &[DraftField]) -> Range<usize> {
    let tracks = tracks(draft);
    tracks[random.below(tracks.len())].clone()
}

/// Contents of one of the home addresses.
fn home_address<'a>(random: &mut Random, draft: &'a mut Draft) -> &'a mut Vec<u8> {
    let track = any_track(random, draft);
    &mut draft[track.start].contents
}

/// Contents of one of the records.
fn any_record<'a>(random: &mut Random, draft: &'a mut Draft) -> &'a mut Vec<u8> {
    let track = any_track(random, draft);
    &mut draft[random.within(track.start + 1..=track.end - 1)].contents
}

/// The places of R0 and of another record of one track.
fn two_records(random: &mut Random, draft: &[DraftField]) -> (usize, usize) {
    let track = any_track(random, draft);
    let r0 = track.start + 1;
    (r0, random.within(r0 + 1..=track.end - 1))
}

fn address(draft: &[DraftField], track: &Range<usize>) -> TrackAddress {
    TrackAddress::decode(&draft[track.start].contents[1..])
}

/// Moves the last track, its count areas too, so that it may stay behind the others.
fn move_last_track(draft: &mut Draft, to: impl Fn(TrackAddress) -> TrackAddress) {
    let last = tracks(draft).pop().expect("a track");
    let address = to(address(draft, &last));
    draft[last.start].contents = encode::home_address(address).to_vec();
    for field in &mut draft[last.start + 1..last.end] {
        field.contents[..4].copy_from_slice(&encode::track_address(address));
    }
}

fn add_to_data_length(contents: &mut [u8], more: u16) {
    let data_length = u16::from_be_bytes([contents[6], contents[7]]).wrapping_add(more);
    contents[6..8].copy_from_slice(&data_length.to_be_bytes());
}

/// Gives one record a key and data of `length` bytes together.
fn lengthen(random: &mut Random, draft: &mut Draft, length: usize) {
    let track = any_track(random, draft);
    let at = random.within(track.start + 1..=track.end - 1);
    let key = random.pick(&[0, 1, 255]);
    let number = draft[at].contents[4];
    draft[at] = record(random, address(draft, &track), number, (key, length - key));
}
