//! Damage to an extent.

use super::{ToBytes, BYTES};
use crate::models::{border_track, BORDERS};
use crate::random::Random;
use crate::simulator::encode;
use crate::simulator::pack::LAST_HEAD;

const LAST: u8 = LAST_HEAD as u8;

pub const KINDS: usize = BYTES.len() + EXTENT.len();

pub fn damaged_extent(random: &mut Random, turn: usize, extent: &[u8]) -> (&'static str, Vec<u8>) {
    let turn = turn % KINDS;
    let (name, damage) = BYTES
        .iter()
        .chain(&EXTENT)
        .nth(turn)
        .expect("in one of both");
    let mut extent = extent.to_vec();
    damage(random, &mut extent);
    (name, extent)
}

/// First track in bytes 0 to 3, last track in 4 to 7.
const EXTENT: [ToBytes; 10] = [
    ("first and last traded", |_, extent| extent.rotate_left(4)),
    ("one track", |_, extent| extent.copy_within(..4, 4)),
    ("last head before first", |_, extent| {
        extent.copy_within(..4, 4);
        extent[3] = extent[3].max(1);
        extent[7] = extent[3] - 1;
    }),
    ("last cylinder before first", |_, extent| {
        extent.copy_within(..4, 4);
        extent[1] = extent[1].max(1);
        extent[5] = extent[1] - 1;
        extent[7] = LAST;
    }),
    ("last head", |random, extent| {
        extent[random.pick(&[3, 7])] = LAST;
    }),
    ("head one past the last", |random, extent| {
        extent[random.pick(&[3, 7])] = LAST + 1;
    }),
    ("head past 255", |random, extent| {
        extent[random.pick(&[2, 6])] = random.nonzero_byte();
    }),
    ("cylinder at the end of a pack", |random, extent| {
        let at = random.pick(&[0, 4]);
        extent[at..at + 2].copy_from_slice(&random.pick(&BORDERS).to_be_bytes());
    }),
    ("last track at the end of a pack", |random, extent| {
        extent[4..].copy_from_slice(&encode::track_address(border_track(random)));
    }),
    ("tracks at the ends of packs", |random, extent| {
        let mut tracks = [0, 1].map(|_| border_track(random));
        tracks.sort();
        *extent = tracks.map(encode::track_address).concat();
    }),
];
