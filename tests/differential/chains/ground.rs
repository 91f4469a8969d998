//! Images of few records with their fault lists, so that a chain meets every record often.

use crate::generate::{self, written};
use crate::models::borders_on;
use crate::random::Random;
use crate::simulator::encode::{put_home_address, put_record};
use crate::simulator::model::Model;
use crate::simulator::pack::{Pack, TrackAddress, LAST_HEAD, LONGEST_RECORD};

pub struct Ground {
    pub model: Model,
    pub image: Vec<u8>,
    pub faults: Vec<u8>,
    /// Whether chains over it have multitrack commands.
    pub is_multitrack: bool,
    /// Bytes of storage.
    pub storage: usize,
}

/// Ascending; a run starts at the first. The last stand at the end of the pack, and where one of another
/// model ends.
fn tracks(model: Model) -> Vec<TrackAddress> {
    let mut tracks = vec![at(0, 0), at(0, 1), at(0, 18), at(1, 0), at(257, 1)];
    for &cylinder in borders_on(model) {
        let head = match is_last(cylinder) {
            true => LAST_HEAD,
            false => 0,
        };
        tracks.push(at(cylinder, head));
    }
    tracks
}

/// Whether a pack of some model ends with this cylinder.
fn is_last(cylinder: u16) -> bool {
    Model::ALL
        .iter()
        .any(|model| model.last_cylinder() == cylinder)
}

const fn at(cylinder: u16, head: u16) -> TrackAddress {
    TrackAddress { cylinder, head }
}

/// Adjacent heads: where a run starts; up to the last of a cylinder, the next one's first behind it; where a
/// pack of another model ends, and behind that; at the end of the pack. Each is there once in so many.
fn heads(model: Model) -> Vec<([TrackAddress; 4], usize)> {
    let last = model.last_cylinder();
    let ends = Model::ALL.iter().map(|model| model.last_cylinder());
    let behind_ends = ends.filter(|&end| end < last).map(|end| {
        let next = end + 1;
        ([at(end, 17), at(end, 18), at(next, 0), at(next, 1)], 1)
    });
    ([
        ([at(0, 0), at(0, 1), at(0, 2), at(0, 3)], 1),
        ([at(0, 16), at(0, 17), at(0, 18), at(1, 0)], 2),
    ]
    .into_iter())
    .chain(behind_ends)
    .chain([([15, 16, 17, 18].map(|head| at(last, head)), 2)])
    .collect()
}

pub fn any_track(random: &mut Random, model: Model) -> TrackAddress {
    random.pick(&tracks(model))
}

impl Ground {
    /// Of either model; four times in five multitrack.
    pub fn new(random: &mut Random) -> Ground {
        let model = random.pick(Model::ALL);
        let storage = storage(random);
        if random.once_in(5) {
            let image = image(random, model, put_track);
            Ground::of(random, model, storage, image, false)
        } else {
            let image = adjacent_heads(random, model);
            Ground::of(random, model, storage, image, true)
        }
    }

    /// Records up to the longest, and storage for most of them.
    pub fn long(random: &mut Random) -> Ground {
        let model = random.pick(Model::ALL);
        let storage = random.pick(&[4_096, 20_000, 65_535, 65_536]);
        let image = image(random, model, put_long_track);
        let is_multitrack = random.once_in(2);
        Ground::of(random, model, storage, image, is_multitrack)
    }

    /// Runs of adjacent heads anywhere on some cylinders, many of them with R0 alone; no faults.
    pub fn of_heads(random: &mut Random) -> Ground {
        let model = random.pick(Model::ALL);
        let mut image = Vec::new();
        for &cylinder in [0, 1, 257].iter().chain(borders_on(model)) {
            let is_last_chance = image.is_empty() && cylinder == model.last_cylinder();
            if is_last_chance || random.once_in(2) {
                let first = random.within(0..=LAST_HEAD.into());
                let heads = random.within(2..=12);
                let tracks = (first..first + heads).map(|head| at(cylinder, head as u16));
                let tracks: Vec<_> = tracks.filter(|track| track.head <= LAST_HEAD).collect();
                put_few_records(random, &mut image, &tracks);
            }
        }
        Ground {
            model,
            faults: Vec::new(),
            storage: storage(random),
            is_multitrack: true,
            image,
        }
    }

    fn of(
        random: &mut Random,
        model: Model,
        storage: usize,
        image: Vec<u8>,
        is_multitrack: bool,
    ) -> Ground {
        let pack = generate::decoded(model, &image);
        let faults = if random.once_in(2) {
            Vec::new()
        } else {
            written(&generate::faults(random, &pack))
        };
        Ground {
            model,
            faults,
            storage,
            is_multitrack,
            image,
        }
    }

    /// As `new`, with a fault where a record can have one.
    pub fn faulted(random: &mut Random) -> Ground {
        let mut ground = Ground::new(random);
        if ground.faults.is_empty() {
            ground.faults = written(&generate::faults(random, &ground.pack()));
        }
        ground
    }

    pub fn pack(&self) -> Pack<'_> {
        generate::decoded(self.model, &self.image)
    }
}

fn storage(random: &mut Random) -> usize {
    match random.below(16) {
        0 => 0,
        1 => random.within(1..=7),
        2..=5 => random.within(8..=40),
        6 => random.within(300..=600),
        _ => random.within(40..=200),
    }
}

type PutTrack = fn(&mut Random, &mut Vec<u8>, TrackAddress);

fn image(random: &mut Random, model: Model, put_track: PutTrack) -> Vec<u8> {
    let mut image = Vec::new();
    for (place, track) in tracks(model).into_iter().enumerate() {
        let left_out = if place == 0 {
            random.once_in(16)
        } else {
            !random.once_in(3)
        };
        if !left_out {
            put_track(random, &mut image, track);
        }
    }
    image
}

fn adjacent_heads(random: &mut Random, model: Model) -> Vec<u8> {
    let mut image = Vec::new();
    for (tracks, once_in) in heads(model) {
        if random.once_in(once_in) {
            put_few_records(random, &mut image, &tracks);
        }
    }
    image
}

/// Few records on each head, now and then R0 alone, now and then a hole.
fn put_few_records(random: &mut Random, image: &mut Vec<u8>, tracks: &[TrackAddress]) {
    for &track in tracks {
        if !random.once_in(10) {
            let others = random.pick(&[0, 0, 1, 1, 2, 2, 3]);
            put_records(random, image, track, others);
        }
    }
}

fn put_track(random: &mut Random, image: &mut Vec<u8>, track: TrackAddress) {
    let others = random.pick(&[0, 1, 2, 3, 3, 4, 5, 6]);
    put_records(random, image, track, others);
}

/// R0 and so many others.
fn put_records(random: &mut Random, image: &mut Vec<u8>, track: TrackAddress, others: usize) {
    put_home_address(image, track);
    let mut numbers: Vec<u8> = vec![1, 2, 3, 4, 5, random.within(6..=255) as u8];
    if random.once_in(2) {
        random.shuffle(&mut numbers);
    }
    numbers.truncate(others);
    let (key, data) = random.pick(&[(0, 8), (0, 8), (0, 8), (0, 0), (2, 3)]);
    let (key, data) = (random.bytes(key), random.bytes(data));
    put_record(image, track, 0, &key, &data);
    for number in numbers {
        let key = random.pick(&[0, 0, 0, 0, 1, 2, 5]);
        let data = match random.below(16) {
            0 | 1 => 0,
            2 | 3 => random.within(20..=60),
            _ => random.within(1..=12),
        };
        let (key, data) = (random.bytes(key), random.bytes(data));
        put_record(image, track, number, &key, &data);
    }
}

fn put_long_track(random: &mut Random, image: &mut Vec<u8>, track: TrackAddress) {
    put_home_address(image, track);
    let first = random.within(1..=253) as u8;
    for number in [0, first, first + 1, first + 2] {
        let key = random.pick(&[0, 0, 1, 255]);
        let any = random.within(1..=LONGEST_RECORD - key);
        let data = random.pick(&[255, 256, 257, any, LONGEST_RECORD - key]);
        let (key, data) = (random.bytes(key), random.bytes(data));
        put_record(image, track, number, &key, &data);
    }
}
