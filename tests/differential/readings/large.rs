//! Readings with as many recoveries as there may be, and one more; areas as long as they may be, and
//! longer. Few, since they take their time.

use crate::compare::{Comparison, Disagreement};
use crate::generate::decoded;
use crate::lendings::GeneratedReading;
use crate::limits::{faults_of_last_records, MOST_FAULTS};
use crate::simulator::channel::CCW_LENGTH;
use crate::simulator::encode::{self, ccw};
use crate::simulator::extent::whole_pack;
use crate::simulator::large::{cylinder_of, image_of, track_of, TracksOf};
use crate::simulator::model::Model;
use crate::simulator::pack::LONGEST_RECORD;
use crate::simulator::sample;

const LONGEST_IMAGE: usize = 1_048_576;
const LONGEST_STORAGE: usize = 65_536;
const LONGEST_CHAIN: usize = 2_048;

pub fn compare_all(comparison: &mut Comparison) -> Result<(), Disagreement> {
    Model::ALL
        .iter()
        .try_for_each(|model| compare_on(comparison, model.number()))
}

fn compare_on(comparison: &mut Comparison, model: u8) -> Result<(), Disagreement> {
    let mut compare = |kind, reading| {
        let reading = GeneratedReading { model, ..reading };
        comparison.reading(kind, &reading)
    };
    for how_many in [9, 99, 254, 255, 256] {
        compare("reads, all cut", reads(how_many))?;
    }
    compare("2,048 recoveries", round(16, 1))?;
    compare("4,096 recoveries", round(32, 1))?;
    compare("4,096 recoveries, one more cut", round(32, 2))?;
    for before in 1..=4 {
        compare("restarted run to its limit", endless_behind(before))?;
    }
    for ccws in [1, 2, 200, 254] {
        compare("long records", long_records(ccws))?;
    }
    compare("19 heads, all cut", heads())?;
    compare("5,041 faults", most_faults())?;
    compare("full image", full_image())?;
    for (name, lengthen) in LONGER {
        let mut reading = reads(4);
        lengthen(&mut reading);
        compare(name, reading)?;
    }
    Ok(())
}

/// With the last records of the image faulted, so many of them.
fn over(image: Vec<u8>, faulted: usize, ccws: &[[u8; CCW_LENGTH]]) -> GeneratedReading {
    GeneratedReading {
        chain: ccws.concat(),
        storage: vec![0xEE; LONGEST_STORAGE],
        faults: faults_of_last_records(&decoded(Model::One, &image), faulted),
        image,
        extent: whole_pack(Model::One).to_vec(),
        ..GeneratedReading::default()
    }
}

/// So many 06, one behind the other: each is recovered from by 5A, the last is finished.
fn reads(how_many: usize) -> GeneratedReading {
    let ccws: Vec<_> = (0..how_many)
        .map(|place| {
            let flags = if place + 1 == how_many { 0 } else { 0x40 };
            ccw(0x06, place, flags, 1)
        })
        .collect();
    over(track_of(255, 1), 255, &ccws)
}

/// Every second record of 255 is read and the others are passed by a search for R254, so many times
/// in turn: 127 reads the first time, 128 every further time. The last reads are one behind the
/// other.
fn round(times: usize, last_reads: usize) -> GeneratedReading {
    let mut ccws = Vec::new();
    for _ in 0..times {
        let start = ccws.len() * CCW_LENGTH;
        ccws.push(ccw(0x1E, start, 0x40, 9));
        ccws.push(ccw(0x31, 0, 0x40, 5));
        ccws.push(ccw(0x08, start, 0, 0));
    }
    for place in 1..=last_reads {
        let flags = if place == last_reads { 0 } else { 0x40 };
        ccws.push(ccw(0x1E, 60_000 + 9 * place, flags, 9));
    }
    let id_of_r254 = vec![0, 0, 0, 0, 254];
    GeneratedReading {
        arguments: id_of_r254,
        ..over(track_of(255, 1), 255, &ccws)
    }
}

/// Each record of a cylinder taken by an 86 in a loop, from head to head; End of Cylinder at the last
/// restart's 92.
fn heads() -> GeneratedReading {
    let ccws = [ccw(0x86, 0, 0x40, 1), ccw(0x08, 0, 0, 0)];
    over(cylinder_of(|_| 60, 1), 19 * 60, &ccws)
}

/// So many reads that are cut, then three no-operations again and again.
fn endless_behind(reads: usize) -> GeneratedReading {
    let mut ccws = vec![ccw(0x06, 0, 0x40, 1); reads];
    ccws.extend([1, 2, 3].map(|count| ccw(0x03, 0, 0x40, count)));
    ccws.push(ccw(0x08, reads * CCW_LENGTH, 0, 0));
    over(track_of(255, 1), 255, &ccws)
}

/// Records of 13,030 bytes: one read by so many CCWs that lie close together, then one by a 1E.
fn long_records(ccws: usize) -> GeneratedReading {
    let each = LONGEST_RECORD / ccws;
    let last = LONGEST_RECORD - each * (ccws - 1);
    let mut chain: Vec<_> = (1..ccws)
        .map(|place| ccw(0x06, 40 * place, 0x80, each as u16))
        .collect();
    chain.push(ccw(0x06, 40 * ccws, 0x40, last as u16));
    chain.push(ccw(0x1E, LONGEST_STORAGE - 13_038, 0, 13_038));
    over(track_of(3, LONGEST_RECORD), 3, &chain)
}

/// Reads over tracks of which a list as long as it may be names the records.
fn most_faults() -> GeneratedReading {
    let ccws = [
        ccw(0x07, 0, 0x40, 6),
        ccw(0x1E, 0, 0x40, 9),
        ccw(0x08, 8, 0, 0),
    ];
    let image = image_of(65_000, TracksOf::MANY_RECORDS);
    GeneratedReading {
        arguments: vec![0, 0, 0, 0, 0, 1],
        limit: 50,
        ..over(image, MOST_FAULTS, &ccws)
    }
}

/// The last track that has all its records, of an image as long as it may be.
fn full_image() -> GeneratedReading {
    let ccws = [
        ccw(0x07, 0, 0x40, 6),
        ccw(0x06, 0, 0x40, 48),
        ccw(0x0E, 48, 0x40, 48),
        ccw(0x1E, 96, 0, 56),
    ];
    let image = image_of(LONGEST_IMAGE, TracksOf::TWO_RECORDS);
    let pack = decoded(Model::One, &image);
    let tracks: Vec<_> = pack.tracks().map(|(track, _)| track).collect();
    let track = encode::track_address(tracks[tracks.len() - 2]);
    GeneratedReading {
        arguments: [&[0, 0], &track[..]].concat(),
        ..over(image, 8, &ccws)
    }
}

type Lengthen = (&'static str, fn(&mut GeneratedReading));

const LONGER: [Lengthen; 5] = [
    ("chain of 2,056 bytes", |reading| {
        reading.chain.resize(LONGEST_CHAIN + CCW_LENGTH, 0);
    }),
    ("arguments of 4,097 bytes", |reading| {
        reading.arguments.resize(4_097, 0);
    }),
    ("storage of 65,537 bytes", |reading| reading.storage.push(0)),
    ("image of 1,048,577 bytes", |reading| {
        reading.image = image_of(LONGEST_IMAGE + 1, TracksOf::LONG_RECORD);
    }),
    ("fault list of 65,537 bytes", |reading| {
        reading.faults = sample::FAULTS.repeat(5_042);
        reading.faults.truncate(65_537);
    }),
];
