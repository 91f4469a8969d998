//! Runs with areas as long as they may be, and longer. Few, since they take their time.

use super::started;
use crate::chains::{GeneratedRestart, GeneratedRun};
use crate::compare::{Comparison, Disagreement};
use crate::generate::decoded;
use crate::limits::{faults_of_last_records, MOST_FAULTS};
use crate::simulator::channel::CCW_LENGTH;
use crate::simulator::encode;
use crate::simulator::large::{cylinder_of, image_of, track_at, TracksOf};
use crate::simulator::model::Model;
use crate::simulator::pack::LAST_HEAD;
use crate::simulator::sample;

const LONGEST_IMAGE: usize = 1_048_576;
const LONGEST_STORAGE: usize = 65_536;
const LONGEST_ARGUMENTS: usize = 4_096;
const LONGEST_CHAIN: usize = 2_048;

pub fn compare_all(comparison: &mut Comparison) -> Result<(), Disagreement> {
    Model::ALL
        .iter()
        .try_for_each(|model| compare_on(comparison, model.number()))
}

fn compare_on(comparison: &mut Comparison, model: u8) -> Result<(), Disagreement> {
    let mut compare = |kind, run| comparison.run(kind, GeneratedRun { model, ..run });
    for restarted in [false, true] {
        for (kind, run) in [
            ("search to the limit", searched_to_the_limit()),
            ("long records to the limit", long_records()),
            ("255 CCWs in a read", many_ccws()),
            ("5,041 faults", most_faults()),
            ("19 heads to the limit", heads_to_the_limit()),
            ("18 steps in a read", steps_in_a_read(1)),
            ("18 steps in a read, then none", steps_in_a_read(0)),
        ] {
            compare(kind, started(run, restarted))?;
        }
        // A restart adds a command of its own.
        let (step, idle) = if restarted { (32, 31) } else { (16, 16) };
        let last = ends_after(step, idle);
        compare("last command ends it", started(last, restarted))?;
        let past = ends_after(step, idle + 1);
        compare("one command past the limit", started(past, restarted))?;
        for (name, lengthen) in LONGER {
            let mut run = started(many_ccws(), restarted);
            lengthen(&mut run);
            compare(name, run)?;
        }
    }
    for (name, lengthen) in RESTART_LONGER {
        let mut run = started(many_ccws(), true);
        lengthen(run.restart.as_mut().expect("a restarted run"));
        compare(name, run)?;
    }
    Ok(())
}

/// Over a full image, with arguments and storage full; the chain first seeks the last track that has
/// all its records, and the ID of the last of them ends the arguments.
fn over(tracks: TracksOf, ccws: &[[u8; CCW_LENGTH]]) -> GeneratedRun {
    let image = image_of(LONGEST_IMAGE, tracks);
    let pack = decoded(Model::One, &image);
    let places: Vec<_> = pack.tracks().map(|(track, _)| track).collect();
    let track = encode::track_address(places[places.len() - 2]);
    let mut arguments = vec![0; LONGEST_ARGUMENTS];
    arguments[2..6].copy_from_slice(&track);
    arguments[LONGEST_ARGUMENTS - 5..LONGEST_ARGUMENTS - 1].copy_from_slice(&track);
    arguments[LONGEST_ARGUMENTS - 1] = tracks.records;
    let mut chain = encode::ccw(0x07, 0, 0x40, 6).to_vec();
    chain.extend(ccws.as_flattened());
    GeneratedRun {
        chain,
        arguments,
        storage: vec![0xEE; LONGEST_STORAGE],
        image,
        ..GeneratedRun::default()
    }
}

/// The last record of 255 searched for again and again.
fn searched_to_the_limit() -> GeneratedRun {
    over(
        TracksOf::MANY_RECORDS,
        &[
            encode::ccw(0x31, LONGEST_ARGUMENTS - 5, 0x40, 5),
            encode::ccw(0x08, 8, 0, 0),
            encode::ccw(0x03, 0, 0x40, 1),
            encode::ccw(0x08, 8, 0, 0),
        ],
    )
}

/// A record of 13,030 bytes read to the end of storage again and again.
fn long_records() -> GeneratedRun {
    over(
        TracksOf::LONG_RECORD,
        &[
            encode::ccw(0x1E, LONGEST_STORAGE - 13_038, 0x40, 13_038),
            encode::ccw(0x08, 8, 0, 0),
        ],
    )
}

/// A chain of 2,048 bytes: a seek, then one read of 255 CCWs; the last takes what 254 times 51 leave.
fn many_ccws() -> GeneratedRun {
    let last = LONGEST_CHAIN / CCW_LENGTH - 2;
    let ccws: Vec<_> = (0..=last)
        .map(|place| {
            let (flags, count) = if place == last { (0, 84) } else { (0x80, 51) };
            encode::ccw(0x1E, place * 200, flags, count)
        })
        .collect();
    over(TracksOf::LONG_RECORD, &ccws)
}

/// Reads from a track on which the list, as long as it may be, begins to name records.
fn most_faults() -> GeneratedRun {
    let image = image_of(65_000, TracksOf::MANY_RECORDS);
    let faults = faults_of_last_records(&decoded(Model::One, &image), MOST_FAULTS);
    let ccws = [
        encode::ccw(0x07, 0, 0x40, 6),
        encode::ccw(0x1E, 0, 0x40, 9),
        encode::ccw(0x08, 8, 0, 0),
    ];
    GeneratedRun {
        chain: ccws.concat(),
        arguments: vec![0, 0, 0, 0, 0, 1],
        storage: vec![0xEE; 9],
        image,
        faults,
        ..GeneratedRun::default()
    }
}

/// Ends after `step` times 255 commands and those that are idle; `step` is prime to 255. The last of
/// 255 records has no data, and of `step` records one is taken for its data.
fn ends_after(step: usize, idle: usize) -> GeneratedRun {
    let mut ccws = vec![encode::ccw(0x03, 0, 0x40, 1); idle];
    ccws.extend(vec![encode::ccw(0x12, 0, 0x50, 8); step - 1]);
    ccws.push(encode::ccw(0x1E, 0, 0x40, 9));
    ccws.push(encode::ccw(0x08, idle * CCW_LENGTH, 0, 0));
    let track = track_at(0);
    let mut image = Vec::new();
    encode::put_home_address(&mut image, track);
    for number in 0..=255 {
        let data: &[u8] = if number == 255 { &[] } else { &[number] };
        encode::put_record(&mut image, track, number, &[], data);
    }
    GeneratedRun {
        chain: ccws.concat(),
        arguments: Vec::new(),
        storage: vec![0xEE; 9],
        image,
        ..GeneratedRun::default()
    }
}

/// Over a cylinder with so many records of 3 bytes after R0 on each head.
fn over_heads(records: impl Fn(u16) -> u8, ccws: &[[u8; CCW_LENGTH]]) -> GeneratedRun {
    GeneratedRun {
        chain: ccws.concat(),
        storage: vec![0xEE; 14],
        image: cylinder_of(records, 3),
        ..GeneratedRun::default()
    }
}

/// Each record's count area passed, then its data taken, from head to head.
fn heads_to_the_limit() -> GeneratedRun {
    over_heads(
        |_| 120,
        &[
            encode::ccw(0x92, 0, 0x50, 8),
            encode::ccw(0x86, 0, 0x40, 3),
            encode::ccw(0x08, 0, 0, 0),
        ],
    )
}

/// Tracks with R0 alone but for the last, which has so many records: the read past it is End of
/// Cylinder.
fn steps_in_a_read(on_the_last: u8) -> GeneratedRun {
    over_heads(
        |head| if head == LAST_HEAD { on_the_last } else { 0 },
        &[encode::ccw(0x9E, 0, 0x40, 11), encode::ccw(0x86, 11, 0, 3)],
    )
}

type Lengthen<T> = (&'static str, fn(&mut T));

const LONGER: [Lengthen<GeneratedRun>; 5] = [
    ("chain of 2,056 bytes", |run| {
        run.chain.resize(LONGEST_CHAIN + CCW_LENGTH, 0);
    }),
    ("arguments of 4,097 bytes", |run| run.arguments.push(0)),
    ("storage of 65,537 bytes", |run| run.storage.push(0)),
    ("image of 1,048,577 bytes", |run| {
        run.image = image_of(LONGEST_IMAGE + 1, TracksOf::LONG_RECORD);
    }),
    ("fault list of 65,537 bytes", |run| {
        run.faults = sample::FAULTS.repeat(5_042);
        run.faults.truncate(65_537);
    }),
];

const RESTART_LONGER: [Lengthen<GeneratedRestart>; 4] = [
    ("restart program of 63 bytes", |restart| {
        restart.program.pop();
    }),
    ("restart program of 72 bytes", |restart| {
        restart.program.resize(72, 0);
    }),
    ("restart arguments of 15 bytes", |restart| {
        restart.arguments.pop();
    }),
    ("restart arguments of 17 bytes", |restart| {
        restart.arguments.push(0);
    }),
];
