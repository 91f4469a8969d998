//! Chains that go from step to step on small tracks, whatever comes of a search.

use super::{limit, ForbiddenSteps, GeneratedRun};
use crate::models::borders_on;
use crate::random::Random;
use crate::simulator::channel::{CCW_LENGTH, FLAG_CHAIN_COMMAND, FLAG_SKIP, FLAG_SUPPRESS_LENGTH};
use crate::simulator::drive::{
    Operand, MASK_SEEK_INHIBITED, NO_OPERATION, READ_COUNT, READ_COUNT_KEY_DATA,
    READ_COUNT_KEY_DATA_MULTITRACK, READ_COUNT_MULTITRACK, READ_DATA, READ_DATA_MULTITRACK,
    READ_HOME_ADDRESS, READ_KEY_DATA, READ_KEY_DATA_MULTITRACK, SEARCH_ID_EQUAL,
    SEARCH_ID_EQUAL_MULTITRACK, SEEK, SET_FILE_MASK, SET_SECTOR,
};
use crate::simulator::encode;
use crate::simulator::large::{place_of, track_at};
use crate::simulator::model::Model;
use crate::simulator::pack::TrackAddress;

#[derive(Clone, Copy)]
pub enum Step {
    /// By this command for this R of the first track, or of one behind it.
    Search(u8, usize, u8),
    Command(u8),
}

/// Those of which every sequence is tried on one track.
pub const FEW: [Step; 8] = [
    Step::Search(SEARCH_ID_EQUAL, 0, 0),
    Step::Search(SEARCH_ID_EQUAL, 0, 1),
    Step::Search(SEARCH_ID_EQUAL, 0, NO_RECORD),
    Step::Command(READ_DATA),
    Step::Command(READ_COUNT),
    Step::Command(READ_COUNT_KEY_DATA),
    Step::Command(READ_HOME_ADDRESS),
    Step::Command(NO_OPERATION),
];

/// Those of which every sequence is tried over several heads.
pub const FEW_OVER_HEADS: [Step; 8] = [
    Step::Search(SEARCH_ID_EQUAL_MULTITRACK, 1, 0),
    Step::Search(SEARCH_ID_EQUAL_MULTITRACK, 0, NO_RECORD),
    Step::Search(SEARCH_ID_EQUAL, 0, NO_RECORD),
    Step::Command(READ_DATA),
    Step::Command(READ_DATA_MULTITRACK),
    Step::Command(READ_COUNT_MULTITRACK),
    Step::Command(READ_COUNT_KEY_DATA_MULTITRACK),
    Step::Command(NO_OPERATION),
];

/// Those that find nothing, of which every longer sequence is tried.
pub const IN_VAIN: [Step; 2] = [
    Step::Search(SEARCH_ID_EQUAL, 0, NO_RECORD),
    Step::Search(SEARCH_ID_EQUAL_MULTITRACK, 0, NO_RECORD),
];

/// Searches that are mostly vain pass the index now and then.
const MANY: [Step; 24] = [
    Step::Search(SEARCH_ID_EQUAL, 0, 0),
    Step::Search(SEARCH_ID_EQUAL, 0, 1),
    Step::Search(SEARCH_ID_EQUAL, 1, 2),
    Step::Search(SEARCH_ID_EQUAL, 0, NO_RECORD),
    Step::Search(SEARCH_ID_EQUAL, 0, NO_RECORD),
    Step::Search(SEARCH_ID_EQUAL, 0, NO_RECORD),
    Step::Search(SEARCH_ID_EQUAL, 0, NO_RECORD),
    Step::Search(SEARCH_ID_EQUAL_MULTITRACK, 1, 0),
    Step::Search(SEARCH_ID_EQUAL_MULTITRACK, 1, 1),
    Step::Search(SEARCH_ID_EQUAL_MULTITRACK, 0, NO_RECORD),
    Step::Command(READ_DATA),
    Step::Command(READ_DATA),
    Step::Command(READ_KEY_DATA),
    Step::Command(READ_COUNT),
    Step::Command(READ_COUNT_KEY_DATA),
    Step::Command(READ_DATA_MULTITRACK),
    Step::Command(READ_KEY_DATA_MULTITRACK),
    Step::Command(READ_COUNT_MULTITRACK),
    Step::Command(READ_COUNT_KEY_DATA_MULTITRACK),
    Step::Command(READ_HOME_ADDRESS),
    Step::Command(NO_OPERATION),
    Step::Command(SET_SECTOR),
    Step::Command(SET_FILE_MASK),
    Step::Command(SEEK),
];

/// An R that no track has.
const NO_RECORD: u8 = 9;

/// A seek argument, its first byte a mask and a sector of zeros as well; behind it the IDs of each R,
/// track by track.
const IDS: usize = 6;

/// Count and storage of a read: a count area, a key of one byte, data of up to five.
const ROOM: usize = 8 + 1 + 5;

/// Every sequence of so many of these.
pub fn every(length: usize, of: &[Step]) -> Vec<Vec<Step>> {
    (0..length).fold(vec![Vec::new()], |shorter, _| {
        let longer = shorter.iter().flat_map(|before| {
            let with = |step: &Step| [&before[..], &[*step]].concat();
            of.iter().map(with)
        });
        longer.collect()
    })
}

pub fn random_steps(random: &mut Random) -> GeneratedRun {
    let how_many = random.within(4..=40);
    let steps: Vec<Step> = (0..how_many).map(|_| random.pick(&MANY)).collect();
    let heads = random.within(1..=4);
    let records: Vec<u8> = (0..heads).map(|_| random.within(0..=3) as u8).collect();
    let model = random.pick(Model::ALL);
    let at_the_end = place_of(TrackAddress {
        cylinder: random.pick(borders_on(model)),
        head: 0,
    });
    let first = random.pick(&[0, 0, 19 - heads, at_the_end, at_the_end + 19 - heads]);
    GeneratedRun {
        model: model.number(),
        limit: limit(random),
        ..stepped(first, &records, &steps)
    }
}

/// The steps over adjacent tracks with R0 and so many records each, then a read count that shows where
/// the drive is. Each read has storage of its own.
pub fn stepped(first: usize, records: &[u8], steps: &[Step]) -> GeneratedRun {
    let seek = encode::ccw(SEEK, 0, FLAG_CHAIN_COMMAND, 6);
    let front = if first > 0 { &seek[..] } else { &[] };
    stepped_behind(front, first, records, steps)
}

/// The same under a mask that forbids steps to the next head.
pub fn forbidden(first: usize, records: &[u8], steps: &[Step]) -> ForbiddenSteps {
    let mask = place_of_id(records.len() + 1, 0);
    let front = [
        encode::ccw(SEEK, 0, FLAG_CHAIN_COMMAND, 6),
        encode::ccw(SET_FILE_MASK, mask, FLAG_CHAIN_COMMAND, 1),
    ];
    let mut run = stepped_behind(front.as_flattened(), first, records, steps);
    run.arguments.push(MASK_SEEK_INHIBITED);
    ForbiddenSteps {
        run,
        sought: track_at(first),
        mask,
    }
}

/// Place in the arguments of the ID of an R of the first track, or of one behind it.
fn place_of_id(track: usize, number: u8) -> usize {
    IDS + 5 * (track * usize::from(NO_RECORD + 1) + usize::from(number))
}

fn stepped_behind(front: &[u8], first: usize, records: &[u8], steps: &[Step]) -> GeneratedRun {
    let mut chain = front.to_vec();
    let mut storage = 0;
    let last = Step::Command(READ_COUNT);
    for (step, chained) in steps
        .iter()
        .map(|&step| (step, FLAG_CHAIN_COMMAND))
        .chain([(last, 0)])
    {
        chain.extend(match step {
            Step::Search(command, track, number) => {
                encode::ccw(command, place_of_id(track, number), chained, 5)
            }
            Step::Command(command) if Operand::of(command) == Operand::Storage => {
                storage += ROOM;
                let flags = chained | FLAG_SUPPRESS_LENGTH;
                encode::ccw(command, storage - ROOM, flags, ROOM as u16)
            }
            Step::Command(SEEK) => encode::ccw(SEEK, 0, chained, 6),
            Step::Command(command) => encode::ccw(command, 0, chained | FLAG_SKIP, 1),
        });
        if let Step::Search(..) = step {
            // Skipped or not, the next step is behind it.
            chain.extend(encode::ccw(0x08, chain.len() + CCW_LENGTH, 0, 0));
        }
    }
    let mut arguments = vec![0, 0];
    arguments.extend(encode::track_address(track_at(first)));
    let mut image = Vec::new();
    // One more than there are, which is searched for in vain.
    for place in 0..=records.len() {
        let track = track_at(first + place);
        let ids = (0..=NO_RECORD).flat_map(|number| {
            let [c0, c1, h0, h1] = encode::track_address(track);
            [c0, c1, h0, h1, number]
        });
        arguments.extend(ids);
        let Some(&records) = records.get(place) else {
            continue;
        };
        encode::put_home_address(&mut image, track);
        for number in 0..=records {
            let data = vec![0xD0 | number; usize::from(2 + number)];
            encode::put_record(&mut image, track, number, &[0xE0 | number], &data);
        }
    }
    GeneratedRun {
        chain,
        arguments,
        storage: vec![0xEE; storage],
        image,
        ..GeneratedRun::default()
    }
}

#[cfg(test)]
mod tests {
    use super::*;
    use crate::simulator::run::End;

    #[test]
    fn goes_on_behind_every_search() {
        let found = [
            Step::Search(SEARCH_ID_EQUAL, 0, 0),
            Step::Command(READ_DATA),
            Step::Search(SEARCH_ID_EQUAL, 0, NO_RECORD),
            Step::Command(READ_KEY_DATA),
        ];
        let mut run = stepped(0, &[2], &found);
        let outcome = run.simulated().unwrap();
        assert_eq!(outcome.end, End::Chain);
        assert_eq!(run.storage[..3], [0xD0, 0xD0, 0xEE]);
        assert_eq!(run.storage[ROOM..ROOM + 5], [0xE1, 0xD1, 0xD1, 0xD1, 0xEE]);
        assert_eq!(run.storage[2 * ROOM + 4], 2);
    }

    #[test]
    fn goes_on_over_heads() {
        let over = [
            Step::Command(READ_COUNT_KEY_DATA),
            Step::Search(SEARCH_ID_EQUAL_MULTITRACK, 1, 0),
            Step::Command(READ_DATA),
            Step::Command(READ_COUNT_MULTITRACK),
        ];
        let mut run = stepped(16, &[1, 0, 3], &over);
        let outcome = run.simulated().unwrap();
        assert_eq!(outcome.end, End::Chain);
        assert_eq!(run.storage[..5], [0, 0, 0, 16, 1]);
        assert_eq!(run.storage[ROOM..ROOM + 3], [0xD0, 0xD0, 0xEE]);
        assert_eq!(run.storage[2 * ROOM..2 * ROOM + 5], [0, 0, 0, 18, 1]);
        assert_eq!(run.storage[3 * ROOM + 4], 2);
    }

    #[test]
    fn the_mask_forbids_the_first_step() {
        let over = [Step::Command(READ_COUNT_MULTITRACK)].repeat(2);
        let mut chain = forbidden(16, &[1, 0, 3], &over);
        let outcome = chain.allowed().simulated().unwrap();
        assert_eq!((outcome.end, outcome.mask), (End::Chain, Some(0)));
        let outcome = chain.run.simulated().unwrap();
        assert_eq!(outcome.mask, Some(MASK_SEEK_INHIBITED));
        assert_eq!((outcome.sense[1], outcome.sense[6]), (0x04, 16));
    }

    #[test]
    fn every_sequence() {
        assert_eq!(every(5, &FEW).len(), FEW.len().pow(5));
        assert_eq!(every(8, &IN_VAIN).len(), 256);
        assert!(every(3, &FEW_OVER_HEADS)
            .iter()
            .all(|steps| steps.len() == 3));
    }
}
