//! Reports of reads that no drive made: data chains of few bytes each in little storage, so that
//! their stretches overlap often. The walk is the simulator's, and the CSW is what it comes to.

use super::{any_mask, any_track, extent_around, Planned};
use crate::random::Random;
use crate::simulator::channel::{
    Channel, Program, Status, CCW_LENGTH, CHANNEL_INCORRECT_LENGTH, FLAG_CHAIN_COMMAND,
    FLAG_CHAIN_DATA, FLAG_PCI, FLAG_SKIP, FLAG_SUPPRESS_LENGTH, UNIT_CHECK, UNIT_END,
};
use crate::simulator::drive::{READ_DATA, TAKING_DATA};
use crate::simulator::encode;
use crate::simulator::model::Model;
use crate::simulator::recovery::DATA_AREA_FORMAT;
use crate::simulator::report::Report;

pub fn made_up(random: &mut Random) -> Planned {
    let model = random.pick(Model::ALL);
    let storage = random.within(4..=24);
    let mut chain = Vec::new();
    for _ in 0..random.pick(&[0, 0, 1, 3]) {
        chain.extend(random.bytes(CCW_LENGTH));
    }
    let first = chain.len();
    let counted = put_data_chain(random, &mut chain, storage);
    put_behind(random, &mut chain);
    let restart = random.within(1..=counted + 3);
    let mut report = reported(random, &chain, first, restart, storage);
    let track = any_track(random, model);
    report.sense[8..12].copy_from_slice(&encode::track_address(track));
    Planned {
        model,
        chain,
        storage: random.bytes(storage),
        extent: extent_around(random, model, track),
        report,
    }
}

/// A read of one to seven CCWs; how many bytes they count.
fn put_data_chain(random: &mut Random, chain: &mut Vec<u8>, storage: usize) -> usize {
    let ccws = random.pick(&[1, 2, 2, 3, 4, 7]);
    let mut counted = 0;
    for place in 0..ccws {
        let is_last = place + 1 == ccws;
        let code = match place {
            0 => random.pick(&TAKING_DATA),
            _ => random.pick(&[READ_DATA, 0x00, 0x03, 0xFF]),
        };
        let flags = if is_last && !random.once_in(8) {
            let last = [FLAG_CHAIN_COMMAND, FLAG_CHAIN_COMMAND, 0];
            random.pick(&last) | random.pick(&[FLAG_SUPPRESS_LENGTH, 0])
        } else {
            FLAG_CHAIN_DATA | random.pick(&[0, 0, FLAG_SUPPRESS_LENGTH, FLAG_CHAIN_COMMAND])
        };
        let idle = random.pick(&[0, 0, 0, 0, FLAG_PCI]);
        let skip = random.pick(&[0, 0, 0, 0, FLAG_SKIP]);
        let count = random.within(1..=4);
        let address = random.within(0..=storage - count);
        chain.extend(encode::ccw(
            code,
            address,
            flags | idle | skip,
            count as u16,
        ));
        counted += count;
        if !is_last && random.once_in(4) {
            put_tic(random, chain);
        }
    }
    counted
}

/// To the CCW behind it; now and then to one before, and the data chain goes round.
fn put_tic(random: &mut Random, chain: &mut Vec<u8>) {
    let here = chain.len();
    let target = if random.once_in(4) {
        random.below(here / CCW_LENGTH) * CCW_LENGTH
    } else {
        here + CCW_LENGTH
    };
    chain.extend(encode::ccw(0x08, target, 0, 0));
}

/// What the restart would go on with: a command, one behind a TIC, or nothing.
fn put_behind(random: &mut Random, chain: &mut Vec<u8>) {
    if random.once_in(4) {
        put_tic(random, chain);
    }
    for _ in 0..random.pick(&[0, 1, 1, 1, 2]) {
        chain.extend(random.bytes(CCW_LENGTH));
    }
}

/// The report of a read that began at `first` and brought `restart` bytes, of no track yet.
fn reported(
    random: &mut Random,
    chain: &[u8],
    first: usize,
    restart: usize,
    storage: usize,
) -> Report {
    let near = restart.min(random.within(1..=4));
    let anywhere = random.within(1..=restart);
    let error = random.pick(&[near, near, restart, anywhere]);
    let mut sense = [0; 24];
    sense[0] = 0x08;
    sense[2] = 0x40;
    sense[7] = DATA_AREA_FORMAT;
    sense[12] = random.byte();
    sense[13] = random.below(128) as u8;
    sense[15..18].copy_from_slice(&(restart as u32).to_be_bytes()[1..]);
    sense[18..20].copy_from_slice(&(error as u16).to_be_bytes());
    sense[20..23].copy_from_slice(&random.bytes(3));
    sense[23] = random.below(2) as u8;
    Report {
        sense,
        csw: ended(chain, first, restart, storage),
        first,
        mask: any_mask(random),
        ..Report::default()
    }
}

/// The CSW that shows where the walk ends; that of a program check where it does not.
pub fn ended(chain: &[u8], first: usize, length: usize, storage: usize) -> [u8; 8] {
    let mut channel = Channel::new(Program::of_chain(chain), storage);
    let walked = channel
        .fetch(first)
        .and_then(|first| channel.walk(first, length, |_| ()));
    let status = match walked {
        Ok(end) => Status {
            unit: UNIT_END | UNIT_CHECK,
            channel: if end.is_incorrect_length() {
                CHANNEL_INCORRECT_LENGTH
            } else {
                0
            },
            count_left: end.count_left,
        },
        Err(_) => Status::PROGRAM_CHECK,
    };
    channel.csw(status)
}
