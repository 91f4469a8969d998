//! Chains with no plan.

use super::ground::{any_track, Ground};
use super::GeneratedRun;
use crate::random::Random;
use crate::simulator::channel::CCW_LENGTH;
use crate::simulator::drive::{
    is_multitrack, single_track, Operand, NO_OPERATION, READ_COUNT, READ_COUNT_KEY_DATA,
    READ_COUNT_KEY_DATA_MULTITRACK, READ_COUNT_MULTITRACK, READ_DATA, READ_DATA_MULTITRACK,
    READ_HOME_ADDRESS, READ_KEY_DATA, READ_KEY_DATA_MULTITRACK, SEARCH_ID_EQUAL,
    SEARCH_ID_EQUAL_MULTITRACK, SEEK, SET_FILE_MASK, SET_SECTOR,
};
use crate::simulator::encode;

pub const COMMANDS: [u8; 15] = [
    NO_OPERATION,
    SEEK,
    SET_FILE_MASK,
    SET_SECTOR,
    SEARCH_ID_EQUAL,
    READ_DATA,
    READ_KEY_DATA,
    READ_COUNT,
    READ_COUNT_KEY_DATA,
    READ_HOME_ADDRESS,
    SEARCH_ID_EQUAL_MULTITRACK,
    READ_DATA_MULTITRACK,
    READ_KEY_DATA_MULTITRACK,
    READ_COUNT_MULTITRACK,
    READ_COUNT_KEY_DATA_MULTITRACK,
];

pub fn multitrack_commands() -> impl Iterator<Item = u8> {
    COMMANDS.into_iter().filter(|&code| is_multitrack(code))
}

pub fn random_bytes(random: &mut Random) -> GeneratedRun {
    let ground = Ground::new(random);
    let ccws = random.within(1..=8);
    let arguments = random.within(0..=300);
    let (chain, arguments) = (random.bytes(ccws * CCW_LENGTH), random.bytes(arguments));
    GeneratedRun::of(random, ground, chain, arguments)
}

/// CCWs that are each likely, put together without regard to each other.
pub fn random_ccws(random: &mut Random) -> GeneratedRun {
    let ground = Ground::new(random);
    let arguments = Arguments::new(random, &ground);
    let ccws = random.within(1..=24);
    let mut chain = Vec::new();
    for _ in 0..ccws {
        let command = match random.below(16) {
            0 => random.byte(),
            1..=3 if !chain.is_empty() => 0x08,
            _ => random.pick(&COMMANDS),
        };
        let (address, count) = match command {
            0x08 => (random.below(ccws) * CCW_LENGTH, 0),
            _ => arguments.for_command(random, command, ground.storage),
        };
        let any = random.byte();
        let flags = random.pick(&[
            0x40, 0x40, 0x40, 0x40, 0x60, 0x60, 0x50, 0x70, 0x00, 0x80, 0xC0, 0xA0, 0x90, any,
        ]);
        chain.extend(encode::ccw(command, address, flags, count as u16));
    }
    let mut run = GeneratedRun::of(random, ground, chain, arguments.bytes);
    run.limit = run.limit.min(400);
    run
}

/// An area of seek arguments, then IDs, then masks and sectors.
struct Arguments {
    bytes: Vec<u8>,
    ids: usize,
    singles: usize,
}

impl Arguments {
    fn new(random: &mut Random, ground: &Ground) -> Arguments {
        let mut bytes = Vec::new();
        for (track, _) in ground.pack().tracks() {
            bytes.extend([0, 0]);
            bytes.extend(encode::track_address(track));
        }
        bytes.extend([0, 0]);
        bytes.extend(encode::track_address(any_track(random, ground.model)));
        let ids = bytes.len();
        for (_, records) in ground.pack().tracks() {
            bytes.extend(records.iter().flat_map(|record| &record.count_area[..5]));
        }
        bytes.extend([0; 5]);
        let singles = bytes.len();
        bytes.extend([0x00, 0x01, 0x18, 0x7F, 0xC0, random.byte()]);
        Arguments {
            bytes,
            ids,
            singles,
        }
    }

    /// An address and a count, most of the time such as the command wants.
    fn for_command(&self, random: &mut Random, command: u8, storage: usize) -> (usize, usize) {
        let (address, count) = match single_track(command) {
            SEEK => (6 * random.below(self.ids / 6), 6),
            SEARCH_ID_EQUAL => {
                let ids = (self.singles - self.ids) / 5;
                (self.ids + 5 * random.below(ids), 5)
            }
            SET_FILE_MASK | SET_SECTOR => {
                let place = random.within(self.singles..=self.bytes.len() - 1);
                (place, 1)
            }
            _ if Operand::of(command) == Operand::Storage => {
                let count = random.pick(&[1, 2, 4, 5, 8, 8, 10, 16]);
                (random.within(0..=storage.saturating_sub(count)), count)
            }
            _ => (random.below(0x100_0000), random.within(0..=20)),
        };
        if random.once_in(32) {
            (address + 1, random.pick(&[count, count + 1, count / 2]))
        } else {
            (address, count)
        }
    }
}
