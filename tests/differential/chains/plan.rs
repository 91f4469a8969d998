//! Chains that seek, search and read as a program would, many of them to their end.

pub mod forbidden;

use super::ground::{any_track, Ground};
use super::GeneratedRun;
use crate::models::border_track;
use crate::random::Random;
use crate::simulator::channel::{
    CCW_LENGTH, FLAG_CHAIN_COMMAND, FLAG_CHAIN_DATA, FLAG_PCI, FLAG_SKIP, FLAG_SUPPRESS_LENGTH,
};
use crate::simulator::drive::{
    is_multitrack, Done, Drive, MASK_SEEK_INHIBITED, NO_OPERATION, NO_SECTOR, READ_COUNT,
    READ_COUNT_KEY_DATA, READ_COUNT_MULTITRACK, READ_DATA, READ_DATA_MULTITRACK, READ_HOME_ADDRESS,
    READ_KEY_DATA, READ_KEY_DATA_MULTITRACK, SEARCH_ID_EQUAL, SEEK, SET_FILE_MASK, SET_SECTOR,
};
use crate::simulator::encode;
use crate::simulator::faults::FaultList;
use crate::simulator::model::Model;
use crate::simulator::pack::{Pack, TrackAddress};

pub fn planned(random: &mut Random) -> GeneratedRun {
    let ground = Ground::new(random);
    planned_on(random, ground)
}

/// Lengths, counts and displacements of two bytes.
pub fn planned_long(random: &mut Random) -> GeneratedRun {
    let ground = Ground::long(random);
    planned_on(random, ground)
}

/// Up to here one more step and an end fit a chain.
const ROOM_LEFT: usize = 1_800;

/// A chain of any steps.
pub fn planned_on(random: &mut Random, ground: Ground) -> GeneratedRun {
    let steps = random.pick(&[1, 3, 6, 10, 16, 24]);
    of_steps(random, ground, steps, |plan| plan.step())
}

/// A chain that mostly reads.
pub fn planned_reads(random: &mut Random) -> GeneratedRun {
    let ground = Ground::new(random);
    let steps = random.within(2..=30);
    of_steps(random, ground, steps, |plan| match plan.random.below(6) {
        0 => plan.step(),
        1 => plan.search_once(),
        _ => plan.read(FLAG_CHAIN_COMMAND),
    })
}

/// A chain that begins and ends once, of so many steps or as many as it has room for.
fn of_steps(
    random: &mut Random,
    ground: Ground,
    steps: usize,
    step: fn(&mut Plan),
) -> GeneratedRun {
    let (pack, no_faults) = (ground.pack(), FaultList::default());
    let mut plan = Plan::new(random, &ground, &pack, &no_faults);
    if ground.is_multitrack && plan.random.once_in(2) {
        plan.seek();
        plan.set_file_mask();
    }
    for _ in 0..steps {
        if plan.here() <= ROOM_LEFT {
            step(&mut plan);
        }
    }
    plan.stop();
    let (chain, arguments) = (plan.chain, plan.arguments);
    GeneratedRun::of(random, ground, chain, arguments)
}

/// A chain that goes back to a seek until its limit, if nothing ends it.
pub fn planned_loop(random: &mut Random) -> GeneratedRun {
    let ground = Ground::new(random);
    let (pack, no_faults) = (ground.pack(), FaultList::default());
    let mut plan = Plan::new(random, &ground, &pack, &no_faults);
    if plan.random.once_in(2) {
        plan.set_file_mask();
    }
    plan.mask_set = true;
    let start = plan.here();
    plan.seek();
    for _ in 0..plan.random.within(1..=6) {
        plan.step();
    }
    plan.put(0x08, start, 0, 0);
    let (chain, arguments) = (plan.chain, plan.arguments);
    let mut run = GeneratedRun::of(random, ground, chain, arguments);
    if !random.once_in(16) {
        run.limit = random.within(1..=200);
    }
    run
}

/// How the counts of a read meet its bytes.
#[derive(Clone, Copy)]
enum Fit {
    Exact,
    /// Exact under CD, with one more CCW.
    ExactChained,
    Short,
    Long,
}

/// A chain being written, and the drive as it will be if the chain goes on so far.
struct Plan<'a, 'r> {
    random: &'r mut Random,
    model: Model,
    pack: &'a Pack<'a>,
    /// Bytes of storage.
    storage: usize,
    is_multitrack: bool,
    /// Of three codes that have a multitrack form on multitrack ground, so many take it.
    multitrack_of_three: usize,
    chain: Vec<u8>,
    arguments: Vec<u8>,
    drive: Drive<'a>,
    mask_set: bool,
    /// Whether no seek may follow.
    stays: bool,
}

impl<'a, 'r> Plan<'a, 'r> {
    fn new(
        random: &'r mut Random,
        ground: &Ground,
        pack: &'a Pack<'a>,
        no_faults: &'a FaultList,
    ) -> Plan<'a, 'r> {
        Plan {
            random,
            model: ground.model,
            pack,
            storage: ground.storage,
            is_multitrack: ground.is_multitrack,
            multitrack_of_three: 1,
            chain: Vec::new(),
            arguments: Vec::new(),
            drive: Drive::new(pack, no_faults, ground.model),
            mask_set: false,
            stays: false,
        }
    }

    /// Address of the next CCW written.
    fn here(&self) -> usize {
        self.chain.len()
    }

    fn put(&mut self, command: u8, address: usize, flags: u8, count: usize) {
        let ccw = encode::ccw(command, address, flags, count as u16);
        self.chain.extend(ccw);
    }

    /// A code, or on multitrack ground its multitrack form where it has one.
    fn any_form(&mut self, command: u8) -> u8 {
        let multitrack = command | 0x80;
        if self.is_multitrack
            && is_multitrack(multitrack)
            && self.random.below(3) < self.multitrack_of_three
        {
            multitrack
        } else {
            command
        }
    }

    /// A control command, which the drive carries out unless it is refused.
    fn put_control(&mut self, command: u8, argument: &[u8]) {
        self.put_with_argument(command, argument);
        let _ = self.drive.execute(command, argument, false);
    }

    /// A control or search command with its argument; flags without effect now and then, and
    /// seldom a wrong count.
    fn put_with_argument(&mut self, command: u8, argument: &[u8]) {
        let address = self.arguments.len();
        self.arguments.extend(argument);
        let idle = [0, 0, 0, FLAG_PCI, FLAG_SUPPRESS_LENGTH, FLAG_SKIP];
        let flags = FLAG_CHAIN_COMMAND | self.random.pick(&idle);
        let mut count = argument.len();
        if self.random.once_in(150) {
            self.arguments.push(0);
            count = self.random.pick(&[count + 1, count.div_ceil(2)]);
        }
        self.put(command, address, flags, count);
    }

    /// A TIC to the CCW behind it, or over one that is never fetched.
    fn put_tic(&mut self) {
        let over = self.random.below(2);
        let target = self.here() + (1 + over) * CCW_LENGTH;
        let code = self.random.pick(&[0x08, 0x08, 0x18, 0xF8]);
        let flags = self.random.byte();
        self.put(code, target, flags, 0);
        self.chain.extend(self.random.bytes(over * CCW_LENGTH));
    }

    fn step(&mut self) {
        match self.random.below(16) {
            0 | 1 => self.seek(),
            2 => self.set_file_mask(),
            3 => self.set_sector(),
            4 => self.no_operation(),
            5 => self.search_once(),
            6..=8 => self.search_loop(),
            _ => self.read(FLAG_CHAIN_COMMAND),
        }
        if self.random.once_in(12) {
            self.put_tic();
        }
    }

    /// Something that does not go on; now and then nothing, so that the chain goes past its end.
    fn stop(&mut self) {
        match self.random.below(16) {
            0 => (),
            1..=5 => self.put(NO_OPERATION, 0, 0, 1),
            _ => self.read(0),
        }
        if self.chain.is_empty() {
            self.put(NO_OPERATION, 0, FLAG_CHAIN_COMMAND, 1);
        }
    }

    fn seek(&mut self) {
        let mask = self.drive.mask().unwrap_or(0);
        if self.stays || mask & MASK_SEEK_INHIBITED != 0 && !self.random.once_in(8) {
            return self.no_operation();
        }
        let tracks: Vec<TrackAddress> = self.pack.tracks().map(|(track, _)| track).collect();
        let mut argument = [0; 6];
        let track = match self.random.below(80) {
            0 => self.random.pick(&OFF_EACH_PACK),
            1 => border_track(self.random),
            2..=4 => any_track(self.random, self.model),
            _ if tracks.is_empty() => any_track(self.random, self.model),
            _ => self.random.pick(&tracks),
        };
        argument[2..].copy_from_slice(&encode::track_address(track));
        if self.random.once_in(100) {
            argument[self.random.below(2)] = self.random.nonzero_byte();
        }
        self.put_control(SEEK, &argument);
    }

    fn set_file_mask(&mut self) {
        if self.mask_set && !self.random.once_in(8) {
            return self.no_operation();
        }
        let mask = match self.random.below(16) {
            0 => self.random.pick(&[0x02, 0x04, 0x20, 0x26]),
            1 => self.random.pick(&[0x08, 0x10, 0x18, 0xD9]),
            _ if self.is_multitrack => {
                self.random.pick(&[0x00, 0x08, 0x10, 0x18]) | self.random.pick(&[0, 0, 0x40, 0xC0])
            }
            _ => self.random.pick(&[0x00, 0x01, 0x40, 0x80, 0xC1]),
        };
        self.put_control(SET_FILE_MASK, &[mask]);
        self.mask_set = true;
    }

    fn set_sector(&mut self) {
        let sector = match self.random.below(40) {
            0 => self.random.pick(&[128, 200, 254]),
            1..=5 => NO_SECTOR,
            _ => self.random.below(128) as u8,
        };
        self.put_control(SET_SECTOR, &[sector]);
    }

    fn no_operation(&mut self) {
        let (address, count) = (self.random.below(0x100_0000), self.random.within(1..=9));
        self.put(NO_OPERATION, address, FLAG_CHAIN_COMMAND, count);
        let _ = self.drive.execute(NO_OPERATION, &[], false);
    }

    /// The ID of R0 of the drive's track.
    fn id_of_r0(&self) -> [u8; 5] {
        let [c0, c1, h0, h1] = encode::track_address(self.drive.track());
        [c0, c1, h0, h1, 0]
    }

    /// The ID of any record of the drive's track; in a multitrack search of a head behind it as well.
    /// R0's often, seldom that of no record; none where the drive's track is not in the image.
    fn id_to_find(&mut self, command: u8) -> Option<[u8; 5]> {
        let TrackAddress { cylinder, head } = self.drive.track();
        let last = if is_multitrack(command) {
            head + 2
        } else {
            head
        };
        let tracks = (head..=last).map_while(|head| {
            let track = TrackAddress { cylinder, head };
            self.pack.track(track)
        });
        let tracks: Vec<_> = tracks.collect();
        if tracks.is_empty() {
            return None;
        }
        let records = self.random.pick(&tracks);
        let place = match self.random.below(6) {
            0 => 0,
            _ => self.random.below(records.len()),
        };
        let mut id = *records[place].count_area.first_chunk()?;
        if self.random.once_in(50) {
            id[4] = self.random.byte();
        }
        Some(id)
    }

    /// A search and a TIC back to it.
    fn search_loop(&mut self) {
        let start = self.here();
        let command = self.any_form(SEARCH_ID_EQUAL);
        let Some(id) = self.id_to_find(command) else {
            if !self.random.once_in(6) {
                return self.seek();
            }
            self.put_with_argument(command, &self.id_of_r0());
            return self.put(0x08, start, 0, 0);
        };
        let mut ahead = self.drive.clone();
        let found = loop {
            match ahead.execute(command, &id, false) {
                Ok(Done::Search { equal: false }) => (),
                found => break found.is_ok(),
            }
        };
        // A multitrack search does not come back to what it has passed.
        if is_multitrack(command) && !found && !self.random.once_in(6) {
            return self.seek();
        }
        self.put_with_argument(command, &id);
        self.put(0x08, start, 0, 0);
        self.drive = ahead;
    }

    /// A search of the next count area; equal once in four, with a CCW behind it to be skipped.
    fn search_once(&mut self) {
        let command = self.any_form(SEARCH_ID_EQUAL);
        let mut ahead = self.drive.clone();
        let found = ahead.execute(command, &NO_ID, false).ok();
        let Some(record) = found.and_then(|_| ahead.passed()) else {
            return self.put_with_argument(command, &self.id_of_r0());
        };
        let mut id = *record.count_area.first_chunk::<5>().expect("8 bytes");
        let equal = self.random.once_in(4);
        if !equal {
            id[4] = id[4].wrapping_add(1);
        }
        self.put_with_argument(command, &id);
        if equal {
            self.chain.extend(self.random.bytes(CCW_LENGTH));
        }
        let _ = self.drive.execute(command, &id, false);
    }

    /// Whether a step would end an 86 or 8E here.
    fn is_at_the_last_head(&self) -> bool {
        let mut ahead = self.drive.clone();
        let ended = ahead.execute(READ_DATA_MULTITRACK, &[], false).err();
        self.is_multitrack && ended.is_some_and(|check| check.is_of_a_step())
    }

    /// A read with what its last CCW has of CC.
    fn read(&mut self, chained: u8) {
        if self.is_at_the_last_head() && self.random.once_in(6) {
            let ended = [READ_DATA_MULTITRACK, READ_KEY_DATA_MULTITRACK];
            let (command, length) = (self.random.pick(&ended), self.random.within(1..=12));
            return self.put_read(command, length, chained);
        }
        let command = self.random.pick(&[
            READ_DATA,
            READ_DATA,
            READ_DATA,
            READ_KEY_DATA,
            READ_KEY_DATA,
            READ_COUNT,
            READ_COUNT,
            READ_COUNT_KEY_DATA,
            READ_COUNT_KEY_DATA,
            READ_HOME_ADDRESS,
        ]);
        let mut command = self.any_form(command);
        // What ends the chain is mostly put off: a record without data by reading its count
        // alone, no record by going to another track. A multitrack read ends it more often.
        let seldom = if is_multitrack(command) { 5 } else { 8 };
        if !self.random.once_in(seldom) {
            match self.drive.clone().execute(command, &[], false) {
                Ok(Done::Read(arriving)) if arriving.is_unit_exception() => {
                    command = if is_multitrack(command) {
                        READ_COUNT_MULTITRACK
                    } else {
                        READ_COUNT
                    };
                }
                Err(_) if chained == 0 => return self.put(NO_OPERATION, 0, 0, 1),
                Err(_) => return self.seek(),
                _ => (),
            }
        }
        let length = match self.drive.execute(command, &[], false) {
            Ok(Done::Read(arriving)) => arriving.length(),
            _ => self.random.within(1..=12),
        };
        self.put_read(command, length, chained);
    }

    fn put_read(&mut self, command: u8, length: usize, chained: u8) {
        let fit = match self.random.below(16) {
            0 | 1 => Fit::Short,
            2 | 3 => Fit::Long,
            4 => Fit::ExactChained,
            _ => Fit::Exact,
        };
        let mut counts = match fit {
            Fit::Short if length > 1 => {
                let total = self.random.within(1..=length - 1);
                self.split(total)
            }
            Fit::Long => {
                let total = length + self.random.within(1..=4);
                self.split(total)
            }
            _ => self.split(length.max(1)),
        };
        if let Fit::ExactChained = fit {
            counts.push(self.random.within(1..=6));
        }
        let exact = matches!(fit, Fit::Exact) && length > 0;
        let suppressed = if exact {
            self.random.once_in(8)
        } else {
            !self.random.once_in(16)
        };
        let last_flags = chained | if suppressed { FLAG_SUPPRESS_LENGTH } else { 0 };
        self.put_data_chain(command, &counts, last_flags);
    }

    fn put_data_chain(&mut self, command: u8, counts: &[usize], last_flags: u8) {
        let last = counts.len() - 1;
        for (at, &count) in counts.iter().enumerate() {
            let code = match at {
                0 => command,
                _ => self.random.pick(&[command, command, 0x00, 0x03, 0xFF]),
            };
            let idle = [0, 0, 0, 0, FLAG_PCI];
            let flags = self.random.pick(&idle)
                | if at == last {
                    last_flags
                } else {
                    FLAG_CHAIN_DATA | self.random.pick(&[0, 0, 0, FLAG_SUPPRESS_LENGTH])
                };
            let (address, skip) = self.place_for(count);
            self.put(code, address, flags | skip, count);
            if at < last && self.random.once_in(5) {
                self.put_tic();
            }
        }
    }

    /// An address for a stretch, and the skip flag where it is to be skipped.
    fn place_for(&mut self, count: usize) -> (usize, u8) {
        let Some(room) = self.storage.checked_sub(count) else {
            let skip = if self.random.once_in(24) {
                0
            } else {
                FLAG_SKIP
            };
            return (self.random.below(0x100_0000), skip);
        };
        if self.random.once_in(200) {
            return (room + 1, 0);
        }
        let skip = self.random.pick(&[0, 0, 0, 0, 0, FLAG_SKIP]);
        (self.random.within(0..=room), skip)
    }

    /// Counts of one to four CCWs that come to `total`, at least 1.
    fn split(&mut self, total: usize) -> Vec<usize> {
        let mut left = total;
        let mut counts = Vec::new();
        for _ in 0..self.random.pick(&[0, 0, 0, 1, 2, 3]) {
            if left > 1 {
                let count = self.random.within(1..=left - 1);
                counts.push(count);
                left -= count;
            }
        }
        counts.push(left);
        counts
    }
}

/// Of no record.
const NO_ID: [u8; 5] = [0xFF; 5];

const OFF_EACH_PACK: [TrackAddress; 3] = [
    TrackAddress {
        cylinder: 0,
        head: 19,
    },
    TrackAddress {
        cylinder: 0,
        head: 256,
    },
    TrackAddress {
        cylinder: 0xFFFF,
        head: 0xFFFF,
    },
];
