//! Reports that send to actions 8, 10 and 10A.

use super::{any_mask, any_seek_argument, any_tries, extent_around, Planned};
use crate::chains;
use crate::models::model_of;
use crate::random::Random;
use crate::simulator::channel::CCW_LENGTH;
use crate::simulator::drive::SEEK;
use crate::simulator::interrupted::{next_cylinder, next_track};
use crate::simulator::pack::{TrackAddress, LAST_HEAD};
use crate::simulator::report::{Report, HEAD_REACHED};

/// Sense 1 of the end of a cylinder, and of a seek or a head that the file mask forbids.
const END_OF_CYLINDER: u8 = 0x20;
const FILE_PROTECTED: u8 = 0x04;

/// A head of the pack, the last one often, or now and then one above; half of the time with any high
/// bits.
pub fn any_sense_6(random: &mut Random) -> u8 {
    let last = LAST_HEAD as u8;
    let head = match random.below(8) {
        0 | 1 => last,
        2 => random.pick(&[0, 1, last - 1]),
        3 => random.within(usize::from(last) + 1..=HEAD_REACHED.into()) as u8,
        _ => random.within(0..=last.into()) as u8,
    };
    match random.once_in(2) {
        true => head | random.byte() & !HEAD_REACHED,
        false => head,
    }
}

pub fn planned(random: &mut Random) -> Planned {
    let run = chains::planned(random);
    let model = model_of(run.model);
    let (at, is_seek) = interrupted(random, &run.chain);
    let argument = any_seek_argument(random, model);
    let track = TrackAddress::decode(&argument[2..]);
    // No row asks for the bits and bytes that are any here.
    let mut sense = [0; 24];
    sense[3..].copy_from_slice(&random.bytes(21));
    sense[6] = any_sense_6(random);
    let reached = TrackAddress {
        head: u16::from(sense[6] & HEAD_REACHED).min(LAST_HEAD),
        ..track
    };
    let (sense_1, target) = if random.once_in(2) {
        (END_OF_CYLINDER, next_cylinder(track))
    } else if is_seek {
        (FILE_PROTECTED, track)
    } else {
        (FILE_PROTECTED, next_track(reached))
    };
    sense[0] = random.byte() & 0x03;
    sense[1] = sense_1 | random.byte() & 0x10;
    let [_, a0, a1, a2] = ((at + CCW_LENGTH) as u32).to_be_bytes();
    let [unit, channel, c0, c1] = [0; 4].map(|_| random.byte());
    Planned {
        model,
        chain: run.chain,
        storage: run.storage,
        report: Report {
            sense,
            csw: [0, a0, a1, a2, unit, channel, c0, c1],
            first: random.below(0x10000),
            mask: any_mask(random),
            seek_argument: Some(argument),
            tries: any_tries(random),
        },
        extent: extent_around(random, model, target),
    }
}

/// Address of a CCW, and whether it is a seek; as often as not where there is one.
fn interrupted(random: &mut Random, chain: &[u8]) -> (usize, bool) {
    let addresses = || (0..chain.len()).step_by(CCW_LENGTH);
    let seeks: Vec<usize> = addresses().filter(|&at| chain[at] == SEEK).collect();
    if !seeks.is_empty() && random.once_in(2) {
        return (random.pick(&seeks), true);
    }
    // TICs too, seldom: they are few.
    let all: Vec<usize> = addresses().collect();
    let at = random.pick(&all);
    (at, chain[at] == SEEK)
}
