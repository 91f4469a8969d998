//! Damage to the fields of a fault list.

use super::damaged;
use crate::generate::{Draft, DraftField};
use crate::random::Random;
use crate::simulator::faults::FAULT;
use crate::simulator::pack::{Pack, TrackAddress};

type ToFaults = (&'static str, fn(&mut Random, &mut Draft, &Pack));

/// A fault list damaged in one way. The draft has a fault, its track a record without data.
pub fn damaged_faults(
    random: &mut Random,
    turn: usize,
    draft: &[DraftField],
    pack: &Pack,
) -> (&'static str, Vec<u8>) {
    damaged(random, turn, draft, FAULTS.len(), |random, draft, at| {
        let (name, damage) = FAULTS[at];
        damage(random, draft, pack);
        name
    })
}

const FAULTS: [ToFaults; 15] = [
    ("displacement 0", |random, draft, _| {
        set_displacement(any_fault(random, draft), 0);
    }),
    ("displacement 1", |random, draft, _| {
        set_displacement(any_fault(random, draft), 1);
    }),
    ("displacement at data length", |random, draft, pack| {
        let fault = any_fault(random, draft);
        let data_length = data_length(fault, pack);
        set_displacement(fault, data_length);
    }),
    ("displacement past data length", |random, draft, pack| {
        let fault = any_fault(random, draft);
        let data_length = data_length(fault, pack);
        set_displacement(fault, data_length + 1);
    }),
    ("displacement far past", |random, draft, _| {
        let fault = any_fault(random, draft);
        fault[5] = random.nonzero_byte();
    }),
    ("fault of R0", |random, draft, _| {
        let fault = any_fault(random, draft);
        fault[4] = 0;
        set_displacement(fault, 1);
    }),
    ("R not on the track", |random, draft, pack| {
        let fault = any_fault(random, draft);
        let track = TrackAddress::decode(&fault[..4]);
        let absent = (1..=255).find(|&number| pack.record(track, number).is_none());
        fault[4] = absent.expect("an R that the track lacks");
    }),
    ("track not in the image", |random, draft, pack| {
        let fault = any_fault(random, draft);
        let at = random.pick(&[0, 1, 2, 3]);
        let kept = fault[at];
        fault[at] ^= random.nonzero_byte();
        if pack.track(TrackAddress::decode(&fault[..4])).is_some() {
            fault[at] = kept;
            fault[2] = 1;
        }
    }),
    ("record without data", |random, draft, pack| {
        let fault = any_fault(random, draft);
        let track = TrackAddress::decode(&fault[..4]);
        let records = pack.track(track).expect("the fault's track");
        let empty = records.iter().find(|record| record.data.is_empty());
        fault[4] = empty.expect("a record without data").number();
        set_displacement(fault, random.pick(&[0, 1]));
    }),
    ("same record twice", |random, draft, _| {
        let again = DraftField::new(FAULT, any_fault(random, draft).clone());
        let at = random.within(0..=draft.len());
        draft.insert(at, again);
    }),
    ("same record, other error", |random, draft, _| {
        let mut again = any_fault(random, draft).clone();
        set_displacement(&mut again, 1);
        again[7] ^= random.nonzero_byte();
        let at = random.within(0..=draft.len());
        draft.insert(at, DraftField::new(FAULT, again));
    }),
    ("fault of 9 bytes", |random, draft, _| {
        any_fault(random, draft).pop();
    }),
    ("fault of 11 bytes", |random, draft, _| {
        any_fault(random, draft).push(0);
    }),
    ("fault of 0 bytes", |random, draft, _| {
        any_fault(random, draft).clear();
    }),
    ("other order", |random, draft, _| random.shuffle(draft)),
];

/// Contents of one of the faults.
fn any_fault<'a>(random: &mut Random, draft: &'a mut Draft) -> &'a mut Vec<u8> {
    let at = random.below(draft.len());
    &mut draft[at].contents
}

fn set_displacement(fault: &mut [u8], displacement: u16) {
    fault[5..7].copy_from_slice(&displacement.to_be_bytes());
}

fn data_length(fault: &[u8], pack: &Pack) -> u16 {
    let record = pack.record(TrackAddress::decode(&fault[..4]), fault[4]);
    record.expect("the fault's record").data.len() as u16
}
