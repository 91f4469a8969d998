//! The named kinds of damage. Some of them leave what is damaged well formed, at an edge.

mod areas;
mod extent;
mod faults;
mod image;
mod report;

pub use areas::{damage_extent, resize_extent, resize_program, resize_restart_arguments};
pub use extent::damaged_extent;
pub use faults::damaged_faults;
pub use image::damaged_image;
pub use report::damaged_report;

use crate::generate::{written, Draft, DraftField};
use crate::random::Random;
use crate::simulator::faults::FAULT;
use crate::simulator::pack::{HOME_ADDRESS, RECORD};

type ToBytes = (&'static str, fn(&mut Random, &mut Vec<u8>));
type ToFields = (&'static str, fn(&mut Random, &mut Draft));

/// Done to bytes of any meaning, at least one.
const BYTES: [ToBytes; 8] = [
    ("byte changed", |random, bytes| {
        let at = random.below(bytes.len());
        bytes[at] ^= random.nonzero_byte();
    }),
    ("bit changed", |random, bytes| {
        let at = random.below(bytes.len());
        bytes[at] ^= 1 << random.below(8);
    }),
    ("byte inserted", |random, bytes| {
        let at = random.within(0..=bytes.len());
        bytes.insert(at, random.byte());
    }),
    ("byte removed", |random, bytes| {
        bytes.remove(random.below(bytes.len()));
    }),
    ("byte doubled", |random, bytes| {
        let at = random.below(bytes.len());
        bytes.insert(at, bytes[at]);
    }),
    ("bytes swapped", |random, bytes| {
        let length = bytes.len();
        bytes.swap(random.below(length), random.below(length));
    }),
    ("torn at the end", |random, bytes| {
        bytes.truncate(random.below(bytes.len()));
    }),
    ("bytes added at the end", |random, bytes| {
        let more = random.within(1..=4);
        bytes.extend((0..more).map(|_| random.pick(&[0, 1, 2, 0x20])));
    }),
];

/// Done to fields of any meaning, at least one.
const FIELDS: [ToFields; 7] = [
    ("field inserted", |random, draft| {
        let at = random.within(0..=draft.len());
        let tag = random.pick(&[0x00, HOME_ADDRESS, RECORD, FAULT]);
        let length = random.pick(&[0, 5, 8, 10, 11]);
        draft.insert(at, DraftField::new(tag, random.bytes(length)));
    }),
    ("field removed", |random, draft| {
        draft.remove(random.below(draft.len()));
    }),
    ("field doubled", |random, draft| {
        let at = random.below(draft.len());
        draft.insert(at, draft[at].clone());
    }),
    ("fields swapped", |random, draft| {
        let length = draft.len();
        draft.swap(random.below(length), random.below(length));
    }),
    ("other tag", |random, draft| {
        let at = random.below(draft.len());
        let any = random.byte();
        let tags = [0x00, HOME_ADDRESS, RECORD, 0x03, FAULT, FAULT + 1, any];
        draft[at].tag = random.pick(&tags);
    }),
    ("field's length off by one", |random, draft| {
        let at = random.below(draft.len());
        draft[at].length_error = random.pick(&[-1, 1]);
    }),
    ("field's length far off", |random, draft| {
        let at = random.below(draft.len());
        draft[at].length_error = random.pick(&[0x100, 0x7F00, 0xFF00, -0x100]);
    }),
];

/// A draft damaged in one way; the kinds of `BYTES`, `FIELDS` and `special` take turns.
fn damaged(
    random: &mut Random,
    turn: usize,
    draft: &[DraftField],
    kinds: usize,
    special: impl Fn(&mut Random, &mut Draft, usize) -> &'static str,
) -> (&'static str, Vec<u8>) {
    let mut draft = draft.to_vec();
    let turn = turn % (BYTES.len() + FIELDS.len() + kinds);
    if let Some((name, damage)) = BYTES.get(turn) {
        let mut bytes = written(&draft);
        damage(random, &mut bytes);
        return (name, bytes);
    }
    let turn = turn - BYTES.len();
    let name = if let Some((name, damage)) = FIELDS.get(turn) {
        damage(random, &mut draft);
        name
    } else {
        special(random, &mut draft, turn - FIELDS.len())
    };
    (name, written(&draft))
}
