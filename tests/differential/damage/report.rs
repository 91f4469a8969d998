//! Damage to the fields of a report.

use super::{damaged, ToFields};
use crate::generate::{Draft, DraftField};
use crate::random::Random;
use crate::simulator::report::{CSW, FILE_MASK, SENSE, TRIES};

/// A report damaged in one way. The draft has tags 10, 11 and 12 in front.
pub fn damaged_report(
    random: &mut Random,
    turn: usize,
    draft: &[DraftField],
) -> (&'static str, Vec<u8>) {
    damaged(random, turn, draft, REPORT.len(), |random, draft, at| {
        let (name, damage) = REPORT[at];
        damage(random, draft);
        name
    })
}

const REPORT: [ToFields; 10] = [
    ("needed field removed", |random, draft| {
        draft.remove(random.below(3));
    }),
    ("fields turned round", |_, draft| draft.reverse()),
    ("field twice", |random, draft| {
        let at = random.below(draft.len());
        draft.insert(at + 1, draft[at].clone());
    }),
    ("field one byte longer", |random, draft| {
        any_field(random, draft).push(0);
    }),
    ("field one byte shorter", |random, draft| {
        any_field(random, draft).pop();
    }),
    ("field without contents", |random, draft| {
        any_field(random, draft).clear();
    }),
    ("tag past the last", |random, draft| {
        let tag = random.pick(&[TRIES + 1, 0x20, 0xFF]);
        let length = random.below(3);
        draft.push(DraftField::new(tag, random.bytes(length)));
    }),
    ("tag before the first", |random, draft| {
        let tag = random.pick(&[0x00, SENSE - 1]);
        draft.insert(0, DraftField::new(tag, [0]));
    }),
    ("CSW's first byte", |random, draft| {
        let csw = draft.iter_mut().find(|field| field.tag == CSW);
        csw.expect("a CSW").contents[0] = random.nonzero_byte();
    }),
    ("mask with bits 2, 5 or 6", |random, draft| {
        let mask = random.byte() | random.pick(&[0x20, 0x04, 0x02]);
        draft.retain(|field| field.tag != FILE_MASK);
        draft.insert(3, DraftField::new(FILE_MASK, [mask]));
    }),
];

fn any_field<'a>(random: &mut Random, draft: &'a mut Draft) -> &'a mut Vec<u8> {
    let at = random.below(draft.len());
    &mut draft[at].contents
}
