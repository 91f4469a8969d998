//! Areas, limits and models that question 1, 2, 3 or 5 answers no to, most of the time.

use super::{cut_twice, GeneratedReading};
use crate::chains;
use crate::damage::{self, damaged_faults, damaged_image};
use crate::generate::{self, decoded, written};
use crate::models::{self, model_of};
use crate::random::Random;
use crate::simulator::held::RECOVERY_ENTRY;

/// Lengths of areas to answer in, all wrong.
pub const ANSWER_AREAS: [usize; 4] = [0, 10, 12, 36];

/// Bytes that a list has less than it must.
pub const LIST_SHORT_BY: [usize; 3] = [1, 5, 6];

/// What a run is refused for, and what a reading is besides, in turn.
pub fn refused(random: &mut Random, turn: usize) -> (&'static str, GeneratedReading) {
    let mut reading = cut_twice(random, chains::planned_reads);
    if turn % 2 == 0 {
        let extent = reading.extent.clone();
        let (kind, run) = chains::refused(random, turn / 2, reading.into_run());
        return (kind, GeneratedReading::of(random, run, extent));
    }
    let (kind, change) = AREAS[turn / 2 % AREAS.len()];
    change(random, &mut reading);
    (kind, reading)
}

/// Image or fault list damaged, in each way in its turn.
pub fn damaged(random: &mut Random, turn: usize) -> (&'static str, GeneratedReading) {
    let mut reading = cut_twice(random, chains::planned_reads);
    match turn % 2 {
        0 => damage_image(random, turn / 2, &mut reading),
        _ => damage_faults(random, turn / 2, &mut reading),
    }
    ("image or fault list damaged", reading)
}

fn damage_image(random: &mut Random, turn: usize, reading: &mut GeneratedReading) {
    let draft = generate::ground(random, model_of(reading.model));
    reading.image = damaged_image(random, turn, &draft).1;
}

fn damage_faults(random: &mut Random, turn: usize, reading: &mut GeneratedReading) {
    let model = model_of(reading.model);
    reading.image = written(&generate::ground(random, model));
    let pack = decoded(model, &reading.image);
    let draft = generate::faults(random, &pack);
    reading.faults = damaged_faults(random, turn, &draft, &pack).1;
}

type ToAreas = (&'static str, fn(&mut Random, &mut GeneratedReading));

const AREAS: [ToAreas; 12] = [
    ("image damaged", |random, reading| {
        let turn = random.below(64);
        damage_image(random, turn, reading);
    }),
    ("fault list damaged", |random, reading| {
        let turn = random.below(64);
        damage_faults(random, turn, reading);
    }),
    ("extent damaged", |random, reading| {
        damage::damage_extent(random, &mut reading.extent);
    }),
    ("extent damaged otherwise", |random, reading| {
        damage::damage_extent(random, &mut reading.extent);
    }),
    ("extent and fault list damaged", |random, reading| {
        reading.extent.rotate_left(4);
        reading.faults.push(random.byte());
    }),
    ("extent and image damaged", |random, reading| {
        reading.extent.rotate_left(4);
        reading.image.push(random.byte());
    }),
    ("extent's length", |random, reading| {
        damage::resize_extent(random, &mut reading.extent);
    }),
    ("restart program's length", |random, reading| {
        damage::resize_program(random, &mut reading.program);
    }),
    ("restart arguments' length", |random, reading| {
        damage::resize_restart_arguments(random, &mut reading.restart_arguments);
    }),
    ("list's length", |random, reading| {
        let must = RECOVERY_ENTRY * reading.limit;
        reading.list_length = must - random.pick(&LIST_SHORT_BY);
    }),
    ("answer's length", |random, reading| {
        reading.answer_length = random.pick(&ANSWER_AREAS);
    }),
    ("no model, extent damaged", |random, reading| {
        reading.model = models::any_other(random);
        reading.extent.rotate_left(4);
    }),
];
