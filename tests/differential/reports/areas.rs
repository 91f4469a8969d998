//! Areas and models that question 1 or 5 answers no to, most of the time.

use super::row::take_turn;
use super::{any_planned, GeneratedRecovery};
use crate::damage;
use crate::models;
use crate::random::Random;

/// Lengths of areas to answer in, all wrong.
pub const ANSWER_AREAS: [usize; 4] = [0, 9, 11, 36];

/// The rows of the table take turns too: the question comes before each of them.
pub fn refused(random: &mut Random, turn: usize) -> (&'static str, GeneratedRecovery) {
    let mut planned = any_planned(random);
    take_turn(&mut planned.report, turn / AREAS.len());
    let mut recovery = planned.written(random);
    let (name, change) = AREAS[turn % AREAS.len()];
    change(random, &mut recovery);
    (name, recovery)
}

type ToAreas = (&'static str, fn(&mut Random, &mut GeneratedRecovery));

const AREAS: [ToAreas; 12] = [
    ("extent damaged", |random, recovery| {
        damage::damage_extent(random, &mut recovery.extent);
    }),
    ("extent damaged otherwise", |random, recovery| {
        damage::damage_extent(random, &mut recovery.extent);
    }),
    ("extent and report damaged", |random, recovery| {
        recovery.extent.rotate_left(4);
        recovery.report.pop();
        recovery.extent[0] ^= random.byte() & 1;
    }),
    ("no chain", |_, recovery| recovery.chain.clear()),
    ("chain not a multiple of 8", |random, recovery| {
        let more = random.within(1..=7);
        recovery.chain.resize(recovery.chain.len() + more, 0);
    }),
    ("chain too long", |_, recovery| {
        recovery.chain.resize(2_056, 0)
    }),
    ("restart program's length", |random, recovery| {
        damage::resize_program(random, &mut recovery.program);
    }),
    ("restart arguments' length", |random, recovery| {
        damage::resize_restart_arguments(random, &mut recovery.restart_arguments);
    }),
    ("extent's length", |random, recovery| {
        damage::resize_extent(random, &mut recovery.extent);
    }),
    ("answer's length", |random, recovery| {
        recovery.answer_length = random.pick(&ANSWER_AREAS);
    }),
    ("no model", |random, recovery| {
        recovery.model = models::any_other(random);
    }),
    ("no model, extent and report damaged", |random, recovery| {
        recovery.model = models::any_other(random);
        recovery.extent.rotate_left(4);
        recovery.report.pop();
    }),
];
