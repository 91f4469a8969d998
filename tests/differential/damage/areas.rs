//! Damage to the areas that a recovery and a reading have in common.

use super::extent::{damaged_extent, KINDS};
use crate::random::Random;

/// In any way that an extent is damaged.
pub fn damage_extent(random: &mut Random, extent: &mut Vec<u8>) {
    let turn = random.below(KINDS);
    *extent = damaged_extent(random, turn, extent).1;
}

// Lengths that the areas may not have.

pub fn resize_extent(random: &mut Random, extent: &mut Vec<u8>) {
    extent.resize(random.pick(&[0, 4, 7, 9, 16]), 0);
}

pub fn resize_program(random: &mut Random, program: &mut Vec<u8>) {
    program.resize(random.pick(&[0, 16, 63, 65, 72]), 0);
}

pub fn resize_restart_arguments(random: &mut Random, arguments: &mut Vec<u8>) {
    arguments.resize(random.pick(&[0, 8, 15, 17, 64]), 0);
}
