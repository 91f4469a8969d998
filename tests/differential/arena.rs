//! Areas as they are lent: one behind another, with bytes around each that belong to none.

use crate::random::Random;
use std::ops::Range;

/// Bytes around each area. They differ from run to run, so that what depends on them shows.
const GUARD: usize = 16;

#[derive(Clone, PartialEq, Eq)]
pub struct Arena<const AREAS: usize> {
    bytes: Vec<u8>,
    places: [Range<usize>; AREAS],
}

impl<const AREAS: usize> Arena<AREAS> {
    pub fn new(random: &mut Random, areas: [&[u8]; AREAS]) -> Arena<AREAS> {
        let mut bytes = random.bytes(GUARD);
        let places = areas.map(|area| {
            let start = bytes.len();
            bytes.extend(area);
            let end = bytes.len();
            bytes.extend(random.bytes(GUARD));
            start..end
        });
        Arena { bytes, places }
    }

    pub fn lent(&mut self) -> [&mut [u8]; AREAS] {
        self.bytes
            .get_disjoint_mut(self.places.clone())
            .expect("the areas do not overlap")
    }

    pub fn areas(&self) -> [&[u8]; AREAS] {
        self.places
            .each_ref()
            .map(|place| &self.bytes[place.clone()])
    }
}

#[cfg(test)]
mod tests {
    use super::*;

    fn arena() -> Arena<3> {
        Arena::new(&mut Random::new(1), [&[1, 2], &[], &[3]])
    }

    #[test]
    fn areas_are_as_they_were_given() {
        assert_eq!(arena().areas(), [&[1, 2][..], &[], &[3]]);
        assert_eq!(arena().lent(), [&mut [1, 2][..], &mut [], &mut [3]]);
        assert_eq!(arena().bytes.len(), 3 + 4 * GUARD);
    }

    #[test]
    fn a_byte_outside_the_areas_counts() {
        for at in 0..arena().bytes.len() {
            let mut changed = arena();
            changed.bytes[at] ^= 1;
            assert!(changed != arena());
        }
    }
}
