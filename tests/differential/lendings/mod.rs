//! Whole readings: chains over images of which most records are faulted, with a plan, changed in one
//! place, or with no plan; extents around the faulted tracks; limits at the number of recoveries.

mod areas;

pub use crate::simulator::held::HeldReading as GeneratedReading;
pub use areas::{damaged, ANSWER_AREAS, LIST_SHORT_BY};

use crate::chains::{self, steps, GeneratedRun};
use crate::generate::{self, decoded, written};
use crate::models::model_of;
use crate::random::Random;
use crate::simulator::faults::FaultList;
use crate::simulator::held::RECOVERY_ENTRY;
use crate::simulator::large::place_of;
use crate::simulator::model::Model;
use crate::simulator::pack::TrackAddress;
use crate::simulator::run::{self, Outcome, Watch};
use crate::simulator::Refusal;

impl GeneratedReading {
    /// With any bytes in restart areas, and a list as it must be or longer.
    pub fn of(random: &mut Random, run: GeneratedRun, extent: Vec<u8>) -> GeneratedReading {
        let more = random.pick(&[0, 0, 0, 1, 5, 6, 100]);
        GeneratedReading {
            program: random.bytes(64),
            restart_arguments: random.bytes(16),
            list_length: RECOVERY_ENTRY * run.limit + more,
            ..GeneratedReading::of_run(run, extent)
        }
    }

    /// The same model, chain, arguments, image and limit with no faults, over this storage.
    pub fn faultless(
        &self,
        storage: &mut [u8],
        watch: &mut impl Watch,
    ) -> Result<Outcome, Refusal> {
        let lent = run::Lent {
            model: self.model,
            chain: &self.chain,
            arguments: &self.arguments,
            image: &self.image,
            faults: &[],
        };
        run::run_watched(lent, storage, self.limit, watch)
    }

    /// Its recoveries; it is not refused.
    fn made(&self) -> usize {
        let reading = self.clone().simulated();
        reading.expect("a plan is not refused").recoveries.len()
    }
}

/// A reading of one kind; the kinds take turns, and so do the changes of a kind.
pub fn generated(random: &mut Random, turn: usize) -> (&'static str, GeneratedReading) {
    let of_kind = turn / 16;
    match turn % 16 {
        0 if of_kind % 4 == 0 => ("random bytes", faulted(random, chains::random_bytes)),
        0 => ("random CCWs", faulted(random, chains::random_ccws)),
        1 => ("random steps", faulted(random, steps::random_steps)),
        2 if of_kind % 4 == 0 => ("long records", faulted(random, chains::planned_long)),
        2 => ("plan with a loop", faulted(random, chains::planned_loop)),
        3 => ("plan", faulted(random, chains::planned)),
        4 | 5 => ("plan, cut twice", cut_twice(random, chains::planned)),
        6 => ("reads", faulted(random, chains::planned_reads)),
        7..=9 => ("reads, cut twice", cut_twice(random, chains::planned_reads)),
        10 | 11 => ("limit at its recoveries", limit_at_recoveries(random)),
        12..=14 => changed(random, 3 * of_kind + turn % 16 - 12),
        _ => areas::refused(random, of_kind),
    }
}

/// The reading of a run, its fault list one of many faults.
fn faulted(random: &mut Random, generated: fn(&mut Random) -> GeneratedRun) -> GeneratedReading {
    let run = generated(random);
    let (run, extent) = with_many_faults(random, run);
    GeneratedReading::of(random, run, extent)
}

/// One that makes two recoveries or more.
fn cut_twice(random: &mut Random, generated: fn(&mut Random) -> GeneratedRun) -> GeneratedReading {
    loop {
        let reading = faulted(random, generated);
        if reading.made() >= 2 {
            return reading;
        }
    }
}

/// Changed in one way from one that makes two recoveries or more.
fn changed(random: &mut Random, turn: usize) -> (&'static str, GeneratedReading) {
    let reading = cut_twice(random, chains::planned_reads);
    let extent = reading.extent.clone();
    let (kind, run) = chains::changed(random, turn, reading.into_run());
    (kind, GeneratedReading::of(random, run, extent))
}

/// As many recoveries as the reading makes, or one more or less.
fn limit_at_recoveries(random: &mut Random) -> GeneratedReading {
    let mut reading = cut_twice(random, chains::planned_reads);
    let made = reading.made();
    let limit = random.pick(&[made - 1, made, made, made + 1]);
    reading.limit = limit;
    reading.list_length = RECOVERY_ENTRY * limit;
    reading
}

/// The run with such a list, and an extent.
fn with_many_faults(random: &mut Random, mut run: GeneratedRun) -> (GeneratedRun, Vec<u8>) {
    let model = model_of(run.model);
    let pack = decoded(model, &run.image);
    let faults = written(&generate::many_faults(random, &pack));
    let list = FaultList::decode(&faults, &pack).expect("the list is well formed");
    let tracks: Vec<TrackAddress> = list.iter().map(|fault| fault.track).collect();
    run.faults = faults;
    (run, extent_around(random, model, &tracks))
}

/// An extent in which these tracks, ascending, mostly lie, often at its edges.
fn extent_around(random: &mut Random, model: Model, tracks: &[TrackAddress]) -> Vec<u8> {
    let ends = [tracks.first(), tracks.last()];
    let [low, high] = ends.map(|track| track.copied().map_or(0, place_of));
    let last = generate::tracks_of(model) - 1;
    let places = match random.below(16) {
        0 => return generate::extent(random, model),
        1 => [low, high.saturating_sub(1).max(low)],
        2 => [(low + 1).min(high), high],
        3..=6 => [low, high],
        7 => [low, last],
        8 => [0, high],
        _ => [0, last],
    };
    generate::extent_of(places)
}

#[cfg(test)]
mod tests {
    use super::*;
    use crate::simulator::check_extent;
    use crate::simulator::large::track_at;
    use crate::simulator::reading::{End, Reading};
    use std::collections::BTreeSet;

    const TURNS: usize = 960;

    fn readings(seed: u64) -> impl Iterator<Item = (&'static str, GeneratedReading)> {
        let mut random = Random::new(seed);
        (0..TURNS).map(move |turn| generated(&mut random, turn))
    }

    #[test]
    fn same_seed_same_readings() {
        assert!(readings(1).eq(readings(1)));
        assert!(!readings(1).eq(readings(2)));
    }

    #[test]
    fn every_number_is_seen() {
        let mut refused = BTreeSet::new();
        let mut stopped = BTreeSet::new();
        for (_, mut reading) in readings(2) {
            match reading.simulated() {
                Ok(Reading {
                    end: End::Stopped(stop),
                    ..
                }) => {
                    stopped.insert(stop.number());
                }
                Ok(_) => (),
                Err(refusal) => {
                    refused.insert(refusal.number());
                }
            }
        }
        assert_eq!(refused, BTreeSet::from([1, 2, 3, 5]));
        assert_eq!(stopped, BTreeSet::from([2, 9]));
    }

    #[test]
    fn two_recoveries_in_most() {
        let read = readings(3).filter_map(|(_, mut reading)| reading.simulated().ok());
        let made = read.map(|reading| reading.recoveries.len());
        let (more, fewer): (Vec<usize>, Vec<usize>) = made.partition(|&made| made >= 2);
        assert!(more.len() > fewer.len());
    }

    #[test]
    fn extent_holds_most_tracks() {
        let mut random = Random::new(4);
        let tracks = [3, 40, 700].map(track_at);
        let mut holds_all = 0;
        for _ in 0..160 {
            let model = random.pick(Model::ALL);
            let bytes = extent_around(&mut random, model, &tracks);
            let extent = check_extent(model.number(), &bytes).expect("the extent is well formed");
            holds_all += usize::from(tracks.iter().all(|&track| extent.contains(track)));
        }
        assert!((100..160).contains(&holds_all));
    }
}
