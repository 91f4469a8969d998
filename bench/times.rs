//! Library and simulator timed side by side.

use std::hint::black_box;
use std::time::Instant;

/// Measurements of each entry; of times the least one counts.
const REPEATS: usize = 25;

/// Measurements of a ratio, an odd number; the median counts.
const RATIOS: usize = 101;

/// Nanoseconds for one call.
pub struct Times {
    pub library: f64,
    pub simulator: f64,
}

impl Times {
    pub fn ratio(&self) -> f64 {
        self.library / self.simulator
    }
}

/// Of both with the same areas: they give this number and leave the areas alike.
pub fn measured<A: Clone + PartialEq>(
    calls: u32,
    number: u8,
    areas: A,
    library: impl Fn(&mut A) -> u8,
    simulator: impl Fn(&mut A) -> u8,
) -> Times {
    let [mut by_library, mut by_simulator] = [areas.clone(), areas];
    let numbers = [library(&mut by_library), simulator(&mut by_simulator)];
    assert_eq!(numbers, [number; 2], "the numbers of both");
    assert!(by_library == by_simulator, "both leave the same");
    let mut library = || library(black_box(&mut by_library));
    let mut simulator = || simulator(black_box(&mut by_simulator));
    let [library, simulator] = least(calls, [&mut library, &mut simulator]);
    Times { library, simulator }
}

/// Nanoseconds for one call of each; all in turn, so that a change of the machine's load meets all.
pub fn least<const ENTRIES: usize>(
    calls: u32,
    mut entries: [&mut dyn FnMut() -> u8; ENTRIES],
) -> [f64; ENTRIES] {
    let mut least = [f64::INFINITY; ENTRIES];
    for _ in 0..REPEATS {
        for (least, entry) in least.iter_mut().zip(&mut entries) {
            *least = least.min(nanoseconds(calls, entry));
        }
    }
    least
}

/// How often one entry's time stands in another's.
pub struct Ratios {
    pub median: f64,
    pub lowest: f64,
    pub highest: f64,
}

/// The time of `long` by that of `short`, which are measured one behind the other, again and again: a load
/// that comes and goes meets both, and what meets one alone stands at an end of the ratios, not in the middle.
pub fn ratios(calls: u32, mut long: impl FnMut() -> u8, mut short: impl FnMut() -> u8) -> Ratios {
    let mut all: Vec<f64> = (0..RATIOS)
        .map(|_| nanoseconds(calls, &mut long) / nanoseconds(calls, &mut short))
        .collect();
    all.sort_by(f64::total_cmp);
    Ratios {
        median: all[RATIOS / 2],
        lowest: all[0],
        highest: all[RATIOS - 1],
    }
}

fn nanoseconds(calls: u32, mut call: impl FnMut() -> u8) -> f64 {
    let start = Instant::now();
    for _ in 0..calls {
        black_box(call());
    }
    start.elapsed().as_nanos() as f64 / f64::from(calls)
}
