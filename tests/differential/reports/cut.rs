//! Reports of cuts that the trial drive made.

use super::{any_mask, any_seek_argument, any_tries, extent_around, Planned};
use crate::chains::{self, GeneratedRun};
use crate::models::model_of;
use crate::random::Random;
use crate::simulator::pack::TrackAddress;
use crate::simulator::report::Report;
use crate::simulator::run::Outcome;

pub fn once(random: &mut Random) -> Planned {
    let (run, outcome) = chains::cut(random);
    reported(random, run, &outcome)
}

pub fn long(random: &mut Random) -> Planned {
    let (run, outcome) = chains::cut_long(random);
    reported(random, run, &outcome)
}

pub fn again(random: &mut Random) -> Planned {
    let (run, outcome) = chains::cut_again(random);
    reported(random, run, &outcome)
}

/// As the drive reports it, or with another mask or sector, which agree as well.
fn reported(random: &mut Random, run: GeneratedRun, outcome: &Outcome) -> Planned {
    let model = model_of(run.model);
    let mut report = Report::of_cut(outcome).expect("the run was cut");
    if random.once_in(2) {
        report.mask = any_mask(random);
    }
    let any = random.below(128) as u8;
    report.sense[13] = random.pick(&[0, 0, 1, 127, any]);
    if random.once_in(4) {
        report.seek_argument = Some(any_seek_argument(random, model));
        report.tries = any_tries(random);
    }
    let track = TrackAddress::decode(&report.sense[8..12]);
    Planned {
        model,
        chain: run.chain,
        storage: run.storage,
        report,
        extent: extent_around(random, model, track),
    }
}
