//! The proved library against the simulator, on inputs that a fixed seed gives.
//!
//! Another seed may be given as the only argument.

#[macro_use]
#[path = "../simulator/mod.rs"]
mod simulator;

mod arena;
mod border_marks;
mod calls;
mod chains;
mod compare;
mod damage;
mod demand;
mod exhaustive;
mod generate;
mod in_place;
mod lendings;
mod library;
mod limits;
mod marks;
mod models;
mod overflow_marks;
mod protected_steps;
mod random;
mod reading_marks;
mod readings;
mod recoveries;
mod recovery_marks;
mod reports;
mod rest_of_read;
mod runs;
mod sizes;
mod step_marks;
mod tally;

use border_marks::AboveEvent;
use chains::steps;
use compare::{Comparison, Disagreement};
use generate::{decoded, written, SHAPES};
use random::Random;
use simulator::faults::FAULT;
use simulator::large::place_of;
use simulator::model::Model;
use simulator::pack::{TrackAddress, HOME_ADDRESS, RECORD};
use simulator::sample;
use std::process::ExitCode;

const SEED: u64 = 33_300_001;

/// Every kind of damage is done in its turn, at least 300 times.
const ROUNDS: usize = 15_000;

/// Generated chains under a mask that forbids steps.
const FORBIDDEN: usize = 40_000;

fn main() -> ExitCode {
    let seed = match std::env::args().nth(1) {
        Some(text) => text.parse().expect("the seed is a decimal number"),
        None => SEED,
    };
    println!("seed {seed}");
    let mut comparison = Comparison::default();
    if let Err(disagreement) = compare_all(&mut comparison, &mut Random::new(seed)) {
        println!("{disagreement}");
        return ExitCode::FAILURE;
    }
    let tally = comparison.tally;
    tally.print();
    let never_seen = tally.never_seen();
    if !never_seen.is_empty() {
        println!("never seen: {}", never_seen.join(", "));
        return ExitCode::FAILURE;
    }
    let too_few = tally.too_few();
    if !too_few.is_empty() {
        println!("too few: {}", too_few.join(", "));
        return ExitCode::FAILURE;
    }
    println!("0 disagreements");
    for (what, number) in [
        (
            "inputs on which library and simulator agree",
            tally.compared,
        ),
        ("of them on packs of model 1", tally.compared_on(Model::One)),
        (
            "of them on packs of model 11",
            tally.compared_on(Model::Eleven),
        ),
        (
            "of them with the number of no model, each refused",
            tally.compared_on_none(),
        ),
        (
            "on model 1 and once more on model 11, with the same answer",
            tally.alike,
        ),
        ("runs among these", tally.runs()),
        (
            "runs with multitrack commands",
            tally.sum(|of| of.multitrack_runs()),
        ),
        ("recoveries among these", tally.recoveries()),
        (
            "recoveries that changed bytes of storage, three at most",
            tally.sum(|of| of.recoveries_changing()),
        ),
        ("readings among these", tally.readings()),
        ("readings that began", tally.sum(|of| of.begun.all)),
        (
            "of them with two recoveries or more",
            tally.sum(|of| of.begun.of_two),
        ),
        (
            "readings of which demand 3 was asked, and held",
            tally.sum(|of| of.met.all),
        ),
        (
            "of these with two recoveries or more",
            tally.sum(|of| of.met.of_two),
        ),
        (
            "of these with a cut on a cylinder that only model 11 has",
            tally.sum(|of| of.borders.times_above(AboveEvent::DemandThree)),
        ),
        (
            "readings with multitrack commands",
            tally.sum(|of| of.multitrack.all),
        ),
        (
            "of those with two recoveries or more",
            tally.sum(|of| of.multitrack.of_two),
        ),
        (
            "chains under a mask that forbids steps, each step answered by 10A and run on",
            tally.sum(|of| of.protected_steps.all()),
        ),
        (
            "of them with two such steps or more",
            tally.sum(|of| of.protected_steps.of_two()),
        ),
        (
            "reports that send to action 9 or 11",
            tally.sum(|of| of.overflow.reports()),
        ),
        (
            "of them answered by a restart, which reads on as the uncut chain does",
            tally.sum(|of| of.overflow.restarts()),
        ),
        (
            "other recoveries, each answered as where 9 and 11 are not built",
            tally.sum(|of| of.overflow.others),
        ),
    ] {
        println!("tried: {what}: {number}");
    }
    ExitCode::SUCCESS
}

fn compare_all(comparison: &mut Comparison, random: &mut Random) -> Result<(), Disagreement> {
    exhaustive::compare_all(comparison)?;
    for turn in 0..ROUNDS {
        well_formed(comparison, random, turn)?;
        damaged(comparison, random, turn)?;
        without_plan(comparison, random)?;
        extents(comparison, random, turn)?;
        no_model(comparison, random, turn)?;
        area_sizes(comparison, random, turn)?;
    }
    limits::compare_all(comparison, random)?;
    runs::compare_all(comparison, random)?;
    recoveries::compare_all(comparison, random)?;
    readings::compare_all(comparison, random)?;
    forbidden_steps(comparison, random)?;
    recoveries::overflow::compare_all(comparison, random)
}

/// Every sequence of four steps over three heads of a cylinder, the last ones and others; generated
/// chains.
fn forbidden_steps(comparison: &mut Comparison, random: &mut Random) -> Result<(), Disagreement> {
    for few in steps::every(4, &steps::FEW_OVER_HEADS) {
        for head in [1, 16] {
            let (model, cylinder) = comparison.any_cylinder();
            let first = place_of(TrackAddress { cylinder, head });
            let mut chain = steps::forbidden(first, &[1, 0, 1], &few);
            chain.run.model = model.number();
            comparison.protected_steps(random, &chain)?;
        }
    }
    for _ in 0..FORBIDDEN {
        let chain = chains::forbidden_steps(random);
        comparison.protected_steps(random, &chain)?;
    }
    Ok(())
}

fn well_formed(
    comparison: &mut Comparison,
    random: &mut Random,
    turn: usize,
) -> Result<(), Disagreement> {
    let model = random.pick(Model::ALL);
    let (shape, draft) = SHAPES[turn % SHAPES.len()];
    let image = written(&draft(random, model));
    comparison.image(shape, model.number(), &image)?;
    let list = written(&generate::faults(random, &decoded(model, &image)));
    comparison.faults(shape, model.number(), &image, &list)
}

fn damaged(
    comparison: &mut Comparison,
    random: &mut Random,
    turn: usize,
) -> Result<(), Disagreement> {
    let model = random.pick(Model::ALL);
    let draft = generate::ground(random, model);
    let image = written(&draft);
    let pack = decoded(model, &image);
    let faults = generate::faults(random, &pack);
    let (kind, damaged_image) = damage::damaged_image(random, turn, &draft);
    let model = model.number();
    comparison.image(kind, model, &damaged_image)?;
    let (kind, damaged_faults) = damage::damaged_faults(random, turn, &faults, &pack);
    comparison.faults(kind, model, &image, &damaged_faults)?;
    comparison.faults("image damaged", model, &damaged_image, &written(&faults))?;
    let kind = "image and list damaged";
    comparison.faults(kind, model, &damaged_image, &damaged_faults)
}

fn without_plan(comparison: &mut Comparison, random: &mut Random) -> Result<(), Disagreement> {
    let model = random.pick(Model::ALL).number();
    let fields = [(HOME_ADDRESS, 5), (RECORD, 8), (RECORD, 9)];
    let (kind, image) = generate::without_plan(random, &fields);
    comparison.image(kind, model, &image)?;
    let (kind, faults) = generate::without_plan(random, &[(FAULT, 10)]);
    comparison.faults(kind, model, &sample::IMAGE, &faults)
}

fn extents(
    comparison: &mut Comparison,
    random: &mut Random,
    turn: usize,
) -> Result<(), Disagreement> {
    let model = random.pick(Model::ALL);
    let extent = generate::extent(random, model);
    let model = model.number();
    comparison.extent("well formed", model, &extent)?;
    let (kind, damaged) = damage::damaged_extent(random, turn, &extent);
    comparison.extent(kind, model, &damaged)?;
    let length = random.pick(&[0, 4, 7, 8, 8, 9, 16]);
    comparison.extent("random bytes", model, &random.bytes(length))
}

/// What a pack of a model would take, with the number of none.
fn no_model(
    comparison: &mut Comparison,
    random: &mut Random,
    turn: usize,
) -> Result<(), Disagreement> {
    const KIND: &str = "no model";
    let (model, number) = (random.pick(Model::ALL), models::any_other(random));
    if turn % 2 == 0 {
        let extent = generate::extent(random, model);
        return comparison.extent(KIND, number, &extent);
    }
    let image = written(&generate::ground(random, model));
    let list = written(&generate::faults(random, &decoded(model, &image)));
    comparison.image(KIND, number, &image)?;
    comparison.faults(KIND, number, &image, &list)
}

fn area_sizes(
    comparison: &mut Comparison,
    random: &mut Random,
    turn: usize,
) -> Result<(), Disagreement> {
    let (kind, sizes) = sizes::run_sizes(random, turn);
    comparison.areas(kind, sizes)?;
    comparison.restart_areas("edges", sizes::restart_sizes(random))
}
