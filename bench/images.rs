//! Checking images.

use crate::library;
use crate::simulator::large::{image_of, TracksOf};
use crate::simulator::model::Model;
use crate::simulator::{answer, check_image};
use crate::times::measured;

const FULL: usize = 1_048_576;
const HALF: usize = FULL / 2;

pub fn print() {
    let [one, eleven] = [Model::One, Model::Eleven].map(Model::number);
    let workloads = [
        (
            "tracks of 2 records after R0",
            one,
            TracksOf::TWO_RECORDS,
            4,
        ),
        (
            "tracks of 255 records after R0",
            one,
            TracksOf::MANY_RECORDS,
            4,
        ),
        ("records of 13,030 bytes", one, TracksOf::LONG_RECORD, 1_000),
        (
            "2 short records, model 11",
            eleven,
            TracksOf::SHORT_RECORDS,
            4,
        ),
    ];
    println!(
        "{:<32}{:>10}{:>14}{:>14}{:>8}",
        "checking an image", "bytes", "library ns", "simulator ns", "ratio"
    );
    for (name, model, tracks, calls) in workloads {
        let [half, full] = [HALF, FULL].map(|size| {
            let times = measured(
                calls,
                0,
                image_of(size, tracks),
                |image| library::check_image(model, image),
                |image| answer(&check_image(model, image)),
            );
            println!(
                "{name:<32}{size:>10}{:>14.0}{:>14.0}{:>8.2}",
                times.library,
                times.simulator,
                times.ratio()
            );
            times
        });
        println!(
            "{:<32}{:>10}{:>14.2}{:>14.2}",
            "  full over half",
            "",
            full.library / half.library,
            full.simulator / half.simulator
        );
    }
}
