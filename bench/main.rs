//! The proved library against the simulator, in the same process: checking images, running chains,
//! recovering, running on from protected steps, whole readings. Prints times and ratios.
//!     bench             all of it
//!     bench in-place    what a recovery takes by the length of the record, and no more
//! Either fails if the longest record takes a recovery more than twice the time of a short one.

#[path = "../tests/differential/library.rs"]
mod library;
#[path = "../tests/simulator/mod.rs"]
mod simulator;

mod images;
mod in_place;
mod overflow;
mod protected_steps;
mod readings;
mod recoveries;
mod runs;
mod times;

use std::env;
use std::process::ExitCode;

fn main() -> ExitCode {
    let arguments: Vec<String> = env::args().skip(1).collect();
    match arguments.iter().map(String::as_str).collect::<Vec<_>>()[..] {
        [] => {
            images::print();
            runs::print();
            recoveries::print();
            overflow::print();
            protected_steps::print();
            readings::print();
        }
        ["in-place"] => {}
        _ => {
            eprintln!("bench: `in-place` or nothing");
            return ExitCode::from(2);
        }
    }
    in_place::check()
}
