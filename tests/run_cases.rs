//! Runs simulator and library over hand-written cases: every `.txt` file of the directory given.

mod cases;
#[path = "differential/library.rs"]
mod library;
mod simulator;

use cases::run::{taken_area, Answer, Ending, Lent, Ran, Said};
use library::ANSWER;
use simulator::run::{End, Outcome};
use std::process::ExitCode;

fn main() -> ExitCode {
    cases::check::<Said>(run_simulator, run_library)
}

fn run_simulator(lent: &mut Lent) -> Answer {
    match lent.simulated() {
        Ok(outcome) => Answer::Ran(ran(outcome)),
        Err(refusal) => Answer::Refused(refusal.number()),
    }
}

fn ran(outcome: Outcome) -> Ran {
    let taken = outcome.taken.iter().map(|area| {
        let track = area.track;
        taken_area(
            track.cylinder,
            track.head,
            area.number,
            area.faulted,
            area.stored,
        )
    });
    Ran {
        ending: match outcome.end {
            End::Limit => Ending::Limit,
            _ => Ending::End,
        },
        csw: outcome.csw,
        sense: outcome.sense,
        mask: outcome.mask,
        cut: outcome.cut,
        taken: Some(taken.collect()),
    }
}

fn run_library(lent: &mut Lent) -> Answer {
    const UNTOUCHED: [u8; ANSWER] = [0xA5; ANSWER];
    let mut answer = UNTOUCHED;
    let number = library::run_held(lent, &mut answer);
    match number {
        library::ENDED => Answer::Ran(answered(Ending::End, &answer)),
        library::LIMIT => Answer::Ran(answered(Ending::Limit, &answer)),
        _ => {
            assert_eq!(answer, UNTOUCHED, "a refusal writes nothing");
            Answer::Refused(number)
        }
    }
}

/// What the library has written of a run that was not refused.
fn answered(ending: Ending, answer: &[u8; ANSWER]) -> Ran {
    let (csw, rest) = answer.split_first_chunk().expect("8 bytes");
    let (sense, rest) = rest.split_first_chunk().expect("24 bytes");
    let &[is_set, mask, c0, c1] = rest else {
        unreachable!("4 bytes are left");
    };
    assert!(is_set == 1 || (is_set, mask) == (0, 0), "a mask or none");
    let is_cut = sense[0] == DATA_CHECK;
    assert!(is_cut || (c0, c1) == (0, 0), "an address or none");
    Ran {
        ending,
        csw: *csw,
        sense: *sense,
        mask: (is_set == 1).then_some(mask),
        cut: is_cut.then_some(u16::from_be_bytes([c0, c1]).into()),
        taken: None,
    }
}

/// Sense byte 0 where a faulted data area cut a read.
const DATA_CHECK: u8 = 0x08;
