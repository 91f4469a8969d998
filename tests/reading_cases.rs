//! Runs simulator and library over hand-written cases of whole readings: every `.txt` file of the
//! directory given.

mod cases;
#[path = "differential/library.rs"]
mod library;
mod simulator;

use cases::reading::{recovery, Answer, Ending, Lent, Read, Said};
use library::{ACTION_5, ACTION_5A};
use simulator::held::{READING_ANSWER, RECOVERY_ENTRY};
use simulator::reading::{End, Reading};
use simulator::recovery::RestartAction;
use std::process::ExitCode;

fn main() -> ExitCode {
    cases::check::<Said>(read_simulator, read_library)
}

fn read_simulator(lent: &mut Lent) -> Answer {
    let list_too_short = lent.list_length / RECOVERY_ENTRY < lent.limit;
    if lent.answer_length != READING_ANSWER || list_too_short {
        return Answer::Refused(1);
    }
    match lent.simulated() {
        Ok(reading) => Answer::Read(ended(&reading)),
        Err(refusal) => Answer::Refused(refusal.number()),
    }
}

fn ended(reading: &Reading) -> Read {
    let recoveries = reading.recoveries.iter().map(|made| {
        let action = match made.action() {
            RestartAction::FiveA => "5A",
            _ => "5",
        };
        let track = made.track();
        recovery(action, track.cylinder, track.head, made.number())
    });
    Read {
        ending: match reading.end {
            End::Run(_) | End::Finished | End::CorrectedOnly => Ending::End,
            End::Limit(_) => Ending::Limit,
            End::Stopped(stop) => Ending::Stopped(stop.number()),
        },
        csw: reading.csw,
        recoveries: recoveries.collect(),
    }
}

/// What list and answer area hold before.
const UNTOUCHED: u8 = 0xA5;

fn read_library(lent: &mut Lent) -> Answer {
    let mut list = vec![UNTOUCHED; lent.list_length];
    let mut answer = vec![UNTOUCHED; lent.answer_length];
    let number = library::read_held(lent, &mut list, &mut answer);
    if ![library::ENDED, library::LIMIT, library::STOPPED].contains(&number) {
        let untouched = |bytes: &[u8]| bytes.iter().all(|&byte| byte == UNTOUCHED);
        assert!(
            untouched(&list) && untouched(&answer),
            "a refusal writes nothing"
        );
        return Answer::Refused(number);
    }
    Answer::Read(answered(number, &answer, &list))
}

/// What the library has written of a reading that was not refused.
fn answered(number: u8, answer: &[u8], list: &[u8]) -> Read {
    let (csw, rest) = answer.split_first_chunk().expect("8 bytes");
    let &[n0, n1, stopped] = rest else {
        panic!("an answer where there is no room for one");
    };
    assert!(
        number == library::STOPPED || stopped == 0,
        "a number or none"
    );
    let length = RECOVERY_ENTRY * usize::from(u16::from_be_bytes([n0, n1]));
    let (made, rest) = list.split_at(length);
    assert!(
        rest.iter().all(|&byte| byte == UNTOUCHED),
        "the rest of the list is kept"
    );
    Read {
        ending: match number {
            library::ENDED => Ending::End,
            library::LIMIT => Ending::Limit,
            _ => Ending::Stopped(stopped),
        },
        csw: *csw,
        recoveries: made.chunks(RECOVERY_ENTRY).map(entry).collect(),
    }
}

fn entry(bytes: &[u8]) -> String {
    let &[action, c0, c1, h0, h1, number] = bytes else {
        unreachable!("6 bytes");
    };
    let action = match action {
        ACTION_5 => "5",
        ACTION_5A => "5A",
        _ => panic!("no recovery has the action {action:02X}"),
    };
    let [cylinder, head] = [[c0, c1], [h0, h1]].map(u16::from_be_bytes);
    recovery(action, cylinder, head, number)
}
