//! Runs simulator and library over hand-written cases of recovery: every `.txt` file of the
//! directory given.

mod cases;
#[path = "differential/library.rs"]
mod library;
mod simulator;

use cases::recovery::{Answer, Lent, Said};
use simulator::held::RECOVERY_ANSWER;
use simulator::recovery::{self, RestartAction};
use std::process::ExitCode;

fn main() -> ExitCode {
    cases::check::<Said>(recover_simulator, recover_library)
}

/// Each action of a restart, as cases name it and as the library writes it.
const RESTARTS: [(RestartAction, &str, u8); 7] = [
    (RestartAction::Five, "5", 0x05),
    (RestartAction::FiveA, "5A", 0x15),
    (RestartAction::Eight, "8", 0x08),
    (RestartAction::Nine, "9", 0x09),
    (RestartAction::Ten, "10", 0x0A),
    (RestartAction::TenA, "10A", 0x1A),
    (RestartAction::Eleven, "11", 0x0B),
];

fn recover_simulator(lent: &mut Lent) -> Answer {
    if lent.answer_length != RECOVERY_ANSWER {
        return Answer::Refused(1);
    }
    match lent.simulated() {
        Ok(recovered) => answered(recovered.answer),
        Err(refusal) => Answer::Refused(refusal.number()),
    }
}

fn answered(answer: recovery::Answer) -> Answer {
    match answer {
        recovery::Answer::Action1 => Answer::Action1,
        recovery::Answer::Action2 | recovery::Answer::NotBuilt(..) => Answer::Action2,
        recovery::Answer::Repeat => Answer::Repeat,
        recovery::Answer::CorrectedOnly => Answer::CorrectedOnly,
        recovery::Answer::Finished(csw) => Answer::Finished(csw),
        recovery::Answer::Restart(action) => restart(|&(of, _, _)| of == action),
    }
}

fn restart(is_it: impl Fn(&(RestartAction, &str, u8)) -> bool) -> Answer {
    let found = RESTARTS.into_iter().find(is_it);
    let (_, name, _) = found.expect("an action that restarts");
    Answer::Restart(name.to_string())
}

fn recover_library(lent: &mut Lent) -> Answer {
    let untouched = vec![0xA5; lent.answer_length];
    let mut answer = untouched.clone();
    let number = library::recover_held(lent, &mut answer);
    if number != library::ANSWERED {
        assert_eq!(answer, untouched, "a refusal writes nothing");
        return Answer::Refused(number);
    }
    read(&answer)
}

/// What the library has written of a recovery that was not refused.
fn read(answer: &[u8]) -> Answer {
    let &[first, action, ref csw @ ..] = answer else {
        panic!("an answer where there is no room for one");
    };
    let csw: [u8; 8] = csw.try_into().expect("8 bytes are left");
    assert!(first == library::FINISHED || csw == [0; 8], "a CSW or none");
    let has_action = first >= library::CORRECTED_ONLY;
    assert!(has_action || action == 0, "an action or none");
    assert!(
        first == library::RESTART || !has_action || action == 0x05,
        "storage is corrected by action 5"
    );
    match first {
        library::ACTION_1 => Answer::Action1,
        library::ACTION_2 => Answer::Action2,
        library::REPEAT => Answer::Repeat,
        library::CORRECTED_ONLY => Answer::CorrectedOnly,
        library::FINISHED => Answer::Finished(csw),
        library::RESTART => restart(|&(_, _, written)| written == action),
        _ => panic!("no answer has the number {first}"),
    }
}
