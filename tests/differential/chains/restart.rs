//! Restarted runs, their programs built as document 01's actions 5, 5A, 8 and 10A say.

use super::ground::Ground;
use super::plan::planned_on;
use super::{GeneratedRestart, GeneratedRun};
use crate::generate::decoded;
use crate::random::Random;
use crate::simulator::channel::{Ccw, CCW_LENGTH, FLAG_CHAIN_COMMAND};
use crate::simulator::drive::NO_OPERATION;
use crate::simulator::encode;
use crate::simulator::interrupted::next_command;
use crate::simulator::pack::TrackAddress;
use crate::simulator::restart::{behind_record, from_home_address, BuiltRestart};
use crate::simulator::run::Outcome;

/// Tries to find a cut whose restart goes on in the chain.
const TRIES: usize = 16;

/// A restart of action 5 or 5A behind a cut of the same chain, storage as the cut left it.
pub fn behind_a_cut(random: &mut Random) -> GeneratedRun {
    for _ in 0..TRIES {
        let ground = Ground::faulted(random);
        let mut run = planned_on(random, ground);
        let outcome = run.simulated().expect("a plan is not refused");
        if let Some(restart) = action_5(&run.chain, &outcome) {
            run.restart = Some(restart);
            return run;
        }
    }
    anywhere(random)
}

/// None where the run was not cut, or its recovery would not restart.
fn action_5(chain: &[u8], cut: &Outcome) -> Option<GeneratedRestart> {
    let first = cut.cut?;
    let behind = usize::from(u16::from_be_bytes([cut.csw[2], cut.csw[3]]));
    let current = chain.get(behind - CCW_LENGTH..behind)?;
    let incorrect_length = cut.csw[5] != 0;
    if incorrect_length || current[4] & FLAG_CHAIN_COMMAND == 0 || first >= chain.len() {
        return None;
    }
    let next = next_command(chain, behind).ok()?;
    let id = *cut.sense[8..].first_chunk()?;
    Some(behind_record(id, cut.mask, 0, &next).into())
}

impl From<BuiltRestart> for GeneratedRestart {
    fn from(built: BuiltRestart) -> GeneratedRestart {
        GeneratedRestart {
            program: built.program.to_vec(),
            arguments: built.arguments.to_vec(),
        }
    }
}

/// One that does nothing but go to the chain's first CCW.
pub fn to_the_first_ccw() -> GeneratedRestart {
    let mut program = encode::ccw(NO_OPERATION, 0, FLAG_CHAIN_COMMAND, 1).to_vec();
    program.extend(encode::ccw(0x08, 0, 0, 0));
    program.resize(64, 0);
    GeneratedRestart {
        program,
        arguments: vec![0; 16],
    }
}

/// A restart of any of the actions to any CCW of the chain, behind any record.
pub fn anywhere(random: &mut Random) -> GeneratedRun {
    let ground = Ground::new(random);
    let model = ground.model;
    let mut run = planned_on(random, ground);
    let ccws: Vec<Ccw> = (0..run.chain.len())
        .step_by(CCW_LENGTH)
        .filter_map(|at| next_command(&run.chain, at).ok())
        .collect();
    let next = random.pick(&ccws);
    let mask = match random.below(3) {
        0 => None,
        _ => Some(random.pick(&[0x00, 0x01, 0x18, 0xC0])),
    };
    let pack = decoded(model, &run.image);
    let records = pack.tracks().flat_map(|(_, records)| records);
    let ids: Vec<[u8; 5]> = records
        .filter_map(|record| record.count_area.first_chunk().copied())
        .collect();
    let id = if ids.is_empty() {
        [0; 5]
    } else {
        random.pick(&ids)
    };
    let restart = if random.once_in(4) {
        from_home_address(TrackAddress::decode(&id[..4]), mask, &next)
    } else {
        let sector = random.below(128) as u8;
        behind_record(id, mask, sector, &next)
    };
    run.restart = Some(restart.into());
    run
}

#[cfg(test)]
mod tests {
    use super::*;
    use crate::simulator::drive::READ_COUNT;
    use crate::simulator::sample;

    /// The sample's first run with some bytes of its chain set, and its restart.
    fn restarted(changes: &[(usize, u8)]) -> Option<GeneratedRestart> {
        let mut run = GeneratedRun {
            limit: 4_096,
            ..sample::run()
        };
        for &(at, byte) in changes {
            run.chain[at] = byte;
        }
        let outcome = run.simulated().expect("the sample is not refused");
        action_5(&run.chain, &outcome)
    }

    const BEFORE_THE_READ_COUNT: [[u8; CCW_LENGTH]; 4] = [
        [0x07, 0, 0x20, 0x00, 0x40, 0, 0, 6],
        [0x23, 0, 0x20, 0x07, 0x40, 0, 0, 1],
        [0x31, 0, 0x20, 0x08, 0x40, 0, 0, 5],
        [0x08, 0, 0x10, 0x10, 0, 0, 0, 0],
    ];

    #[test]
    fn sample_by_5a() {
        let restart = restarted(&[]).unwrap();
        let mut program = BEFORE_THE_READ_COUNT.concat();
        program.extend([0x12, 0, 0, 0, 0x50, 0, 0, 8]);
        program.extend([0x08, 0, 0, 0x20, 0, 0, 0, 0]);
        program.resize(64, 0);
        assert_eq!(restart.program, program);
        let arguments = [0, 0, 0, 0, 0, 1, 0, 0, 0, 0, 0, 1, 1, 0, 0, 0];
        assert_eq!(restart.arguments, arguments);
    }

    #[test]
    fn next_command_with_bit_3_on_by_5() {
        let restart = restarted(&[(0x20, READ_COUNT)]).unwrap();
        let mut program = BEFORE_THE_READ_COUNT.concat();
        program.extend([0x08, 0, 0, 0x20, 0, 0, 0, 0]);
        program.resize(64, 0);
        assert_eq!(restart.program, program);
    }

    #[test]
    fn no_restart() {
        let cut_without_cc = (0x1C, 0);
        assert!(restarted(&[cut_without_cc]).is_none());
        let count_left = (0x1F, 5);
        assert!(restarted(&[count_left]).is_none());
        let tic_to_a_tic = [(0x20, 0x08), (0x23, 0x10)];
        assert!(restarted(&tic_to_a_tic).is_none());
        let not_found = (0x09, 0x0F);
        assert!(restarted(&[not_found]).is_none());
    }
}
