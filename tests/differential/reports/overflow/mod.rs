//! Reports that send to actions 9 and 11: reads that no drive made, interrupted somewhere. The walk is the
//! simulator's, and address and count left of the CSW are what it comes to.

mod chain;
mod change;

use super::data_chain::ended;
use super::interrupted::any_sense_6;
use super::{any_mask, any_seek_argument, any_tries, extent_around, GeneratedRecovery, Planned};
use crate::random::Random;
use crate::simulator::drive::READ_DATA;
use crate::simulator::interrupted::{next_cylinder, next_track};
use crate::simulator::model::Model;
use crate::simulator::pack::{TrackAddress, LAST_HEAD};
use crate::simulator::recovery::{RestartAction, DATA_AREA_FORMAT};
use crate::simulator::report::{Report, HEAD_REACHED};
use chain::PartlyRead;

const UNCHANGED: &str = "overflow record";

/// A report and its chain, and the same with one thing changed; every second time also with several.
pub fn generated(random: &mut Random, turn: usize) -> Vec<(&'static str, GeneratedRecovery)> {
    let action = match turn % 2 {
        0 => RestartAction::Nine,
        _ => RestartAction::Eleven,
    };
    let read = match random.once_in(12) {
        true => chain::long(random),
        false => chain::short(random),
    };
    let planned = interrupted(random, action, read);
    let mut all = vec![change::changed(random, turn / 2, &planned)];
    if turn % 4 < 2 {
        let several = change::several(random, &planned);
        all.push(("overflow record, several changes", several));
    }
    all.push((UNCHANGED, planned));
    let written = all
        .into_iter()
        .map(|(kind, planned)| (kind, planned.written(random)));
    written.collect()
}

/// What no row and no question asks for is any.
fn interrupted(random: &mut Random, action: RestartAction, read: PartlyRead) -> Planned {
    let model = random.pick(Model::ALL);
    let argument = any_seek_argument(random, model);
    let sought = TrackAddress::decode(&argument[2..]);
    let mut sense: [u8; 24] = random.bytes(24).try_into().expect("24 bytes");
    sense[0] &= 0x03;
    sense[1] = match action {
        RestartAction::Nine => END_OF_CYLINDER | OPERATION_INCOMPLETE | sense[1] & 0x9E,
        _ => FILE_PROTECTED | OPERATION_INCOMPLETE | sense[1] & 0x92,
    };
    sense[3] = READ_DATA;
    sense[6] = any_sense_6(random);
    if random.once_in(4) {
        sense[7] = DATA_AREA_FORMAT;
    }
    sense[15..18].copy_from_slice(&(read.restart as u32).to_be_bytes()[1..]);
    if random.once_in(4) {
        sense[18..20].fill(0);
    }
    let mut csw = ended(&read.chain, read.first, read.restart, read.storage);
    if random.once_in(2) {
        csw[4] = random.byte();
        csw[5] = random.byte();
    }
    let reached = TrackAddress {
        head: u16::from(sense[6] & HEAD_REACHED).min(LAST_HEAD),
        ..sought
    };
    let target = match action {
        RestartAction::Nine => next_cylinder(sought),
        _ => next_track(reached),
    };
    Planned {
        model,
        chain: read.chain,
        storage: random.bytes(read.storage),
        report: Report {
            sense,
            csw,
            first: read.first,
            mask: any_mask(random),
            seek_argument: Some(argument),
            tries: any_tries(random),
        },
        extent: extent_around(random, model, target),
    }
}

/// Bits of sense 1.
const END_OF_CYLINDER: u8 = 0x20;
const FILE_PROTECTED: u8 = 0x04;
const OPERATION_INCOMPLETE: u8 = 0x01;

#[cfg(test)]
mod tests {
    use super::*;
    use crate::simulator::recovery::Answer;

    const TURNS: usize = 400;

    fn recoveries(seed: u64) -> impl Iterator<Item = (&'static str, GeneratedRecovery)> {
        let mut random = Random::new(seed);
        (0..TURNS).flat_map(move |turn| generated(&mut random, turn))
    }

    #[test]
    fn same_seed_same_reports() {
        assert!(recoveries(1).eq(recoveries(1)));
        assert!(!recoveries(1).eq(recoveries(2)));
    }

    /// Where none is changed, more than half are answered by a restart.
    #[test]
    fn both_actions_restart() {
        let mut restarts = [0; 2];
        for (kind, mut recovery) in recoveries(3) {
            let Ok(recovered) = recovery.simulated() else {
                continue;
            };
            match recovered.answer {
                Answer::Restart(RestartAction::Nine) if kind == UNCHANGED => restarts[0] += 1,
                Answer::Restart(RestartAction::Eleven) if kind == UNCHANGED => restarts[1] += 1,
                _ => (),
            }
        }
        assert!(restarts.iter().all(|&restarts| restarts > TURNS / 4));
    }

    /// Many changes are a disagreement.
    #[test]
    fn changed_reports_are_refused_often() {
        let changed = recoveries(4).filter(|(kind, _)| *kind != UNCHANGED);
        let refused = changed.filter(|(_, recovery)| {
            let refused = recovery.clone().simulated();
            refused.is_err_and(|refusal| refusal.number() == 9)
        });
        assert!(refused.count() > TURNS / 2);
    }
}
