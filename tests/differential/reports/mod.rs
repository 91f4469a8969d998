//! Recoveries: reports of cuts that the trial drive made, of data chains made up, of interrupted CCWs and
//! of overflow records, each with its chain; the same with something changed; reports with no plan.

mod areas;
mod change;
mod cut;
mod data_chain;
mod interrupted;
pub mod overflow;
mod row;

pub use crate::simulator::held::HeldRecovery as GeneratedRecovery;
pub use areas::ANSWER_AREAS;

use crate::chains;
use crate::damage::damaged_report;
use crate::generate::{self, DraftField};
use crate::models::borders_on;
use crate::random::Random;
use crate::simulator::encode;
use crate::simulator::held::RECOVERY_ANSWER;
use crate::simulator::large::place_of;
use crate::simulator::model::Model;
use crate::simulator::pack::{TrackAddress, LAST_HEAD};
use crate::simulator::report::{self, Report};

/// A recovery whose report is not written yet.
#[derive(Clone)]
pub struct Planned {
    model: Model,
    chain: Vec<u8>,
    storage: Vec<u8>,
    report: Report,
    extent: Vec<u8>,
}

impl Planned {
    pub fn written(self, random: &mut Random) -> GeneratedRecovery {
        let report = encode::report(&self.report);
        self.with_report(random, report)
    }

    fn with_report(self, random: &mut Random, report: Vec<u8>) -> GeneratedRecovery {
        GeneratedRecovery {
            model: self.model.number(),
            chain: self.chain,
            report,
            extent: self.extent,
            storage: self.storage,
            program: random.bytes(64),
            restart_arguments: random.bytes(16),
            answer_length: RECOVERY_ANSWER,
        }
    }

    /// The report's fields, tries of 0 now and then among them.
    fn fields(&self, random: &mut Random) -> generate::Draft {
        let bytes = encode::report(&self.report);
        let mut rest = &bytes[..];
        let mut fields = generate::Draft::new();
        while let &[tag, high, low, ref behind @ ..] = rest {
            let length = u16::from_be_bytes([high, low]);
            let (contents, behind) = behind.split_at(length.into());
            fields.push(DraftField::new(tag, contents));
            rest = behind;
        }
        if self.report.tries == 0 && random.once_in(2) {
            fields.push(DraftField::new(report::TRIES, [0]));
        }
        fields
    }
}

/// A recovery of one kind; the kinds take turns, and so do the changes of a kind.
pub fn generated(random: &mut Random, turn: usize) -> (&'static str, GeneratedRecovery) {
    let of_kind = turn / 16;
    let (kind, planned) = match turn % 16 {
        0 => return without_plan(random),
        1 => return damaged(random, of_kind),
        2 => return areas::refused(random, of_kind),
        3 if of_kind % 4 == 0 => ("cut of a long record", cut::long(random)),
        3..=5 => ("cut", cut::once(random)),
        6 => ("cut behind a restart", cut::again(random)),
        7 | 8 => ("data chain made up", data_chain::made_up(random)),
        9 => ("CCW interrupted", interrupted::planned(random)),
        10 => ("row", row::planned(random, of_kind)),
        11 => ("any contents", row::any_contents(random)),
        12 => ("cut, CCW changed", {
            let mut planned = cut::once(random);
            chains::changed_ccw(random, of_kind, &mut planned.chain);
            planned
        }),
        13 => {
            let planned = interrupted::planned(random);
            change::changed(random, of_kind, planned)
        }
        _ => {
            let planned = if random.once_in(2) {
                cut::once(random)
            } else {
                data_chain::made_up(random)
            };
            change::changed(random, 2 * of_kind + turn % 2, planned)
        }
    };
    if random.once_in(8) {
        let fields = generate::written(&planned.fields(random));
        return (kind, planned.with_report(random, fields));
    }
    (kind, planned.written(random))
}

/// A recovery of any action that goes on to its answer, more often than not.
fn any_planned(random: &mut Random) -> Planned {
    match random.below(4) {
        0 => interrupted::planned(random),
        1 => data_chain::made_up(random),
        _ => cut::once(random),
    }
}

fn without_plan(random: &mut Random) -> (&'static str, GeneratedRecovery) {
    let fields = [(0x10, 24), (0x11, 8), (0x12, 2), (0x13, 1), (0x14, 6)];
    let (kind, report) = generate::without_plan(random, &fields);
    let planned = any_planned(random);
    (kind, planned.with_report(random, report))
}

fn damaged(random: &mut Random, turn: usize) -> (&'static str, GeneratedRecovery) {
    let mut planned = any_planned(random);
    row::take_turn(&mut planned.report, turn);
    let fields = planned.fields(random);
    let (kind, report) = damaged_report(random, turn, &fields);
    (kind, planned.with_report(random, report))
}

/// None, or one that a report may have; bit 7 on once in four.
fn any_mask(random: &mut Random) -> Option<u8> {
    let any = random.byte() & !0x27;
    match random.below(8) {
        0..=2 => None,
        3 => Some(0),
        4 | 5 => Some(any),
        _ => Some(any | report::MASK_PCI_FETCH),
    }
}

fn any_tries(random: &mut Random) -> u8 {
    random.pick(&[0, 0, 0, 1, 2, 9, 10, 11, 255])
}

fn any_seek_argument(random: &mut Random, model: Model) -> [u8; 6] {
    let [c0, c1, h0, h1] = encode::track_address(any_track(random, model));
    [0, 0, c0, c1, h0, h1]
}

/// A track of the pack, at an edge as often as not; the edge of another model's pack is one.
fn any_track(random: &mut Random, model: Model) -> TrackAddress {
    let (last_cylinder, last_head) = (model.last_cylinder(), LAST_HEAD.into());
    let anywhere = random.within(0..=last_cylinder.into()) as u16;
    let border = random.pick(borders_on(model));
    let cylinder = random.pick(&[0, 8, 255, border - 1, border, anywhere, anywhere]);
    let anywhere = random.within(0..=last_head);
    let head = random.pick(&[0, 1, last_head - 1, last_head, anywhere]);
    TrackAddress {
        cylinder,
        head: head as u16,
    }
}

/// An extent in which a track of the pack mostly lies, often at its edge.
fn extent_around(random: &mut Random, model: Model, track: TrackAddress) -> Vec<u8> {
    let last = generate::tracks_of(model) - 1;
    let place = place_of(track).min(last);
    let places = match random.below(12) {
        0 => return generate::extent(random, model),
        1 => [0, place.saturating_sub(1)],
        2 => [(place + 1).min(last), last],
        3 | 4 => [place, place],
        5 | 6 => [place, last],
        7 | 8 => [0, place],
        _ => [0, last],
    };
    generate::extent_of(places)
}

#[cfg(test)]
mod tests {
    use super::*;
    use crate::chains::{GeneratedRestart, GeneratedRun};
    use crate::demand::{csw_of_reading, AtReadCount, LastTwo};
    use crate::models::model_of;
    use crate::simulator::extent::whole_pack;
    use crate::simulator::recovery::Answer;
    use crate::simulator::run::{End, Outcome};
    use crate::simulator::{check_faults, Refusal};

    const TURNS: usize = 3_200;

    fn recoveries(seed: u64) -> impl Iterator<Item = (&'static str, GeneratedRecovery)> {
        let mut random = Random::new(seed);
        (0..TURNS).map(move |turn| generated(&mut random, turn))
    }

    #[test]
    fn same_seed_same_recoveries() {
        assert!(recoveries(1).eq(recoveries(1)));
        assert!(!recoveries(1).eq(recoveries(2)));
    }

    #[test]
    fn most_cuts_agree_with_their_chains() {
        let mut refused = 0;
        let mut cuts = 0;
        for (kind, mut recovery) in recoveries(3) {
            if !kind.starts_with("cut") || kind == "cut, CCW changed" {
                continue;
            }
            cuts += 1;
            match recovery.simulated() {
                Ok(_) => (),
                // What is behind the read is not the cut's.
                Err(Refusal::Next(_)) => refused += 1,
                Err(refusal) => panic!("{kind}: {refusal:?}"),
            }
        }
        assert!(cuts > TURNS / 8 && refused < cuts / 8);
    }

    /// A correction leaves storage as the same read leaves it where the error is none.
    #[test]
    fn corrected_storage_is_as_if_nothing_had_been_faulted() {
        let mut random = Random::new(5);
        let mut corrected = 0;
        for turn in 0..600 {
            let generated = if turn % 8 == 0 {
                chains::cut_long
            } else {
                chains::cut
            };
            let (mut run, outcome) = generated(&mut random);
            let report = Report::of_cut(&outcome).expect("a cut");
            let model = model_of(run.model);
            let planned = Planned {
                model,
                chain: run.chain.clone(),
                storage: run.storage.clone(),
                report,
                extent: whole_pack(model).to_vec(),
            };
            let mut recovery = planned.written(&mut random);
            let Ok(recovered) = recovery.simulated() else {
                continue;
            };
            assert!(!matches!(recovered.answer, Answer::NotBuilt(..)));
            // Every byte that was read is read again, now without errors.
            for fault in run.faults.chunks_mut(13) {
                fault[10..].fill(0);
            }
            let again = run.simulated().expect("the run is not refused");
            assert_eq!(again.csw, outcome.csw);
            assert!(run.storage == recovery.storage);
            corrected += 1;
        }
        assert!(corrected > 400);
    }

    /// The CSW that the run, which was cut, comes to if each cut is recovered from; none in PCI
    /// fetch mode.
    fn read_on(run: &mut GeneratedRun, mut outcome: Outcome) -> Option<[u8; 8]> {
        while let Some(report) = Report::of_cut(&outcome) {
            let model = model_of(run.model);
            let planned = Planned {
                model,
                chain: run.chain.clone(),
                storage: run.storage.clone(),
                report,
                extent: whole_pack(model).to_vec(),
            };
            let mut recovery = planned.written(&mut Random::new(0));
            let recovered = recovery.simulated().expect("the cut agrees with the chain");
            run.storage = recovery.storage;
            match recovered.answer {
                Answer::Finished(csw) => return Some(csw),
                Answer::Restart(_) => {
                    run.restart = Some(GeneratedRestart {
                        program: recovery.program,
                        arguments: recovery.restart_arguments,
                    });
                    outcome = run.simulated().expect("the run is not refused");
                }
                answer => {
                    assert_eq!(answer, Answer::CorrectedOnly);
                    return None;
                }
            }
        }
        Some(outcome.csw)
    }

    /// Restart after restart leads to where the run without faults ends, or to a restart's 92, with the
    /// same storage; a program check may leave a faulted area behind.
    #[test]
    fn recovered_runs_end_as_the_faultless_one() {
        let mut random = Random::new(6);
        let (mut ended, mut ended_at_read_count) = (0, 0);
        for _ in 0..600 {
            let (mut run, outcome) = chains::cut(&mut random);
            run.limit = 4_096;
            let mut faultless = run.clone();
            faultless.faults.clear();
            let mut last = LastTwo::default();
            let expected = faultless
                .watched(&mut last)
                .expect("the run is not refused");
            if let End::Limit | End::ProgramCheck(_) = expected.end {
                continue;
            }
            let Some(csw) = read_on(&mut run, outcome) else {
                continue;
            };
            let (_, faults) = check_faults(run.model, &run.image, &run.faults).unwrap();
            let at_read_count = AtReadCount::of(&expected, &last, &faults);
            assert_eq!(csw, csw_of_reading(expected.csw, at_read_count));
            assert!(run.storage == faultless.storage);
            ended += 1;
            ended_at_read_count += usize::from(at_read_count.is_some());
        }
        assert!(ended > 400 && ended_at_read_count > 4);
    }
}
