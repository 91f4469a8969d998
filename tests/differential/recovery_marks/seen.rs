//! Which marks a recovery has.

use super::{AnswerKind, MaskKind, PatternKind, RecoveryEvent, RecoveryMark};
use crate::models::model_of;
use crate::reports::GeneratedRecovery;
use crate::simulator::channel::{CCW_LENGTH, FLAG_CHAIN_COMMAND};
use crate::simulator::correct::Fate;
use crate::simulator::cut::CutRead;
use crate::simulator::drive::LAST_SECTOR;
use crate::simulator::extent::Extent;
use crate::simulator::interrupted::{next_command, next_track, Interrupted, InterruptedRule};
use crate::simulator::pack::{TrackAddress, LAST_HEAD};
use crate::simulator::recovery::{Answer, NotBuilt, Recovered, RestartAction};
use crate::simulator::report::Report;
use crate::simulator::restart::read_count_before;
use crate::simulator::table::{row_of, Action, TABLE};
use crate::simulator::Refusal;
use std::collections::BTreeSet;

/// The marks of a recovery, as it was lent, that the simulator has answered or refused, with so many bytes
/// of storage changed.
pub fn marks_of(
    recovery: &GeneratedRecovery,
    recovered: &Result<Recovered, Refusal>,
    changed: usize,
) -> BTreeSet<RecoveryMark> {
    let mut marks = Marks::default();
    match recovered {
        Err(refusal) => marks.refused(recovery, *refusal),
        Ok(recovered) => {
            let report = Report::decode(&recovery.report).expect("question 4 was answered yes");
            marks.answered(recovery, &report, recovered);
            if recovered.correction.is_some() {
                marks.see(RecoveryMark::Changed(kind_of(&recovered.answer), changed));
            }
        }
    }
    marks.seen
}

/// Sense of a report, also of one that is not well formed.
fn sense_of(report: &[u8]) -> Option<&[u8; 24]> {
    report.strip_prefix(&[0x10, 0, 24])?.first_chunk()
}

#[derive(Default)]
struct Marks {
    seen: BTreeSet<RecoveryMark>,
}

impl Marks {
    fn see(&mut self, mark: RecoveryMark) {
        self.seen.insert(mark);
    }

    fn meet_if(&mut self, met: bool, event: RecoveryEvent) {
        if met {
            self.see(RecoveryMark::Met(event));
        }
    }

    fn refused(&mut self, recovery: &GeneratedRecovery, refusal: Refusal) {
        let sense = sense_of(&recovery.report);
        let (number, row) = (refusal.number(), sense.and_then(row_of));
        let action = row.map(|row| TABLE[row].action);
        // What 9 and 11 are refused for has marks of its own.
        let overflow = matches!(action, Some(Action::Nine | Action::Eleven));
        if !overflow || number != 9 {
            self.see(RecoveryMark::Refused(refusal));
        }
        if sense.is_none() {
            return;
        }
        self.see(RecoveryMark::RefusedFor(number, action));
        if let Some(row) = row.filter(|_| number > 6) {
            self.see(RecoveryMark::Row(row));
        }
        let off_the_pack = Refusal::Interrupted(InterruptedRule::SeekOffThePack);
        if refusal == off_the_pack && action == Some(Action::Ten) {
            self.meet_if(
                is_10a_by_another_head(recovery),
                RecoveryEvent::HeadSoughtOffThePackIn10A,
            );
        }
    }

    fn answered(&mut self, recovery: &GeneratedRecovery, report: &Report, recovered: &Recovered) {
        let action = TABLE[recovered.row].action;
        let kind = kind_of(&recovered.answer);
        self.see(RecoveryMark::Row(recovered.row));
        self.see(RecoveryMark::Answered(action, kind));
        if let Answer::Restart(action) = recovered.answer {
            self.restarted(report, action);
        }
        self.went_by_heads(recovery, report, kind);
        let tried = |tries| action == Action::Four && report.tries == tries;
        self.meet_if(tried(10), RecoveryEvent::TenTries);
        self.meet_if(tried(9), RecoveryEvent::NineTries);
        if let Some(correction) = &recovered.correction {
            for (at, fate) in correction.fates.into_iter().enumerate() {
                self.see(RecoveryMark::Pattern(at, kind_of_fate(fate)));
            }
            self.see(RecoveryMark::Cut(recovery.chain[report.first]));
            self.meet_if(is_apart(&correction.fates), RecoveryEvent::PatternApart);
            self.walked(report, &correction.read);
            self.ended(recovery, report, &correction.read, kind);
        }
    }

    fn restarted(&mut self, report: &Report, action: RestartAction) {
        let mask = MaskKind::of(report.mask);
        self.see(RecoveryMark::Masked(action, mask));
        let overflow = matches!(action, RestartAction::Nine | RestartAction::Eleven);
        self.meet_if(
            report.is_pci_fetch_mode() && !overflow,
            RecoveryEvent::PciFetchModeSetAgain,
        );
    }

    /// By the head sought, of tag 14, and by the head reached, of sense 6.
    fn went_by_heads(&mut self, recovery: &GeneratedRecovery, report: &Report, kind: AnswerKind) {
        let Some(argument) = report.seek_argument else {
            return;
        };
        let sought = TrackAddress::decode(&argument[2..]);
        let head = report.head_reached();
        let above = head > LAST_HEAD;
        match kind {
            AnswerKind::Restart(RestartAction::Eight) => {
                self.meet_if(above, RecoveryEvent::HeadAboveLastIn8);
            }
            AnswerKind::Restart(RestartAction::Ten) => {
                self.meet_if(above, RecoveryEvent::HeadAboveLastIn10);
            }
            AnswerKind::Restart(RestartAction::TenA) => {
                let carried = head == LAST_HEAD;
                let sought_last = sought.head == LAST_HEAD;
                let high_bits = report.sense[6] != head as u8;
                let differs = head != sought.head;
                let outside = is_outside(recovery, next_track(sought));
                self.meet_if(carried, RecoveryEvent::HeadCarried);
                self.meet_if(high_bits, RecoveryEvent::HighBitsOfSense6NotAsked);
                self.meet_if(differs, RecoveryEvent::AnotherTrackThanSought);
                self.meet_if(
                    carried && !sought_last,
                    RecoveryEvent::CarriedThoughSoughtLower,
                );
                self.meet_if(
                    !carried && sought_last,
                    RecoveryEvent::NotCarriedThoughSoughtLast,
                );
                self.meet_if(outside, RecoveryEvent::InTheExtentByHeadReached);
            }
            AnswerKind::NotBuilt(RestartAction::TenA, why) => {
                let inside = !is_outside(recovery, next_track(sought));
                self.meet_if(
                    inside,
                    match why {
                        NotBuilt::OffThePack => RecoveryEvent::OffThePackByHeadReached,
                        NotBuilt::OutsideTheExtent => RecoveryEvent::OutsideTheExtentByHeadReached,
                    },
                );
            }
            _ => (),
        }
    }

    fn walked(&mut self, report: &Report, read: &CutRead) {
        let current_took_none = read.end.count_left == read.end.ccw.count;
        let ccws = read.stretches.len() + usize::from(current_took_none);
        let without_tics = report.first + (ccws - 1) * CCW_LENGTH;
        self.meet_if(ccws > 1, RecoveryEvent::DataChained);
        self.meet_if(
            read.end.ccw.at != without_tics,
            RecoveryEvent::DataChainedByTic,
        );
        self.meet_if(
            read.end.ccw.at < without_tics,
            RecoveryEvent::DataChainedRound,
        );
        self.meet_if(
            report.restart_displacement() == report.error_displacement(),
            RecoveryEvent::ErrorAtTheFront,
        );
        self.meet_if(read.end.count_left > 0, RecoveryEvent::CountLeft);
        self.meet_if(read.end.bytes_left_over > 0, RecoveryEvent::BytesLeftOver);
        self.meet_if(report.sector() == LAST_SECTOR, RecoveryEvent::LastSector);
    }

    fn ended(
        &mut self,
        recovery: &GeneratedRecovery,
        report: &Report,
        read: &CutRead,
        kind: AnswerKind,
    ) {
        let length = read.end.is_incorrect_length();
        let no_cc = !read.end.ccw.has(FLAG_CHAIN_COMMAND);
        let next = next_command(&recovery.chain, read.end.ccw.behind());
        let outside = is_outside(recovery, TrackAddress::decode(&report.sense[8..12]));
        match kind {
            AnswerKind::CorrectedOnly => {
                self.meet_if(length, RecoveryEvent::CorrectedOnlyWithLength);
                self.meet_if(no_cc, RecoveryEvent::CorrectedOnlyWithoutCc);
                self.meet_if(next.is_err(), RecoveryEvent::CorrectedOnlyWithoutNext);
                self.meet_if(outside, RecoveryEvent::CorrectedOnlyOutsideTheExtent);
            }
            AnswerKind::Finished => {
                self.meet_if(length && !no_cc, RecoveryEvent::FinishedByLength);
                self.meet_if(no_cc && !length, RecoveryEvent::FinishedWithoutCc);
                self.meet_if(outside, RecoveryEvent::FinishedOutsideTheExtent);
            }
            _ => {
                let next = next.expect("a restart has a next CCW");
                let behind = next.at != read.end.ccw.behind();
                self.meet_if(behind, RecoveryEvent::NextBehindTic);
                if let Some(read_count) = read_count_before(&next) {
                    self.see(RecoveryMark::ReadCount(read_count));
                }
            }
        }
    }
}

/// Of a recovery whose extent is well formed; a track off the pack is outside too.
fn is_outside(recovery: &GeneratedRecovery, track: TrackAddress) -> bool {
    let extent = Extent::decode(&recovery.extent, model_of(recovery.model));
    extent.is_ok_and(|extent| !extent.contains(track))
}

/// Whether 10A would be built, or answered by action 2, if tag 14's head were 0.
fn is_10a_by_another_head(recovery: &GeneratedRecovery) -> bool {
    let mut report = Report::decode(&recovery.report).expect("question 4 was answered yes");
    if let Some([.., h0, h1]) = &mut report.seek_argument {
        [*h0, *h1] = [0; 2];
    }
    let interrupted = Interrupted::of(&recovery.chain, &report, model_of(recovery.model));
    interrupted.is_ok_and(|found| !found.is_seek() && found.track_reached(&report).is_ok())
}

fn kind_of(answer: &Answer) -> AnswerKind {
    match *answer {
        Answer::Action1 => AnswerKind::Action1,
        Answer::Action2 => AnswerKind::Action2,
        Answer::NotBuilt(action, why) => AnswerKind::NotBuilt(action, why),
        Answer::Repeat => AnswerKind::Repeat,
        Answer::CorrectedOnly => AnswerKind::CorrectedOnly,
        Answer::Finished(_) => AnswerKind::Finished,
        Answer::Restart(action) => AnswerKind::Restart(action),
    }
}

pub fn kind_of_fate(fate: Fate) -> PatternKind {
    match fate {
        Fate::Stored(_) => PatternKind::Stored,
        Fate::PastTheDataArea => PatternKind::PastTheDataArea,
        Fate::PastTheCounts => PatternKind::PastTheCounts,
        Fate::Skipped => PatternKind::Skipped,
        Fate::Overwritten => PatternKind::Overwritten,
    }
}

fn is_apart(fates: &[Fate; 3]) -> bool {
    fates.windows(2).any(|pair| match pair {
        [Fate::Stored(one), Fate::Stored(other)] => one + 1 != *other,
        _ => false,
    })
}

#[cfg(test)]
mod tests {
    use super::*;
    use crate::in_place::changed;
    use crate::simulator::channel::ProgramCheck;
    use crate::simulator::encode::{self, ccw};
    use crate::simulator::extent::whole_pack;
    use crate::simulator::model::Model;
    use crate::simulator::report::ReportRule;
    use crate::simulator::sample;

    /// The recovery of the sample's cut.
    fn sample_recovery() -> (GeneratedRecovery, Report) {
        let mut sense = [0; 24];
        sense[..8].copy_from_slice(&[0x08, 0, 0x40, 0, 0, 0, 0, 0x53]);
        sense[8..13].copy_from_slice(&[0, 0, 0, 1, 1]);
        sense[17..22].copy_from_slice(&[4, 0, 3, 0, 1]);
        let report = Report {
            sense,
            csw: [0, 0, 0, 0x20, 0x0E, 0, 0, 0],
            first: 0x18,
            ..Report::default()
        };
        let recovery = GeneratedRecovery {
            chain: sample::CHAIN.to_vec(),
            report: encode::report(&report),
            extent: sample::EXTENT.to_vec(),
            storage: vec![0; 16],
            ..GeneratedRecovery::default()
        };
        (recovery, report)
    }

    fn marks(recovery: &GeneratedRecovery) -> BTreeSet<RecoveryMark> {
        let mut left = recovery.clone();
        let recovered = left.simulated();
        let changed = changed(&recovery.storage, &left.storage);
        let marks = marks_of(recovery, &recovered, changed);
        assert!(marks.iter().all(|mark| RecoveryMark::all().contains(mark)));
        marks
    }

    fn events(recovery: &GeneratedRecovery) -> Vec<RecoveryEvent> {
        let events = marks(recovery).into_iter().filter_map(|mark| match mark {
            RecoveryMark::Met(event) => Some(event),
            _ => None,
        });
        events.collect()
    }

    #[test]
    fn marks_of_the_sample() {
        let five_a = RestartAction::FiveA;
        let expected = [
            RecoveryMark::Row(9),
            RecoveryMark::Answered(Action::Five, AnswerKind::Restart(five_a)),
            RecoveryMark::Masked(five_a, MaskKind::NoMask),
            RecoveryMark::Cut(0x06),
            RecoveryMark::ReadCount(0x12),
            RecoveryMark::Pattern(0, PatternKind::Stored),
            RecoveryMark::Pattern(1, PatternKind::Stored),
            RecoveryMark::Pattern(2, PatternKind::Stored),
            RecoveryMark::Changed(AnswerKind::Restart(five_a), 1),
        ];
        assert_eq!(marks(&sample_recovery().0), BTreeSet::from(expected));
    }

    #[test]
    fn marks_of_a_refusal() {
        let (mut recovery, _) = sample_recovery();
        recovery.chain[0x1C] |= 1;
        let expected = [
            RecoveryMark::Row(9),
            RecoveryMark::Refused(Refusal::Walk(ProgramCheck::LowFlags)),
            RecoveryMark::RefusedFor(9, Some(Action::Five)),
        ];
        assert_eq!(marks(&recovery), BTreeSet::from(expected));
        recovery.report.push(0);
        let expected = [
            RecoveryMark::Refused(Refusal::Report(ReportRule::Torn)),
            RecoveryMark::RefusedFor(4, Some(Action::Five)),
        ];
        assert_eq!(marks(&recovery), BTreeSet::from(expected));
    }

    #[test]
    fn events_of_a_data_chain() {
        let (mut recovery, mut report) = sample_recovery();
        recovery.chain = [
            ccw(0x06, 8, 0x80, 2),
            ccw(0x08, 0x18, 0, 0),
            ccw(0x03, 0, 0, 1),
            ccw(0x06, 4, 0x20, 3),
        ]
        .concat();
        report.first = 0;
        report.csw[7] = 1;
        report.sense[19] = 4;
        recovery.report = encode::report(&report);
        let expected = [
            RecoveryEvent::DataChained,
            RecoveryEvent::DataChainedByTic,
            RecoveryEvent::PatternApart,
            RecoveryEvent::ErrorAtTheFront,
            RecoveryEvent::CountLeft,
            RecoveryEvent::FinishedWithoutCc,
        ];
        assert_eq!(events(&recovery), expected);
    }

    /// What is met where this track was sought and a CCW was interrupted: a seek at 0008, or a search at
    /// 0010.
    fn met_by_heads(
        front: [u8; 3],
        address: u8,
        sense_6: u8,
        sought: [u8; 4],
        extent: [u8; 8],
    ) -> Vec<RecoveryEvent> {
        let (mut recovery, mut report) = sample_recovery();
        let [c0, c1, h0, h1] = sought;
        report.sense[..3].copy_from_slice(&front);
        report.sense[6] = sense_6;
        report.csw[3] = address;
        report.seek_argument = Some([0, 0, c0, c1, h0, h1]);
        recovery.report = encode::report(&report);
        recovery.extent = extent.to_vec();
        events(&recovery)
    }

    #[test]
    fn events_of_heads() {
        use RecoveryEvent::*;
        const EIGHT: [u8; 3] = [0, 0x20, 0];
        const TEN: [u8; 3] = [0, 0x04, 0];
        let table: [([u8; 3], u8, u8, [u8; 4], &[RecoveryEvent]); 12] = [
            (TEN, 0x10, 5, [0, 8, 0, 5], &[]),
            (TEN, 0x10, 0xE5, [0, 8, 0, 5], &[HighBitsOfSense6NotAsked]),
            (TEN, 0x10, 6, [0, 8, 0, 5], &[AnotherTrackThanSought]),
            (TEN, 0x10, 18, [0, 8, 0, 18], &[HeadCarried]),
            (
                TEN,
                0x10,
                18,
                [0, 8, 0, 5],
                &[
                    HeadCarried,
                    AnotherTrackThanSought,
                    CarriedThoughSoughtLower,
                ],
            ),
            (
                TEN,
                0x10,
                5,
                [0, 8, 0, 18],
                &[AnotherTrackThanSought, NotCarriedThoughSoughtLast],
            ),
            (TEN, 0x10, 18, [1, 0x9A, 0, 17], &[OffThePackByHeadReached]),
            (TEN, 0x10, 18, [1, 0x9A, 0, 18], &[]),
            (TEN, 0x10, 18, [0, 8, 0, 19], &[HeadSoughtOffThePackIn10A]),
            (TEN, 0x10, 19, [0, 8, 0, 19], &[]),
            (TEN, 0x08, 19, [0, 8, 0, 5], &[HeadAboveLastIn10]),
            (EIGHT, 0x10, 31, [0, 8, 0, 5], &[HeadAboveLastIn8]),
        ];
        for (front, address, sense_6, sought, expected) in table {
            let met = met_by_heads(front, address, sense_6, sought, whole_pack(Model::One));
            assert_eq!(met, expected, "{front:?} {address} {sense_6} {sought:?}");
        }
        let to_008_06 = [0, 0, 0, 0, 0, 8, 0, 6];
        let outside = met_by_heads(TEN, 0x10, 6, [0, 8, 0, 5], to_008_06);
        assert_eq!(outside, [OutsideTheExtentByHeadReached]);
        let inside = met_by_heads(TEN, 0x10, 5, [0, 8, 0, 6], to_008_06);
        assert_eq!(inside, [AnotherTrackThanSought, InTheExtentByHeadReached]);
    }

    #[test]
    fn no_mark_twice() {
        let all = RecoveryMark::all();
        let distinct: BTreeSet<RecoveryMark> = all.iter().copied().collect();
        assert_eq!(all.len(), distinct.len());
    }
}
