//! Which marks a report that sends to action 9 or 11 has.

use super::{Cause, Chaining, NoNext, Overflow, OverflowEvent, OverflowMark, OwnCause};
use crate::models::model_of;
use crate::recovery_marks::MaskKind;
use crate::reports::GeneratedRecovery;
use crate::simulator::channel::{
    Ccw, Channel, Program, ProgramCheck, CCW_LENGTH, CHANNEL_PROGRAM_CHECK, FLAG_CHAIN_DATA,
    FLAG_PCI, FLAG_SKIP, FLAG_SUPPRESS_LENGTH, UNIT_CHECK,
};
use crate::simulator::cut::LONGEST_READ;
use crate::simulator::drive::{
    LAST_SECTOR, READ_COUNT, READ_COUNT_MULTITRACK, READ_DATA, READ_HOME_ADDRESS, SEEK, TAKING_DATA,
};
use crate::simulator::extent::Extent;
use crate::simulator::interrupted::{
    next_cylinder, next_track, sought, track_reached, InterruptedRule,
};
use crate::simulator::model::Model;
use crate::simulator::overflow::{OverflowRead, OverflowRule};
use crate::simulator::pack::{TrackAddress, LAST_HEAD};
use crate::simulator::recovery::{Answer, NotBuilt, Recovered, RestartAction, DATA_AREA_FORMAT};
use crate::simulator::report::Report;
use crate::simulator::table::{row_of, Action, TABLE};
use crate::simulator::Refusal;
use std::collections::BTreeSet;

/// The marks of a recovery, as it was lent, that the simulator has answered or refused; none where the
/// report does not send to action 9 or 11, or question 1, 4 or 5 refuses.
pub fn marks_of(
    recovery: &GeneratedRecovery,
    recovered: &Result<Recovered, Refusal>,
) -> Option<Overflow> {
    if let Err(refusal) = recovered {
        if [1, 4, 5].contains(&refusal.number()) {
            return None;
        }
    }
    let report = Report::decode(&recovery.report).expect("question 4 was answered yes");
    let action = match TABLE[row_of(&report.sense)?].action {
        Action::Nine => RestartAction::Nine,
        Action::Eleven => RestartAction::Eleven,
        _ => return None,
    };
    let case = Case {
        model: model_of(recovery.model),
        recovery,
        report,
        action,
    };
    let mut marks = Marks::default();
    marks.see(OverflowMark::Sent);
    match recovered.as_ref().map(|recovered| &recovered.answer) {
        Ok(Answer::NotBuilt(_, why)) => marks.see(OverflowMark::NotBuilt(*why)),
        Ok(_) => case.restarted(&mut marks),
        Err(_) => case.refused(&mut marks),
    }
    Some(Overflow {
        action,
        marks: marks.seen,
    })
}

#[derive(Default)]
struct Marks {
    seen: BTreeSet<OverflowMark>,
}

impl Marks {
    fn see(&mut self, mark: OverflowMark) {
        self.seen.insert(mark);
    }

    fn meet_if(&mut self, met: bool, event: OverflowEvent) {
        if met {
            self.see(OverflowMark::Met(event));
        }
    }
}

/// A report beside what it is judged by.
struct Case<'a> {
    model: Model,
    recovery: &'a GeneratedRecovery,
    report: Report,
    action: RestartAction,
}

impl Case<'_> {
    fn channel(&self) -> Channel<'_> {
        let program = Program::of_chain(&self.recovery.chain);
        Channel::new(program, self.recovery.storage.len())
    }

    fn read(&self, report: &Report) -> Result<OverflowRead, Refusal> {
        let storage = self.recovery.storage.len();
        OverflowRead::of(&self.recovery.chain, report, storage)
    }

    /// The track that the restart seeks.
    fn track(&self, sought: TrackAddress) -> Result<TrackAddress, Refusal> {
        match self.action {
            RestartAction::Nine => Ok(next_cylinder(sought)),
            _ => track_reached(sought, &self.report).map(next_track),
        }
    }

    fn restarted(&self, marks: &mut Marks) {
        let report = &self.report;
        let read = self.read(report).expect("a restart has its read");
        marks.see(OverflowMark::Restarted);
        marks.see(OverflowMark::First(self.recovery.chain[report.first]));
        marks.see(OverflowMark::Chained(Chaining::of(&read.ccw)));
        for flag in [FLAG_SUPPRESS_LENGTH, FLAG_SKIP, FLAG_PCI] {
            if read.ccw.has(flag) {
                marks.see(OverflowMark::Kept(flag));
            }
        }
        marks.see(OverflowMark::Masked(MaskKind::of(report.mask)));
        self.walked(marks, &read);
        self.interrupted(marks, &read);
        self.not_asked(marks, &read);
        self.by_heads(marks);
    }

    fn walked(&self, marks: &mut Marks, read: &OverflowRead) {
        let displacement = self.report.restart_displacement();
        let (taken, skips) = (read.taken(), read.ccw.has(FLAG_SKIP));
        let mut ccws = usize::from(taken == 0);
        let mut channel = self.channel();
        let walked = channel
            .fetch(self.report.first)
            .and_then(|first| channel.walk(first, displacement, |_| ccws += 1));
        assert!(walked.is_ok(), "a restart's walk has no program check");
        let without_tics = self.report.first + (ccws - 1) * CCW_LENGTH;
        let counts = self.recovery.chain.chunks(CCW_LENGTH);
        let counted: usize = counts
            .map(|ccw| usize::from(u16::from_be_bytes([ccw[6], ccw[7]])))
            .sum();
        let round = displacement > counted;
        marks.meet_if(displacement == 0, OverflowEvent::NothingRead);
        marks.meet_if(
            displacement > 0 && taken == 0,
            OverflowEvent::NothingTakenByALaterCcw,
        );
        marks.meet_if(taken > 0 && !skips, OverflowEvent::PartStored);
        marks.meet_if(taken > 0 && skips, OverflowEvent::PartSkipped);
        marks.meet_if(ccws > 1, OverflowEvent::DataChained);
        marks.meet_if(read.ccw.at != without_tics, OverflowEvent::DataChainedByTic);
        marks.meet_if(round, OverflowEvent::DataChainedRound);
        marks.meet_if(
            round && displacement >= 1_000_000,
            OverflowEvent::MillionsOfBytesRound,
        );
        marks.meet_if(
            displacement == 0xFF_FFFF,
            OverflowEvent::LongestDisplacement,
        );
    }

    fn interrupted(&self, marks: &mut Marks, read: &OverflowRead) {
        let command = read.ccw.command;
        let next = read.next(&self.recovery.chain);
        let next = next.expect("a restart has a next CCW where it needs one");
        let behind_tic = next.is_some_and(|next| next.at != read.ccw.behind());
        let checked = |next: Ccw| {
            let checked = next.checked();
            checked.and_then(|next| self.channel().check_storage(&next))
        };
        let bad = next.is_some_and(|next| checked(next).is_err());
        let nothing_behind = read.ccw.behind() == self.recovery.chain.len();
        marks.meet_if(command == SEEK, OverflowEvent::SeekInterrupted);
        marks.meet_if(
            !TAKING_DATA.contains(&command) && command != SEEK,
            OverflowEvent::OtherCodeInterrupted,
        );
        marks.meet_if(behind_tic, OverflowEvent::NextBehindTic);
        marks.meet_if(
            bad && read.ccw.has(FLAG_CHAIN_DATA),
            OverflowEvent::NextWithProgramCheck,
        );
        marks.meet_if(
            nothing_behind && !read.chains(),
            OverflowEvent::NothingBehindAndNotChained,
        );
    }

    /// Of sense and CSW.
    fn not_asked(&self, marks: &mut Marks, read: &OverflowRead) {
        let report = &self.report;
        let (restart, error) = (report.restart_displacement(), report.error_displacement());
        // There is a count left.
        let suppressed = read.ccw.has(FLAG_SUPPRESS_LENGTH) && !read.ccw.has(FLAG_CHAIN_DATA);
        let shown = report.shows_incorrect_length();
        for (met, event) in [
            (report.is_pci_fetch_mode(), OverflowEvent::PciFetchMode),
            (restart > LONGEST_READ, OverflowEvent::LongerThanARecord),
            (error == 0, OverflowEvent::NoErrorDisplacement),
            (restart < error, OverflowEvent::RestartBelowError),
            (
                report.sector() > LAST_SECTOR,
                OverflowEvent::SectorPastTheLast,
            ),
            (
                report.sense[7] != DATA_AREA_FORMAT,
                OverflowEvent::AnotherFormat,
            ),
            (
                shown && suppressed,
                OverflowEvent::LengthShownThoughSuppressed,
            ),
            (!shown && !suppressed, OverflowEvent::LengthNotShown),
            (
                report.csw[4] & UNIT_CHECK == 0,
                OverflowEvent::NoUnitCheckShown,
            ),
            (
                report.csw[5] & CHANNEL_PROGRAM_CHECK != 0,
                OverflowEvent::ProgramCheckShown,
            ),
        ] {
            marks.meet_if(met, event);
        }
    }

    /// By the head sought, of tag 14, and by the head reached, of sense 6.
    fn by_heads(&self, marks: &mut Marks) {
        let sought = sought(&self.report, self.model).expect("a restart has a track sought");
        let head = self.report.head_reached();
        if self.action == RestartAction::Nine {
            marks.meet_if(head > LAST_HEAD, OverflowEvent::HeadReachedAboveLast);
            return;
        }
        let high_bits = self.report.sense[6] != head as u8;
        marks.meet_if(head == LAST_HEAD, OverflowEvent::HeadCarried);
        marks.meet_if(head != sought.head, OverflowEvent::AnotherTrackThanSought);
        marks.meet_if(high_bits, OverflowEvent::HighBitsOfSense6);
    }

    fn refused(&self, marks: &mut Marks) {
        let sought = sought(&self.report, self.model);
        let track = sought.map(|sought| self.track(sought));
        let mut causes = Vec::new();
        match track {
            Err(rule) => causes.push(Cause::Own(self.of_seek(rule))),
            Ok(Err(_)) => causes.push(Cause::Own(OwnCause::HeadReachedAboveLast)),
            Ok(Ok(track)) => {
                if let Some(why) = self.not_built(track) {
                    marks.see(OverflowMark::RefusedBefore(why));
                }
            }
        }
        let mut report = self.report.clone();
        if report.restart_command() != READ_DATA {
            causes.push(Cause::Own(OwnCause::OtherRestartCommand));
            report.sense[3] = READ_DATA;
        }
        match self.read(&report) {
            Err(refusal) => causes.push(self.of_read(refusal)),
            Ok(read) => {
                if let Err(refusal) = read.next(&self.recovery.chain) {
                    causes.push(self.of_next(&read, refusal));
                }
            }
        }
        if let [cause] = causes[..] {
            marks.see(OverflowMark::Refused(cause));
        }
    }

    fn not_built(&self, track: TrackAddress) -> Option<NotBuilt> {
        let extent = Extent::decode(&self.recovery.extent, self.model);
        let extent = extent.expect("question 5 was answered yes");
        if !track.on_pack(self.model) {
            Some(NotBuilt::OffThePack)
        } else {
            (!extent.contains(track)).then_some(NotBuilt::OutsideTheExtent)
        }
    }

    fn of_seek(&self, rule: InterruptedRule) -> OwnCause {
        let argument = self.report.seek_argument.unwrap_or_default();
        match rule {
            InterruptedRule::NoSeekArgument => OwnCause::NoSeekArgument,
            InterruptedRule::SeekNotZero => OwnCause::SeekNotZero,
            _ if TrackAddress::decode(&argument[2..]).head > LAST_HEAD => OwnCause::HeadOffThePack,
            _ => OwnCause::CylinderOffThePack,
        }
    }

    fn of_read(&self, refusal: Refusal) -> Cause {
        let own = match refusal {
            Refusal::Walk(check) => return self.of_walk(check),
            Refusal::Overflow(OverflowRule::FirstNotInTheChain) => {
                match self.report.first % CCW_LENGTH {
                    0 => OwnCause::FirstPastTheChain,
                    _ => OwnCause::FirstNotAMultipleOf8,
                }
            }
            Refusal::Overflow(OverflowRule::FirstOtherCommand) => {
                match self.recovery.chain[self.report.first] {
                    READ_COUNT => OwnCause::FirstIsReadCount,
                    READ_COUNT_MULTITRACK => OwnCause::FirstIsMultitrackReadCount,
                    READ_HOME_ADDRESS => OwnCause::FirstIsReadHomeAddress,
                    code if code & 0x0F == 0x08 => OwnCause::FirstIsTic,
                    _ => OwnCause::FirstIsAnother,
                }
            }
            Refusal::Overflow(OverflowRule::OtherCcw) => OwnCause::OtherCcw,
            Refusal::Overflow(OverflowRule::OtherCount) => OwnCause::OtherCount,
            Refusal::Overflow(OverflowRule::NoCountLeft) if self.has_bytes_left_over() => {
                OwnCause::NoCountLeftBytesLeftOver
            }
            Refusal::Overflow(OverflowRule::NoCountLeft) => OwnCause::NoCountLeft,
            other => unreachable!("{other:?} is no disagreement of a read"),
        };
        Cause::Own(own)
    }

    fn of_walk(&self, check: ProgramCheck) -> Cause {
        let mut channel = self.channel();
        let first = channel.fetch(self.report.first);
        match first.and_then(|first| channel.check_storage(&first)) {
            Err(_) => Cause::AtFirst(check),
            Ok(()) => Cause::BehindFirst(check),
        }
    }

    fn has_bytes_left_over(&self) -> bool {
        let mut channel = self.channel();
        let walked = channel.fetch(self.report.first).and_then(|first| {
            let displacement = self.report.restart_displacement();
            channel.walk(first, displacement, |_| ())
        });
        walked.is_ok_and(|end| end.bytes_left_over > 0)
    }

    fn of_next(&self, read: &OverflowRead, refusal: Refusal) -> Cause {
        let why = match refusal {
            _ if read.ccw.behind() == self.recovery.chain.len() => NoNext::ChainEnds,
            Refusal::Next(ProgramCheck::NotAMultipleOf8) => NoNext::TicNotAMultipleOf8,
            Refusal::Next(ProgramCheck::TicToTic) => NoNext::TicToTic,
            _ => NoNext::TicPastTheChain,
        };
        Cause::NoNext(why, Chaining::of(&read.ccw))
    }
}

#[cfg(test)]
mod tests {
    use super::*;
    use crate::simulator::encode::{self, ccw};
    use crate::simulator::extent::whole_pack;
    use crate::simulator::report::HEAD_REACHED;

    const NINE: u8 = 0x21;
    const ELEVEN: u8 = 0x05;

    /// Track 008/02 was sought, head 17 reached; 4 bytes at 0 were read, and 2 of 6 at 4.
    fn overflow(sense_1: u8) -> (GeneratedRecovery, Report) {
        let ccws = [
            ccw(0x03, 0, 0x40, 1),
            ccw(0x8E, 0, 0x80, 4),
            ccw(0x07, 4, 0xC8, 6),
            ccw(0x08, 0x20, 0, 0),
            ccw(0x06, 10, 0, 7),
        ];
        let mut sense = [0; 24];
        sense[1] = sense_1;
        sense[3] = 0x06;
        sense[6] = 17;
        sense[17] = 6;
        let report = Report {
            sense,
            csw: [0, 0, 0, 0x18, 0x0E, 0x40, 0, 4],
            first: 8,
            seek_argument: Some([0, 0, 0, 8, 0, 2]),
            ..Report::default()
        };
        let recovery = GeneratedRecovery {
            chain: ccws.concat(),
            extent: whole_pack(Model::One).to_vec(),
            storage: vec![0; 16],
            ..GeneratedRecovery::default()
        };
        (recovery, report)
    }

    fn marked((mut recovery, report): (GeneratedRecovery, Report)) -> Option<Overflow> {
        recovery.report = encode::report(&report);
        let recovered = recovery.clone().simulated();
        marks_of(&recovery, &recovered)
    }

    /// Those that not every report has.
    fn marks(of: (GeneratedRecovery, Report)) -> BTreeSet<OverflowMark> {
        let overflow = marked(of).expect("the report sends to action 9 or 11");
        let all = OverflowMark::all(overflow.action);
        assert!(overflow.marks.iter().all(|mark| all.contains(mark)));
        let mut marks = overflow.marks;
        assert!(marks.remove(&OverflowMark::Sent));
        marks
    }

    #[test]
    fn marks_of_a_restart() {
        use OverflowEvent::*;
        let expected = [
            OverflowMark::Restarted,
            OverflowMark::First(0x8E),
            OverflowMark::Chained(Chaining::DataAndCommands),
            OverflowMark::Kept(FLAG_PCI),
            OverflowMark::Masked(MaskKind::NoMask),
        ];
        let events = [
            PartStored,
            DataChained,
            SeekInterrupted,
            NextBehindTic,
            NextWithProgramCheck,
            NoErrorDisplacement,
            AnotherFormat,
        ];
        let expected = expected.into_iter().chain(events.map(OverflowMark::Met));
        let mut expected: BTreeSet<OverflowMark> = expected.collect();
        assert_eq!(marks(overflow(NINE)), expected);
        expected.insert(OverflowMark::Met(AnotherTrackThanSought));
        assert_eq!(marks(overflow(ELEVEN)), expected);
    }

    #[test]
    fn each_event() {
        use OverflowEvent::*;
        type Change = fn(&mut GeneratedRecovery, &mut Report);
        let changes: [(u8, Change, OverflowEvent); 16] = [
            (NINE, |_, report| nothing_read(report), NothingRead),
            (
                NINE,
                |_, report| set(report, 4, 0x18, 6),
                NothingTakenByALaterCcw,
            ),
            (NINE, |recovery, _| recovery.chain[0x14] = 0x10, PartSkipped),
            (
                NINE,
                |recovery, report| {
                    recovery.chain[0x10..0x18].copy_from_slice(&ccw(0x08, 0x20, 0, 0));
                    set(report, 6, 0x28, 5);
                    recovery.chain[0x23] = 0;
                },
                DataChainedByTic,
            ),
            (
                NINE,
                |recovery, report| {
                    recovery.chain[0x10..0x18].copy_from_slice(&ccw(0x08, 0x08, 0, 0));
                    set(report, 70, 0x10, 2);
                },
                DataChainedRound,
            ),
            (
                ELEVEN,
                |recovery, _| recovery.chain[0x10] = 0x00,
                OtherCodeInterrupted,
            ),
            (
                ELEVEN,
                |recovery, _| {
                    recovery.chain[0x14] = 0x20;
                    recovery.chain.truncate(0x18);
                },
                NothingBehindAndNotChained,
            ),
            (NINE, |_, report| report.mask = Some(1), PciFetchMode),
            (NINE, |_, report| report.sense[18] = 1, RestartBelowError),
            (NINE, |_, report| report.sense[13] = 128, SectorPastTheLast),
            (
                NINE,
                |recovery, _| recovery.chain[0x14] = 0x20,
                LengthShownThoughSuppressed,
            ),
            (NINE, |_, report| report.csw[5] = 0, LengthNotShown),
            (NINE, |_, report| report.csw[4] = 0x0C, NoUnitCheckShown),
            (NINE, |_, report| report.csw[5] = 0x20, ProgramCheckShown),
            (ELEVEN, |_, report| report.sense[6] = 18, HeadCarried),
            (ELEVEN, |_, report| report.sense[6] = 0x91, HighBitsOfSense6),
        ];
        for (sense_1, change, event) in changes {
            let (mut recovery, mut report) = overflow(sense_1);
            let mark = OverflowMark::Met(event);
            assert!(!marks((recovery.clone(), report.clone())).contains(&mark));
            change(&mut recovery, &mut report);
            assert!(marks((recovery, report)).contains(&mark), "{event:?}");
        }
        let (recovery, mut report) = overflow(NINE);
        report.sense[6] = HEAD_REACHED;
        let above = OverflowMark::Met(HeadReachedAboveLast);
        assert!(marks((recovery, report)).contains(&above));
    }

    fn nothing_read(report: &mut Report) {
        set(report, 0, 0x10, 4);
    }

    /// Bytes read, address behind the interrupted CCW, count left.
    fn set(report: &mut Report, restart: u8, address: u8, left: u8) {
        report.sense[17] = restart;
        report.csw[3] = address;
        report.csw[7] = left;
    }

    #[test]
    fn each_cause() {
        use OwnCause::*;
        type Change = fn(&mut GeneratedRecovery, &mut Report);
        let own: [(Change, OwnCause); 15] = [
            (|_, report| report.seek_argument = None, NoSeekArgument),
            (
                |_, report| report.seek_argument = Some([1, 0, 0, 8, 0, 2]),
                SeekNotZero,
            ),
            (
                |_, report| report.seek_argument = Some([0, 0, 1, 0x9B, 0, 2]),
                CylinderOffThePack,
            ),
            (
                |_, report| report.seek_argument = Some([0, 0, 0, 8, 1, 2]),
                HeadOffThePack,
            ),
            (|_, report| report.sense[3] = 0x86, OtherRestartCommand),
            (|_, report| report.first = 0x28, FirstPastTheChain),
            (|_, report| report.first = 0x0C, FirstNotAMultipleOf8),
            (|recovery, _| recovery.chain[8] = 0x18, FirstIsTic),
            (|recovery, _| recovery.chain[8] = 0x12, FirstIsReadCount),
            (
                |recovery, _| recovery.chain[8] = 0x92,
                FirstIsMultitrackReadCount,
            ),
            (
                |recovery, _| recovery.chain[8] = 0x1A,
                FirstIsReadHomeAddress,
            ),
            (|recovery, _| recovery.chain[8] = 0x03, FirstIsAnother),
            (|_, report| report.csw[3] = 0x10, OtherCcw),
            (|_, report| report.csw[7] = 5, OtherCount),
            (
                |recovery, report| {
                    recovery.chain[0x14] = 0;
                    set(report, 10, 0x18, 0);
                },
                NoCountLeft,
            ),
        ];
        let others: [(Change, Cause); 6] = [
            (
                |recovery, report| {
                    recovery.chain[0x14] = 0;
                    set(report, 11, 0x18, 0);
                },
                Cause::Own(NoCountLeftBytesLeftOver),
            ),
            (
                |recovery, _| recovery.chain[0x0C] |= 1,
                Cause::AtFirst(ProgramCheck::LowFlags),
            ),
            (
                |recovery, _| recovery.storage.truncate(9),
                Cause::BehindFirst(ProgramCheck::DataRange),
            ),
            (
                |recovery, _| recovery.chain.truncate(0x18),
                Cause::NoNext(NoNext::ChainEnds, Chaining::DataAndCommands),
            ),
            (
                |recovery, _| recovery.chain[0x1B] = 0x18,
                Cause::NoNext(NoNext::TicToTic, Chaining::DataAndCommands),
            ),
            (
                |recovery, _| {
                    recovery.chain[0x14] = 0x40;
                    recovery.chain[0x1B] = 0x28;
                },
                Cause::NoNext(NoNext::TicPastTheChain, Chaining::Commands),
            ),
        ];
        let own = own.map(|(change, cause)| (change, Cause::Own(cause)));
        for (change, cause) in own.into_iter().chain(others) {
            for sense_1 in [NINE, ELEVEN] {
                let (mut recovery, mut report) = overflow(sense_1);
                change(&mut recovery, &mut report);
                let expected = BTreeSet::from([OverflowMark::Refused(cause)]);
                assert_eq!(marks((recovery.clone(), report.clone())), expected);
                // The seek would be outside the extent.
                recovery.extent = vec![0; 8];
                let outside = OverflowMark::RefusedBefore(NotBuilt::OutsideTheExtent);
                let outside = match cause {
                    Cause::Own(
                        NoSeekArgument | SeekNotZero | CylinderOffThePack | HeadOffThePack,
                    ) => BTreeSet::from([OverflowMark::Refused(cause)]),
                    _ => BTreeSet::from([OverflowMark::Refused(cause), outside]),
                };
                assert_eq!(marks((recovery, report)), outside);
            }
        }
    }

    #[test]
    fn two_causes() {
        let (recovery, mut report) = overflow(ELEVEN);
        report.sense[6] = 19;
        let above = OverflowMark::Refused(Cause::Own(OwnCause::HeadReachedAboveLast));
        let alone = marks((recovery.clone(), report.clone()));
        assert_eq!(alone, BTreeSet::from([above]));
        for change in [
            |report: &mut Report| report.sense[3] = 0,
            |report: &mut Report| report.first = 0,
        ] {
            let mut report = report.clone();
            change(&mut report);
            assert_eq!(marks((recovery.clone(), report)), BTreeSet::new());
        }
    }

    #[test]
    fn action_2() {
        let (recovery, mut report) = overflow(NINE);
        report.seek_argument = Some([0, 0, 1, 0x9A, 0, 2]);
        let off = OverflowMark::NotBuilt(NotBuilt::OffThePack);
        assert_eq!(marks((recovery, report)), BTreeSet::from([off]));
    }

    #[test]
    fn other_reports() {
        for sense_1 in [0x00, 0x01, 0x04, 0x20, 0x61] {
            assert_eq!(marked(overflow(sense_1)), None);
        }
        let (mut recovery, report) = overflow(NINE);
        recovery.extent[5] = 0x9B;
        assert_eq!(marked((recovery, report)), None);
    }

    #[test]
    fn no_mark_twice() {
        for action in [RestartAction::Nine, RestartAction::Eleven] {
            let all = OverflowMark::all(action);
            let distinct: BTreeSet<OverflowMark> = all.iter().copied().collect();
            assert_eq!(all.len(), distinct.len());
        }
    }
}
