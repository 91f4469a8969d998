//! What is looked for in runs. Each mark must be seen in runs from the chain and in restarted ones.

use crate::border_marks::Borders;
use crate::chains::COMMANDS;
use crate::simulator::channel::{
    Ccw, ReadEnd, Stretch, CCW_LENGTH, FLAG_CHAIN_DATA, RESTART_PROGRAM,
};
use crate::simulator::drive::{
    is_multitrack, single_track, Arriving, Done, Drive, UnitCheck, NO_SECTOR, READ_COUNT,
    READ_COUNT_KEY_DATA, READ_COUNT_MULTITRACK, READ_DATA, READ_DATA_MULTITRACK, READ_KEY_DATA,
    READ_KEY_DATA_MULTITRACK, SEARCH_ID_EQUAL, SEARCH_ID_EQUAL_MULTITRACK, SET_FILE_MASK,
    SET_SECTOR, TAKING_DATA,
};
use crate::simulator::run::{End, Outcome, Watch};
use crate::step_marks::{StepMark, StepMarks};
use std::collections::BTreeSet;
use std::fmt;

#[derive(Clone, Copy, Debug, PartialEq, Eq, PartialOrd, Ord)]
pub enum Mark {
    /// A command that the drive carried out.
    Done(u8),
    Ended(End),
    /// Unit status and channel status of a run that ended.
    Status(u8, u8),
    /// Bytes 0, 1, 2 and 23 of a run that ended in a unit check.
    Sense(u8, u8, u8, u8),
    /// A record without data taken by this command.
    NoData(u8),
    /// A faulted data area taken by this command.
    Faulted(u8),
    /// The record whose count area the first of these commands passed, taken by the second.
    Passed(u8, u8),
    Met(Event),
    OverHeads(StepMark),
    /// Length of an area to answer in that is not as it must be.
    AnswerArea(usize),
}

rules! {
    Event {
        // A read's bytes went to several CCWs.
        DataChained,
        DataChainedByTic,
        // The bytes ended with a count under CD.
        OneCcwMoreThanBytes,
        Skipped,
        // Two CCWs of a read name the same storage.
        Overlapping,
        CountLeft,
        BytesLeftOver,
        // By SLI, which would have ended the chain.
        IncorrectLengthSuppressed,
        IncorrectLengthUnderChainData,
        MaskSet,
        MaskOfZerosSet,
        SectorSet,
        NoSectorSet,
        SearchLoop,
        R0Found,
        R0Read,
        ReadBehindEqualSearch,
        ReadBehindUnequalSearch,
        ReadBehindReadCount,
        KeyRead,
        // The counts ended before it, or its bytes were skipped.
        FaultedAreaNotStored,
        CcwOfTheChain,
        // A command of a multitrack code, done or not.
        Multitrack,
    }
}

/// Lengths of areas to answer in, all wrong.
pub const ANSWER_AREAS: [usize; 4] = [0, 35, 37, 72];

/// What passes a count area, and what takes the data area behind it.
const PASSING: [u8; 4] = [
    SEARCH_ID_EQUAL,
    SEARCH_ID_EQUAL_MULTITRACK,
    READ_COUNT,
    READ_COUNT_MULTITRACK,
];
const TAKING_PASSED: [u8; 4] = [
    READ_DATA,
    READ_KEY_DATA,
    READ_DATA_MULTITRACK,
    READ_KEY_DATA_MULTITRACK,
];

impl Mark {
    pub fn all() -> Vec<Mark> {
        let statuses = [
            Mark::Status(0x0C, 0x00),
            Mark::Status(0x0C, 0x40),
            Mark::Status(0x0D, 0x00),
            Mark::Status(0x0D, 0x40),
            Mark::Status(0x0E, 0x00),
            Mark::Status(0x0E, 0x40),
            Mark::Status(0x00, 0x20),
        ];
        let senses = [
            Mark::Sense(0x80, 0, 0, 0),
            Mark::Sense(0, 0x20, 0, 0),
            Mark::Sense(0, 0x08, 0, 0),
            Mark::Sense(0, 0x04, 0, 0),
            Mark::Sense(0x08, 0, 0x40, 0),
            Mark::Sense(0x08, 0, 0x40, 1),
        ];
        let passed = PASSING.into_iter().flat_map(|passing| {
            let taking = TAKING_PASSED.into_iter();
            taking.map(move |taking| Mark::Passed(passing, taking))
        });
        (COMMANDS.into_iter().map(Mark::Done))
            .chain(End::all().into_iter().map(Mark::Ended))
            .chain(statuses)
            .chain(senses)
            .chain(TAKING_DATA.map(Mark::NoData))
            .chain(TAKING_DATA.map(Mark::Faulted))
            .chain(passed)
            .chain(Event::ALL.iter().copied().map(Mark::Met))
            .chain(StepMark::all().into_iter().map(Mark::OverHeads))
            .chain(ANSWER_AREAS.map(Mark::AnswerArea))
            .collect()
    }
}

impl fmt::Display for Mark {
    fn fmt(&self, out: &mut fmt::Formatter) -> fmt::Result {
        match self {
            Mark::Done(command) => write!(out, "command {command:02X} done"),
            Mark::Ended(end) => write!(out, "{end:?}"),
            Mark::Status(unit, channel) => write!(out, "status {unit:02X} {channel:02X}"),
            Mark::Sense(b0, b1, b2, b23) => {
                write!(out, "sense {b0:02X} {b1:02X} {b2:02X} .. {b23:02X}")
            }
            Mark::NoData(command) => write!(out, "no data for {command:02X}"),
            Mark::Faulted(command) => write!(out, "faulted data for {command:02X}"),
            Mark::Passed(passing, taking) => write!(out, "{taking:02X} behind {passing:02X}"),
            Mark::Met(event) => write!(out, "{event:?}"),
            Mark::OverHeads(mark) => mark.fmt(out),
            Mark::AnswerArea(length) => write!(out, "answer area of {length} bytes"),
        }
    }
}

/// The command before the present one, where a read or a search may depend on it.
#[derive(Clone, Copy, Default, PartialEq, Eq)]
enum Before {
    #[default]
    Other,
    Search {
        at: usize,
        equal: bool,
    },
    ReadCount,
}

/// The marks of one run.
#[derive(Default)]
pub struct Marks {
    seen: BTreeSet<Mark>,
    before: Before,
    /// Code of the command before the present one.
    command_before: u8,
    /// Code of the present command.
    command: u8,
    over_heads: StepMarks,
    pub borders: Borders,
    /// Address of the present read's first CCW, and what its CCWs took.
    first: usize,
    stretches: Vec<Stretch>,
}

impl Marks {
    pub fn see(&mut self, mark: Mark) {
        self.seen.insert(mark);
    }

    fn meet(&mut self, event: Event) {
        self.see(Mark::Met(event));
    }

    fn meet_if(&mut self, met: bool, event: Event) {
        if met {
            self.meet(event);
        }
    }

    pub fn see_end(&mut self, outcome: &Outcome) {
        self.see(Mark::Ended(outcome.end));
        if outcome.end == End::Limit {
            return;
        }
        let [.., unit, channel, _, _] = outcome.csw;
        self.see(Mark::Status(unit, channel));
        let sense = outcome.sense;
        if sense != [0; 24] {
            self.see(Mark::Sense(sense[0], sense[1], sense[2], sense[23]));
        }
        let not_stored = outcome.taken.last().is_some_and(|area| area.stored == 0);
        self.meet_if(
            outcome.end == End::Cut && not_stored,
            Event::FaultedAreaNotStored,
        );
        self.over_heads.see_end(outcome.end);
    }

    fn control(&mut self, command: u8, argument: &[u8]) {
        match (command, argument) {
            (SET_FILE_MASK, [0]) => self.meet(Event::MaskOfZerosSet),
            (SET_FILE_MASK, _) => self.meet(Event::MaskSet),
            (SET_SECTOR, [NO_SECTOR]) => self.meet(Event::NoSectorSet),
            (SET_SECTOR, _) => self.meet(Event::SectorSet),
            _ => (),
        }
    }

    fn read(&mut self, ccw: &Ccw, arriving: &Arriving) {
        self.first = ccw.at;
        self.stretches.clear();
        let Some(area) = arriving.data_area else {
            return;
        };
        let command = ccw.command;
        if arriving.is_unit_exception() {
            self.see(Mark::NoData(command));
        }
        if area.fault.is_some() {
            self.see(Mark::Faulted(command));
        }
        self.meet_if(area.number == 0, Event::R0Read);
        if single_track(command) == READ_COUNT_KEY_DATA {
            self.meet_if(arriving.data_start() > 8, Event::KeyRead);
            return;
        }
        self.meet_if(arriving.data_start() > 0, Event::KeyRead);
        match self.before {
            Before::Search { equal: true, .. } => self.meet(Event::ReadBehindEqualSearch),
            Before::Search { equal: false, .. } => self.meet(Event::ReadBehindUnequalSearch),
            Before::ReadCount => self.meet(Event::ReadBehindReadCount),
            Before::Other => return,
        }
        self.see(Mark::Passed(self.command_before, command));
    }
}

impl Watch for Marks {
    fn begin(&mut self, ccw: &Ccw, drive: &Drive) {
        self.over_heads.begin(ccw, drive);
    }

    fn command(
        &mut self,
        ccw: &Ccw,
        argument: &[u8],
        done: &Result<Done, UnitCheck>,
        drive: &Drive,
    ) {
        self.over_heads.command(ccw, argument, done, drive);
        self.borders.command(ccw, argument, done, drive);
        self.meet_if(ccw.at < RESTART_PROGRAM, Event::CcwOfTheChain);
        self.meet_if(is_multitrack(ccw.command), Event::Multitrack);
        self.command_before = self.command;
        self.command = ccw.command;
        // What is refused ends the run, and is told by its end.
        let Ok(done) = done else {
            return;
        };
        self.see(Mark::Done(ccw.command));
        match done {
            Done::Control => self.control(ccw.command, argument),
            Done::Search { equal } => {
                let again = Before::Search {
                    at: ccw.at,
                    equal: false,
                };
                self.meet_if(self.before == again, Event::SearchLoop);
                self.meet_if(*equal && argument[4] == 0, Event::R0Found);
            }
            Done::Read(arriving) => self.read(ccw, arriving),
        }
        self.before = match done {
            Done::Search { equal } => Before::Search {
                at: ccw.at,
                equal: *equal,
            },
            Done::Read(_) if single_track(ccw.command) == READ_COUNT => Before::ReadCount,
            _ => Before::Other,
        };
    }

    fn stretch(&mut self, stretch: &Stretch) {
        self.meet_if(!self.stretches.is_empty(), Event::DataChained);
        self.meet_if(stretch.storage.is_none(), Event::Skipped);
        if !self.seen.contains(&Mark::Met(Event::Overlapping)) {
            let overlaps = |before: &Stretch| overlap(before, stretch);
            self.meet_if(self.stretches.iter().any(overlaps), Event::Overlapping);
        }
        self.stretches.push(*stretch);
    }

    fn read_end(&mut self, end: &ReadEnd) {
        let current_took_none = end.count_left == end.ccw.count;
        let ccws_behind_first = self.stretches.len() + usize::from(current_took_none) - 1;
        let without_tics = self.first + ccws_behind_first * CCW_LENGTH;
        self.meet_if(end.ccw.at != without_tics, Event::DataChainedByTic);
        self.meet_if(
            current_took_none && ccws_behind_first > 0,
            Event::OneCcwMoreThanBytes,
        );
        let wrong = end.count_left > 0 || end.bytes_left_over > 0;
        let shown = end.is_incorrect_length();
        self.meet_if(end.count_left > 0, Event::CountLeft);
        self.meet_if(end.bytes_left_over > 0, Event::BytesLeftOver);
        self.meet_if(wrong && !shown, Event::IncorrectLengthSuppressed);
        self.meet_if(
            shown && end.ccw.has(FLAG_CHAIN_DATA),
            Event::IncorrectLengthUnderChainData,
        );
    }
}

impl IntoIterator for Marks {
    type Item = Mark;
    type IntoIter = std::collections::btree_set::IntoIter<Mark>;

    fn into_iter(mut self) -> Self::IntoIter {
        let over_heads = self.over_heads.into_iter().map(Mark::OverHeads);
        self.seen.extend(over_heads);
        self.seen.into_iter()
    }
}

/// Whether two stretches have storage in common.
fn overlap(one: &Stretch, other: &Stretch) -> bool {
    match (one.storage, other.storage) {
        (Some(a), Some(b)) => a < b + other.length && b < a + one.length,
        _ => false,
    }
}

#[cfg(test)]
mod tests {
    use super::*;
    use crate::chains::GeneratedRun;
    use crate::simulator::encode::ccw;
    use crate::simulator::sample;
    use crate::step_marks::StepEvent;

    /// The marks of the sample with these CCWs behind its seek, or with its own.
    fn marks(ccws: &[[u8; CCW_LENGTH]]) -> BTreeSet<Mark> {
        let mut chain = sample::CHAIN.to_vec();
        if !ccws.is_empty() {
            chain.truncate(CCW_LENGTH);
            chain.extend(ccws.as_flattened());
        }
        marks_of(GeneratedRun {
            chain,
            ..sample::run()
        })
    }

    fn marks_of(mut run: GeneratedRun) -> BTreeSet<Mark> {
        let mut marks = Marks::default();
        let outcome = run.watched(&mut marks).expect("the sample is not refused");
        marks.see_end(&outcome);
        marks.into_iter().collect()
    }

    fn met(marks: &BTreeSet<Mark>) -> Vec<Event> {
        let events = marks.iter().filter_map(|mark| match mark {
            Mark::Met(event) if *event != Event::CcwOfTheChain => Some(*event),
            _ => None,
        });
        events.collect()
    }

    #[test]
    fn marks_of_the_sample() {
        let expected = [
            Mark::Done(0x06),
            Mark::Done(0x07),
            Mark::Done(0x31),
            Mark::Ended(End::Cut),
            Mark::Status(0x0E, 0x00),
            Mark::Sense(0x08, 0x00, 0x40, 0x00),
            Mark::Faulted(0x06),
            Mark::Passed(0x31, 0x06),
            Mark::Met(Event::SearchLoop),
            Mark::Met(Event::ReadBehindEqualSearch),
            Mark::Met(Event::CcwOfTheChain),
        ];
        assert_eq!(marks(&[]), BTreeSet::from(expected));
        assert!(expected.iter().all(|mark| Mark::all().contains(mark)));
    }

    #[test]
    fn marks_over_two_heads() {
        let mut run = sample::over_two_heads().into_run();
        run.faults.clear();
        let expected = [
            Mark::Done(0x06),
            Mark::Done(0x07),
            Mark::Done(0x31),
            Mark::Done(0x86),
            Mark::Ended(End::UnitCheck(UnitCheck::EndOfCylinder)),
            Mark::Status(0x0E, 0x00),
            Mark::Sense(0x00, 0x20, 0x00, 0x00),
            Mark::Passed(0x31, 0x06),
            Mark::Met(Event::SearchLoop),
            Mark::Met(Event::ReadBehindEqualSearch),
            Mark::Met(Event::CcwOfTheChain),
            Mark::Met(Event::Multitrack),
            Mark::OverHeads(StepMark::SteppedUnder(0x00)),
            Mark::OverHeads(StepMark::Met(StepEvent::ReadStepped)),
        ];
        assert_eq!(marks_of(run), BTreeSet::from(expected));
        assert!(expected.iter().all(|mark| Mark::all().contains(mark)));
    }

    #[test]
    fn data_chains() {
        let two = [ccw(0x12, 0, 0x80, 5), ccw(0x12, 5, 0, 3)];
        assert_eq!(met(&marks(&two)), [Event::DataChained]);
        let over = [ccw(0x12, 0, 0x80, 5), ccw(0x12, 4, 0, 3)];
        let expected = [Event::DataChained, Event::Overlapping];
        assert_eq!(met(&marks(&over)), expected);
        let tic = [
            ccw(0x12, 0, 0x80, 5),
            ccw(0x08, 0x18, 0, 0),
            ccw(0x12, 99, 0x10, 3),
        ];
        let expected = [Event::DataChained, Event::DataChainedByTic, Event::Skipped];
        assert_eq!(met(&marks(&tic)), expected);
        let one_more = [ccw(0x12, 0, 0x80, 8), ccw(0x12, 0, 0x20, 1)];
        let expected = [
            Event::OneCcwMoreThanBytes,
            Event::CountLeft,
            Event::IncorrectLengthSuppressed,
        ];
        assert_eq!(met(&marks(&one_more)), expected);
    }

    #[test]
    fn reads_behind_searches() {
        let unequal = [ccw(0x31, 0, 0x40, 5), ccw(0x06, 0, 0, 8)];
        let expected = [Event::R0Read, Event::ReadBehindUnequalSearch];
        assert_eq!(met(&marks(&unequal)), expected);
        let count = [ccw(0x12, 0, 0x60, 4), ccw(0x06, 0, 0x20, 1)];
        let expected = [
            Event::BytesLeftOver,
            Event::IncorrectLengthSuppressed,
            Event::ReadBehindReadCount,
        ];
        assert_eq!(met(&marks(&count)), expected);
        let key = [ccw(0x0E, 0, 0x20, 1)];
        assert!(!met(&marks(&key)).contains(&Event::KeyRead));
    }
}
