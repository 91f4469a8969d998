//! What is looked for in runs over several heads, by what a drive with another rule would do otherwise.

use crate::chains::multitrack_commands;
use crate::simulator::channel::{Ccw, ProgramCheck};
use crate::simulator::drive::{
    is_multitrack, Done, Drive, NotFoundRule, ProtectedRule, UnitCheck, MASK_SEEK_INHIBITED,
    READ_DATA_MULTITRACK, READ_KEY_DATA_MULTITRACK, SEEK,
};
use crate::simulator::pack::{TrackAddress, LAST_HEAD};
use crate::simulator::run::{End, Watch};
use std::collections::BTreeSet;
use std::fmt;

#[derive(Clone, Copy, Debug, PartialEq, Eq, PartialOrd, Ord)]
pub enum StepMark {
    /// A command that stepped and was done, mask bits 3 and 4 at this.
    SteppedUnder(u8),
    /// A program check by the data range of this multitrack command.
    DataRange(u8),
    /// A protected step on a head so many above the one last sought, `FAR_ABOVE` for more.
    ProtectedAbove(u16),
    Met(StepEvent),
}

rules! {
    StepEvent {
        SearchStepped,
        R0FoundByStep,
        ReadStepped,
        // In one read.
        SteppedTwice,
        SteppedOften,
        SteppedSeventeenTimes,
        SteppedFromR0Alone,
        NoStepFromTheIndex,
        // By an 86 or 8E, which does not step for it.
        LastPassedTaken,
        // By a 92 or 9E, which steps.
        LastPassedLeft,
        // Once on the track before too, since the last control, read or equal search.
        IndexPassedBehindStep,
        IndexPassedTwiceBehindStep,
        EndOfCylinderBehindSteps,
        EndOfCylinderUnderMask,
        // Its head 0 is in the image.
        EndOfCylinderBeforeTheNext,
        NoTrackBehindSteps,
        // A head behind it is in the image.
        HoleBetweenHeads,
        StepToNoTrackProtected,
        StepProtectedOnHead0,
        StepProtectedOnHeadAbove0,
        // Its sense tells no head.
        SeekProtectedOnHeadAbove0,
        // The command's step would have ended the run by another check.
        RejectBeforeStep,
        DataRangeBeforeStep,
    }
}

const FAR_ABOVE: u16 = 3;

/// What takes the record whose count area was just passed.
const TAKING_PASSED: [u8; 2] = [READ_DATA_MULTITRACK, READ_KEY_DATA_MULTITRACK];

impl StepMark {
    pub fn all() -> Vec<StepMark> {
        ([0x00, 0x08, 0x10].map(StepMark::SteppedUnder).into_iter())
            .chain(multitrack_commands().map(StepMark::DataRange))
            .chain((0..=FAR_ABOVE).map(StepMark::ProtectedAbove))
            .chain(StepEvent::ALL.iter().copied().map(StepMark::Met))
            .collect()
    }
}

impl fmt::Display for StepMark {
    fn fmt(&self, out: &mut fmt::Formatter) -> fmt::Result {
        match self {
            StepMark::SteppedUnder(mask) => write!(out, "step under mask bits {mask:02X}"),
            StepMark::DataRange(command) => write!(out, "data range of {command:02X}"),
            StepMark::ProtectedAbove(heads) => {
                let more = if *heads == FAR_ABOVE { " or more" } else { "" };
                write!(out, "step protected {heads}{more} above the seek")
            }
            StepMark::Met(event) => write!(out, "{event:?}"),
        }
    }
}

/// A command, and the drive before it.
struct Begun {
    command: u8,
    is_at_index: bool,
    has_passed: bool,
    index_passes: u8,
    step_fails: bool,
}

/// The marks of one run.
#[derive(Default)]
pub struct StepMarks {
    seen: BTreeSet<StepMark>,
    /// The drive has seen nothing of it.
    begun: Option<Begun>,
    /// Whether searches in vain passed the index, stepped, and go on.
    passed_before_step: bool,
    /// The head last sought, or the one that a run starts at.
    sought: u16,
}

impl StepMarks {
    fn meet_if(&mut self, met: bool, event: StepEvent) {
        if met {
            self.seen.insert(StepMark::Met(event));
        }
    }

    pub fn see_end(&mut self, end: End) {
        let begun = self.begun.take().filter(|ccw| is_multitrack(ccw.command));
        if let (End::ProgramCheck(ProgramCheck::DataRange), Some(begun)) = (end, begun) {
            self.seen.insert(StepMark::DataRange(begun.command));
            self.meet_if(begun.step_fails, StepEvent::DataRangeBeforeStep);
        }
    }

    fn done(&mut self, begun: &Begun, argument: &[u8], done: &Done, drive: &Drive) {
        let steps = drive.steps();
        if steps == 0 {
            let takes_passed = begun.has_passed && TAKING_PASSED.contains(&begun.command);
            let last_taken = takes_passed && drive.is_behind_last();
            self.meet_if(begun.is_at_index, StepEvent::NoStepFromTheIndex);
            self.meet_if(last_taken, StepEvent::LastPassedTaken);
            return;
        }
        let bits = drive.mask().unwrap_or(0) & MASK_SEEK_INHIBITED;
        self.seen.insert(StepMark::SteppedUnder(bits));
        match done {
            Done::Search { equal } => {
                self.meet_if(true, StepEvent::SearchStepped);
                self.meet_if(*equal && argument[4] == 0, StepEvent::R0FoundByStep);
            }
            _ => {
                self.meet_if(true, StepEvent::ReadStepped);
                self.meet_if(begun.is_at_index, StepEvent::SteppedFromR0Alone);
                self.meet_if(begun.has_passed, StepEvent::LastPassedLeft);
            }
        }
        self.meet_if(steps == 2, StepEvent::SteppedTwice);
        self.meet_if(steps > 2, StepEvent::SteppedOften);
        self.meet_if(steps >= 17, StepEvent::SteppedSeventeenTimes);
    }

    fn failed(&mut self, begun: &Begun, check: UnitCheck, drive: &Drive) {
        let has_stepped = drive.steps() > 0;
        let TrackAddress { cylinder, head } = drive.track();
        let has = |cylinder, head| {
            let track = TrackAddress { cylinder, head };
            drive.pack().track(track).is_some()
        };
        match check {
            UnitCheck::EndOfCylinder => {
                let bits = drive.mask().unwrap_or(0) & MASK_SEEK_INHIBITED;
                let is_masked = bits == MASK_SEEK_INHIBITED;
                self.meet_if(has_stepped, StepEvent::EndOfCylinderBehindSteps);
                self.meet_if(is_masked, StepEvent::EndOfCylinderUnderMask);
                self.meet_if(has(cylinder + 1, 0), StepEvent::EndOfCylinderBeforeTheNext);
            }
            UnitCheck::NoRecordFound(NotFoundRule::NextHeadNotInImage) => {
                let is_hole = (head + 1..=LAST_HEAD).any(|head| has(cylinder, head));
                self.meet_if(has_stepped, StepEvent::NoTrackBehindSteps);
                self.meet_if(is_hole, StepEvent::HoleBetweenHeads);
            }
            UnitCheck::FileProtected(ProtectedRule::Step) => {
                let above = (head - self.sought).min(FAR_ABOVE);
                self.seen.insert(StepMark::ProtectedAbove(above));
                self.meet_if(!has(cylinder, head + 1), StepEvent::StepToNoTrackProtected);
                self.meet_if(head == 0, StepEvent::StepProtectedOnHead0);
                self.meet_if(head > 0, StepEvent::StepProtectedOnHeadAbove0);
            }
            UnitCheck::Reject(_) => self.meet_if(begun.step_fails, StepEvent::RejectBeforeStep),
            _ => (),
        }
    }

    fn seek(&mut self, done: &Result<Done, UnitCheck>, drive: &Drive) {
        let head = drive.track().head;
        match done {
            Ok(_) => self.sought = head,
            Err(UnitCheck::FileProtected(_)) => {
                self.meet_if(head > 0, StepEvent::SeekProtectedOnHeadAbove0);
            }
            Err(_) => (),
        }
    }

    /// By 31 and B1, which may be mixed.
    fn index_passes(&mut self, begun: &Begun, done: &Result<Done, UnitCheck>, drive: &Drive) {
        let in_vain = matches!(done, Ok(Done::Search { equal: false }));
        let twice = UnitCheck::NoRecordFound(NotFoundRule::IndexPassedTwice);
        let passed_twice = done.as_ref().err() == Some(&twice);
        let passed_once = in_vain && drive.index_passes() > begun.index_passes;
        if self.passed_before_step {
            self.meet_if(passed_once, StepEvent::IndexPassedBehindStep);
            self.meet_if(passed_twice, StepEvent::IndexPassedTwiceBehindStep);
        }
        let steps_behind_pass = drive.steps() > 0 && begun.index_passes > 0;
        self.passed_before_step = in_vain && (self.passed_before_step || steps_behind_pass);
    }
}

impl Watch for StepMarks {
    fn begin(&mut self, ccw: &Ccw, drive: &Drive) {
        self.begun = Some(Begun {
            command: ccw.command,
            is_at_index: drive.is_at_index(),
            has_passed: drive.passed().is_some(),
            index_passes: drive.index_passes(),
            step_fails: drive.step_fails(ccw.command),
        });
    }

    fn command(
        &mut self,
        _ccw: &Ccw,
        argument: &[u8],
        done: &Result<Done, UnitCheck>,
        drive: &Drive,
    ) {
        let begun = self.begun.take().expect("a command begins with its CCW");
        match done {
            _ if begun.command == SEEK => self.seek(done, drive),
            _ if !is_multitrack(begun.command) => (),
            Ok(done) => self.done(&begun, argument, done, drive),
            Err(check) => self.failed(&begun, *check, drive),
        }
        self.index_passes(&begun, done, drive);
    }
}

impl IntoIterator for StepMarks {
    type Item = StepMark;
    type IntoIter = std::collections::btree_set::IntoIter<StepMark>;

    fn into_iter(self) -> Self::IntoIter {
        self.seen.into_iter()
    }
}

#[cfg(test)]
mod tests {
    use super::StepEvent::*;
    use super::*;
    use crate::simulator::encode::ccw;
    use crate::simulator::large::track_at;
    use crate::simulator::{encode, sample};

    /// Arguments: a mask that inhibits seeks; R0 of head 1; a seek to head 18; an ID that no track has.
    const ARGUMENTS: [u8; 17] = [0x18, 0, 0, 0, 1, 0, 0, 0, 0, 0, 0, 18, 0, 0, 0, 0, 9];
    const MASK: [u8; 8] = ccw(0x1F, 0, 0x40, 1);
    const R0: [u8; 8] = ccw(0xB1, 1, 0x40, 5);
    const TO_18: [u8; 8] = ccw(0x07, 6, 0x40, 6);
    const IN_VAIN: [u8; 8] = ccw(0x31, 12, 0x40, 5);
    const ON_IN_VAIN: [u8; 8] = ccw(0xB1, 12, 0x40, 5);
    const COUNT: [u8; 8] = ccw(0x12, 0, 0x40, 8);
    const ON_COUNT: [u8; 8] = ccw(0x92, 0, 0x40, 8);
    const READ: [u8; 8] = ccw(0x86, 0, 0x40, 4);

    /// What is seen on tracks from 000/00 on with R0 and so many records each, or with nothing.
    fn seen(tracks: &[Option<u8>], ccws: &[[u8; 8]]) -> BTreeSet<StepMark> {
        let mut image = Vec::new();
        for (place, records) in tracks.iter().enumerate() {
            let track = track_at(place);
            let Some(records) = *records else { continue };
            encode::put_home_address(&mut image, track);
            for number in 0..=records {
                let data: &[u8] = if number == 0 { &[] } else { &[number; 4] };
                encode::put_record(&mut image, track, number, &[], data);
            }
        }
        let mut run = crate::chains::GeneratedRun {
            chain: ccws.as_flattened().to_vec(),
            arguments: ARGUMENTS.to_vec(),
            image,
            faults: Vec::new(),
            ..sample::run()
        };
        let mut marks = StepMarks::default();
        let outcome = run.watched(&mut marks).expect("the run is not refused");
        marks.see_end(outcome.end);
        marks.seen
    }

    fn met(tracks: &[Option<u8>], ccws: &[[u8; 8]]) -> Vec<StepEvent> {
        let marks = seen(tracks, ccws);
        let events = marks.into_iter().filter_map(|mark| match mark {
            StepMark::Met(event) => Some(event),
            _ => None,
        });
        events.collect()
    }

    #[test]
    fn over_heads() {
        let two = &[Some(1), Some(1)][..];
        let alone = &[&[Some(0); 17][..], &[Some(1)]].concat()[..];
        let last = &[&[None; 18][..], &[Some(1), Some(1)]].concat()[..];
        let table: [(&[Option<u8>], &[[u8; 8]], &[StepEvent]); 11] = [
            (two, &[READ], &[NoStepFromTheIndex]),
            (two, &[COUNT, READ], &[LastPassedTaken]),
            (
                two,
                &[COUNT, ccw(0x92, 0, 0, 8)],
                &[ReadStepped, LastPassedLeft],
            ),
            (
                two,
                &[ccw(0x06, 0, 0x40, 4), R0],
                &[SearchStepped, R0FoundByStep],
            ),
            (
                alone,
                &[READ],
                &[
                    ReadStepped,
                    SteppedOften,
                    SteppedSeventeenTimes,
                    SteppedFromR0Alone,
                ],
            ),
            (
                last,
                &[TO_18, MASK, COUNT, READ, READ],
                &[
                    LastPassedTaken,
                    EndOfCylinderUnderMask,
                    EndOfCylinderBeforeTheNext,
                ],
            ),
            (&[Some(0), None, Some(1)], &[READ], &[HoleBetweenHeads]),
            (&[Some(0), Some(0)], &[READ], &[NoTrackBehindSteps]),
            (
                &[Some(0)],
                &[MASK, READ],
                &[StepToNoTrackProtected, StepProtectedOnHead0],
            ),
            (&[Some(0); 19], &[READ], &[EndOfCylinderBehindSteps]),
            (
                &[Some(0)],
                &[IN_VAIN, ccw(0xB1, 1, 0x40, 4)],
                &[RejectBeforeStep],
            ),
        ];
        for (tracks, ccws, expected) in table {
            assert_eq!(met(tracks, ccws), expected, "{ccws:02X?}");
        }
    }

    /// A read steps so many heads, a mask follows, the record is read again: the next read is protected,
    /// but not behind a search, which goes round to R0.
    #[test]
    fn protected_above_the_head_sought() {
        for (heads, above) in [(0, 0), (1, 1), (2, 2), (3, 3), (17, 3)] {
            let tracks = [&vec![Some(0); heads][..], &[Some(1)]].concat();
            let above = StepMark::ProtectedAbove(above);
            let reads = [ON_COUNT, MASK, ON_COUNT, ON_COUNT];
            assert!(seen(&tracks, &reads).contains(&above));
            let searches = [ON_COUNT, MASK, ON_COUNT, IN_VAIN, ON_COUNT];
            assert!(!seen(&tracks, &searches).contains(&above));
            let events = met(&tracks, &[ON_COUNT, MASK, TO_18]);
            let seek = events.contains(&SeekProtectedOnHeadAbove0);
            assert_eq!(seek, heads > 0);
        }
    }

    #[test]
    fn index_passes() {
        let two = [Some(0), Some(0)];
        // R0, past the index R0, R0 of the next head, past the index R0, past the index.
        let searches = [IN_VAIN, IN_VAIN, ON_IN_VAIN, IN_VAIN, IN_VAIN];
        let stepped = [SearchStepped];
        let once = [SearchStepped, IndexPassedBehindStep];
        let twice = [&once[..], &[IndexPassedTwiceBehindStep]].concat();
        assert_eq!(met(&two, &searches[..3]), stepped);
        assert_eq!(met(&two, &searches[..4]), once);
        assert_eq!(met(&two, &searches), twice);
        assert_eq!(met(&two, &searches[1..]), stepped);
    }

    #[test]
    fn data_ranges() {
        let outside = ccw(0x86, 0xFFFF, 0, 8);
        assert_eq!(met(&[Some(1)], &[outside]), []);
        assert_eq!(met(&[Some(0)], &[outside]), [DataRangeBeforeStep]);
    }
}
