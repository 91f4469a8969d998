//! Which marks a reading has.

use super::{Answered, Behind, HowMany, Order, ReadingEvent, ReadingMark};
use crate::chains::COMMANDS;
use crate::demand::{Faultless, Proviso};
use crate::lendings::GeneratedReading;
use crate::recovery_marks::{kind_of_fate, MaskKind};
use crate::simulator::held::RECOVERY_ENTRY;
use crate::simulator::interrupted::next_command;
use crate::simulator::reading::{End, LimitOf, Reading, Recovery};
use crate::simulator::recovery::{Answer, RestartAction};
use crate::simulator::restart::read_count_before;
use std::collections::BTreeSet;

/// The marks of a reading, as it was lent, that the simulator has not refused.
pub fn marks_of(
    lent: &GeneratedReading,
    read: &Reading,
    faultless: &Result<Faultless, Proviso>,
) -> BTreeSet<ReadingMark> {
    let made = read.recoveries.len();
    let mut marks = BTreeSet::from([
        ReadingMark::Ended(read.end, behind(made)),
        ReadingMark::Made(how_many(made)),
    ]);
    match faultless {
        Ok(faultless) => {
            marks.insert(ReadingMark::DemandThree(how_many(made)));
            let at_read_count = faultless.at_read_count;
            marks.extend(
                at_read_count.map(|at| ReadingMark::AtReadCount(at.ended_by, at.is_masked)),
            );
            let beside = faultless.beside_read_count.filter(|_| made > 0);
            marks.extend(beside.map(ReadingMark::BesideReadCount));
        }
        Err(proviso) => {
            marks.insert(ReadingMark::NotMet(*proviso));
        }
    }
    for (place, recovery) in read.recoveries.iter().enumerate() {
        let order = match place {
            0 => Order::First,
            _ => Order::Later,
        };
        see_recovery(&mut marks, lent, order, recovery);
    }
    for (event, met) in events_of(lent, read) {
        if met {
            marks.insert(ReadingMark::Met(event));
        }
    }
    marks
}

fn behind(made: usize) -> Behind {
    match made {
        0 => Behind::NoRecovery,
        1 => Behind::OneRecovery,
        _ => Behind::MoreRecoveries,
    }
}

fn how_many(made: usize) -> HowMany {
    match made {
        0 => HowMany::None,
        1 => HowMany::One,
        2 => HowMany::Two,
        3..=9 => HowMany::To9,
        10..=99 => HowMany::To99,
        100..=255 => HowMany::To255,
        _ => HowMany::From256,
    }
}

fn see_recovery(
    marks: &mut BTreeSet<ReadingMark>,
    lent: &GeneratedReading,
    order: Order,
    recovery: &Recovery,
) {
    let answered = match recovery.recovered.answer {
        Answer::Finished(_) => Answered::Finished,
        Answer::CorrectedOnly => Answered::CorrectedOnly,
        Answer::Restart(RestartAction::FiveA) => Answered::By5A,
        _ => Answered::By5,
    };
    marks.insert(ReadingMark::Recovered(order, answered));
    marks.insert(ReadingMark::Cut(lent.chain[recovery.cut.first]));
    if let Answer::Restart(action) = recovery.recovered.answer {
        let kind = MaskKind::of(recovery.cut.mask);
        marks.insert(ReadingMark::Masked(action, kind));
        let next = next_command(&lent.chain, recovery.cut.address());
        let next = next.expect("a restart has a next CCW");
        marks.extend(read_count_before(&next).map(ReadingMark::ReadCount));
        if COMMANDS.contains(&next.command) {
            marks.insert(ReadingMark::Next(next.command));
        }
    }
    if let Some(correction) = &recovery.recovered.correction {
        let kinds = correction.fates.map(kind_of_fate);
        marks.extend(kinds.map(ReadingMark::Pattern));
    }
}

fn events_of(lent: &GeneratedReading, read: &Reading) -> [(ReadingEvent, bool); 11] {
    let by = |recovery: &Recovery| recovery.recovered.answer.clone();
    let (five, five_a) = (RestartAction::Five, RestartAction::FiveA);
    let (five, five_a) = (Answer::Restart(five), Answer::Restart(five_a));
    let is_chained = |recovery: &Recovery| {
        let correction = recovery.recovered.correction.as_ref();
        correction.is_some_and(|correction| correction.read.stretches.len() > 1)
    };
    let next = |is_so: &dyn Fn(&Recovery, &Recovery) -> bool| {
        let mut pairs = read.recoveries.windows(2);
        pairs.any(|pair| is_so(&pair[0], &pair[1]))
    };
    let all_are_allowed = read.end != End::Limit(LimitOf::Recoveries);
    [
        (
            ReadingEvent::SameRecord,
            next(&|one, other| record(one) == record(other)),
        ),
        (
            ReadingEvent::OtherRecord,
            next(&|one, other| one.track() == other.track() && record(one) != record(other)),
        ),
        (
            ReadingEvent::OtherTrack,
            next(&|one, other| one.track() != other.track()),
        ),
        (
            ReadingEvent::ThreeTracks,
            (read.recoveries.iter().map(Recovery::track))
                .collect::<BTreeSet<_>>()
                .len()
                > 2,
        ),
        (
            ReadingEvent::FiveBehindFiveA,
            next(&|one, other| by(one) == five_a && by(other) == five),
        ),
        (
            ReadingEvent::FiveABehindFive,
            next(&|one, other| by(one) == five && by(other) == five_a),
        ),
        (
            ReadingEvent::MaskSetBetween,
            next(&|one, other| one.cut.mask.is_none() && other.cut.mask.is_some()),
        ),
        (ReadingEvent::SameRecordLater, comes_again(&read.recoveries)),
        (
            ReadingEvent::AsManyAsTheLimit,
            all_are_allowed && read.recoveries.len() == lent.limit,
        ),
        (
            ReadingEvent::DataChained,
            read.recoveries.iter().any(is_chained),
        ),
        (
            ReadingEvent::ListLongerThanItMustBe,
            lent.list_length > RECOVERY_ENTRY * lent.limit,
        ),
    ]
}

/// Sense 8 to 12.
fn record(recovery: &Recovery) -> &[u8] {
    &recovery.cut.sense[8..13]
}

/// Whether a record is recovered again with another one between.
fn comes_again(recoveries: &[Recovery]) -> bool {
    let mut before = BTreeSet::new();
    recoveries.windows(2).any(|pair| {
        let [one, other] = [&pair[0], &pair[1]].map(record);
        before.insert(one);
        one != other && before.contains(other)
    })
}

#[cfg(test)]
mod tests {
    use super::*;
    use crate::chains::GeneratedRun;
    use crate::simulator::drive::UnitCheck;
    use crate::simulator::encode::ccw;
    use crate::simulator::{run, sample};

    /// The marks of the sample with these CCWs behind its seek, both records faulted.
    fn marks(limit: usize, ccws: &[[u8; 8]]) -> BTreeSet<ReadingMark> {
        let mut chain = sample::CHAIN[..8].to_vec();
        chain.extend(ccws.as_flattened());
        let mut faults = sample::FAULTS.repeat(2);
        faults[20] = 2;
        let run = GeneratedRun {
            chain,
            arguments: [&sample::ARGUMENTS[..], &[0xC0]].concat(),
            faults,
            limit,
            ..sample::run()
        };
        marks_of_reading(&GeneratedReading::of_run(run, sample::EXTENT.to_vec()))
    }

    fn marks_of_reading(lent: &GeneratedReading) -> BTreeSet<ReadingMark> {
        let read = lent.clone().simulated().expect("the sample is not refused");
        let marks = marks_of(lent, &read, &Faultless::of(lent));
        assert!(marks.iter().all(|mark| ReadingMark::all().contains(mark)));
        marks
    }

    fn met(marks: &BTreeSet<ReadingMark>) -> Vec<ReadingEvent> {
        let events = marks.iter().filter_map(|mark| match mark {
            ReadingMark::Met(event) => Some(*event),
            _ => None,
        });
        events.collect()
    }

    #[test]
    fn two_reads() {
        let marks = marks(2, &[ccw(0x06, 0, 0x40, 4), ccw(0x06, 4, 0, 4)]);
        let expected = [
            ReadingMark::Ended(End::Finished, Behind::MoreRecoveries),
            ReadingMark::Made(HowMany::Two),
            ReadingMark::NotMet(Proviso::EndsWithinTheLimit),
            ReadingMark::Recovered(Order::First, Answered::By5A),
            ReadingMark::Recovered(Order::Later, Answered::Finished),
            ReadingMark::Masked(RestartAction::FiveA, MaskKind::NoMask),
            ReadingMark::Cut(0x06),
            ReadingMark::Next(0x06),
            ReadingMark::ReadCount(0x12),
            ReadingMark::Pattern(crate::recovery_marks::PatternKind::Stored),
            ReadingMark::Met(ReadingEvent::OtherRecord),
            ReadingMark::Met(ReadingEvent::AsManyAsTheLimit),
        ];
        assert_eq!(marks, BTreeSet::from(expected));
    }

    #[test]
    fn two_heads() {
        let marks = marks_of_reading(&sample::over_two_heads());
        let by_end = UnitCheck::EndOfCylinder;
        let end = End::Run(run::End::UnitCheck(by_end));
        for mark in [
            ReadingMark::Ended(end, Behind::MoreRecoveries),
            ReadingMark::Cut(0x86),
            ReadingMark::Next(0x86),
            ReadingMark::ReadCount(0x92),
            ReadingMark::DemandThree(HowMany::Two),
            ReadingMark::AtReadCount(by_end, false),
            ReadingMark::Met(ReadingEvent::OtherTrack),
        ] {
            assert!(marks.contains(&mark), "{mark}");
        }
    }

    #[test]
    fn one_record_again() {
        let again = [
            ccw(0x06, 0, 0x40, 4),
            ccw(0x1F, 11, 0x40, 1),
            ccw(0x0E, 0, 0x40, 4),
            ccw(0x1E, 0, 0x60, 4),
            ccw(0x06, 0, 0x40, 4),
            ccw(0x03, 0, 0, 1),
        ];
        let marks = marks(9, &again);
        assert!(marks.contains(&ReadingMark::DemandThree(HowMany::To9)));
        let end = End::Run(run::End::Chain);
        assert!(marks.contains(&ReadingMark::Ended(end, Behind::MoreRecoveries)));
        let expected = [
            ReadingEvent::SameRecord,
            ReadingEvent::OtherRecord,
            ReadingEvent::FiveABehindFive,
            ReadingEvent::MaskSetBetween,
            ReadingEvent::SameRecordLater,
        ];
        assert_eq!(met(&marks), expected);
    }

    #[test]
    fn no_mark_twice() {
        let all = ReadingMark::all();
        let distinct: BTreeSet<ReadingMark> = all.iter().copied().collect();
        assert_eq!(all.len(), distinct.len());
    }
}
