//! Question 9 for action 5: the read that a faulted data area cut, as report and chain give it.

use super::channel::{Channel, Program, ReadEnd, Stretch};
use super::drive::{LAST_SECTOR, TAKING_DATA};
use super::pack::LONGEST_RECORD;
use super::report::Report;
use super::Refusal;

/// A count area, then key and data as long as they may be.
pub const LONGEST_READ: usize = 8 + LONGEST_RECORD;

rules! {
    /// What does not agree, besides a program check in the walk and a next CCW that is not there.
    CutRule {
        NotInTheChain,
        OtherCommand,
        NoErrorDisplacement,
        RestartTooFar,
        RestartBelowError,
        Sector,
        OtherCcw,
        OtherCount,
        OtherLengthStatus,
    }
}

#[derive(Clone, Debug, PartialEq, Eq)]
pub struct CutRead {
    /// Each CCW's bytes, in the order in which they arrived.
    pub stretches: Vec<Stretch>,
    pub end: ReadEnd,
}

impl CutRead {
    /// Asks all but for a next CCW. The data chain lies in storage of this length.
    pub fn of(chain: &[u8], report: &Report, storage: usize) -> Result<CutRead, Refusal> {
        check_sense(report).map_err(Refusal::Cut)?;
        let mut channel = Channel::new(Program::of_chain(chain), storage);
        let first = channel
            .fetch_one(report.first)
            .map_err(|_| Refusal::Cut(CutRule::NotInTheChain))?;
        if !TAKING_DATA.contains(&first.command) {
            return Err(Refusal::Cut(CutRule::OtherCommand));
        }
        let mut stretches = Vec::new();
        let end = first.checked().and_then(|first| {
            channel.check_storage(&first)?;
            let length = report.restart_displacement();
            channel.walk(first, length, |stretch| stretches.push(stretch))
        });
        let end = end.map_err(Refusal::Walk)?;
        check_end(report, &end).map_err(Refusal::Cut)?;
        Ok(CutRead { stretches, end })
    }
}

fn check_sense(report: &Report) -> Result<(), CutRule> {
    let (restart, error) = (report.restart_displacement(), report.error_displacement());
    if error == 0 {
        return Err(CutRule::NoErrorDisplacement);
    }
    if restart > LONGEST_READ {
        return Err(CutRule::RestartTooFar);
    }
    if restart < error {
        return Err(CutRule::RestartBelowError);
    }
    if report.sector() > LAST_SECTOR {
        return Err(CutRule::Sector);
    }
    Ok(())
}

fn check_end(report: &Report, end: &ReadEnd) -> Result<(), CutRule> {
    if end.ccw.behind() != report.address() {
        return Err(CutRule::OtherCcw);
    }
    if end.count_left != report.count_left() {
        return Err(CutRule::OtherCount);
    }
    if end.is_incorrect_length() != report.shows_incorrect_length() {
        return Err(CutRule::OtherLengthStatus);
    }
    Ok(())
}

#[cfg(test)]
mod tests {
    use super::*;
    use crate::simulator::channel::ProgramCheck;
    use crate::simulator::encode::ccw;

    /// 3 bytes at 10, 2 skipped, 2 at 20 of which one is left, CC and SLI.
    fn chain() -> Vec<u8> {
        [
            ccw(0x03, 0, 0x40, 1),
            ccw(0x0E, 10, 0x80, 3),
            ccw(0x08, 0x20, 0, 0),
            ccw(0x03, 0, 0, 1),
            ccw(0x00, 0xFF_FFFF, 0x90, 2),
            ccw(0x00, 20, 0x60, 2),
        ]
        .concat()
    }

    /// What agrees with it: a read of 6 bytes, error displacement 3.
    fn report() -> Report {
        let mut sense = [0; 24];
        sense[13] = 127;
        sense[17] = 6;
        sense[19] = 3;
        Report {
            sense,
            csw: [0, 0, 0, 0x30, 0x0E, 0, 0, 1],
            first: 8,
            ..Report::default()
        }
    }

    fn refused(chain: &[u8], change: fn(&mut Report)) -> Option<Refusal> {
        let mut report = report();
        change(&mut report);
        CutRead::of(chain, &report, 22).err()
    }

    #[test]
    fn agrees() {
        let read = CutRead::of(&chain(), &report(), 22).unwrap();
        let places: Vec<_> = (read.stretches.iter())
            .map(|stretch| (stretch.from, stretch.length, stretch.storage))
            .collect();
        assert_eq!(places, [(0, 3, Some(10)), (3, 2, None), (5, 1, Some(20))]);
        assert_eq!((read.end.ccw.at, read.end.count_left), (0x28, 1));
    }

    #[test]
    fn each_rule() {
        type Change = fn(&mut Report);
        let changes: [(Change, CutRule); 17] = [
            (|report| report.first = 0x30, CutRule::NotInTheChain),
            (|report| report.first = 0x0C, CutRule::NotInTheChain),
            (|report| report.first = 0xFFF8, CutRule::NotInTheChain),
            (|report| report.first = 0, CutRule::OtherCommand),
            (|report| report.first = 0x10, CutRule::OtherCommand),
            (|report| report.sense[19] = 0, CutRule::NoErrorDisplacement),
            (|report| report.sense[15] = 1, CutRule::RestartTooFar),
            (|report| report.sense[19] = 7, CutRule::RestartBelowError),
            (|report| report.sense[18] = 1, CutRule::RestartBelowError),
            (|report| report.sense[13] = 128, CutRule::Sector),
            (|report| report.sense[13] = 255, CutRule::Sector),
            (|report| report.csw[3] = 0x28, CutRule::OtherCcw),
            (|report| report.csw[1] = 1, CutRule::OtherCcw),
            (|report| report.csw[7] = 2, CutRule::OtherCount),
            (|report| report.csw[6] = 1, CutRule::OtherCount),
            (|report| report.csw[5] = 0x40, CutRule::OtherLengthStatus),
            (|report| report.sense[17] = 4, CutRule::OtherCcw),
        ];
        for (change, rule) in changes {
            assert_eq!(refused(&chain(), change), Some(Refusal::Cut(rule)));
        }
    }

    #[test]
    fn each_command_that_takes_data() {
        let taking = [0x06, 0x0E, 0x1E, 0x86, 0x8E, 0x9E];
        for command in 0..=255 {
            let mut chain = chain();
            chain[8] = command;
            let other = (!taking.contains(&command)).then_some(CutRule::OtherCommand);
            assert_eq!(refused(&chain, |_| ()), other.map(Refusal::Cut));
        }
    }

    #[test]
    fn bytes_past_the_counts_are_walked() {
        let count_0: fn(&mut Report) = |report| {
            report.sense[17] = 9;
            report.csw[7] = 0;
        };
        assert_eq!(refused(&chain(), count_0), None);
    }

    #[test]
    fn longest_read() {
        let bytes = ccw(0x1E, 0, 0x10, 13_039);
        for (low, left, refused) in [(0xEE, 1, false), (0xEF, 0, true)] {
            let mut report = report();
            report.first = 0;
            report.sense[16..18].copy_from_slice(&[0x32, low]);
            let channel_status = if left > 0 { 0x40 } else { 0 };
            report.csw = [0, 0, 0, 8, 0x0E, channel_status, 0, left];
            let expected = refused.then_some(Refusal::Cut(CutRule::RestartTooFar));
            assert_eq!(CutRead::of(&bytes, &report, 0).err(), expected);
        }
        assert_eq!(LONGEST_READ, 0x32EE);
    }

    #[test]
    fn program_checks_of_the_walk() {
        for (at, byte, check) in [
            (0x0F, 0, ProgramCheck::CountZero),
            (0x24, 0x91, ProgramCheck::LowFlags),
            (0x20, 0x18, ProgramCheck::TicToTic),
            (0x13, 0x21, ProgramCheck::NotAMultipleOf8),
            (0x12, 1, ProgramCheck::PastTheChain),
            (0x0B, 20, ProgramCheck::DataRange),
        ] {
            let mut chain = chain();
            chain[at] = byte;
            assert_eq!(refused(&chain, |_| ()), Some(Refusal::Walk(check)));
        }
        let range = CutRead::of(&chain(), &report(), 21).err();
        assert_eq!(range, Some(Refusal::Walk(ProgramCheck::DataRange)));
    }

    #[test]
    fn what_is_not_asked() {
        let changes: [fn(&mut Report); 4] = [
            |report| report.csw[4] = 0xFF,
            |report| report.csw[5] = 0xBF,
            |report| report.sense[8..13].fill(0xFF),
            |report| report.sense[23] = 1,
        ];
        for change in changes {
            assert_eq!(refused(&chain(), change), None);
        }
    }
}
