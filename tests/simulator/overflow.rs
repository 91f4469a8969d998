//! Question 9 for actions 9 and 11: the read of an overflow record that was interrupted between two of its
//! tracks, and restart CCW 1, which takes what is left of the CCW that it was interrupted in.

use super::channel::{
    Ccw, Channel, Program, ReadEnd, FLAG_CHAIN_COMMAND, FLAG_CHAIN_DATA, FLAG_SKIP,
};
use super::drive::{READ_DATA, TAKING_DATA};
use super::interrupted::next_command;
use super::report::Report;
use super::Refusal;

rules! {
    /// What does not agree, besides tag 14, the head reached, a program check in the walk and a next CCW
    /// that is not there.
    OverflowRule {
        OtherRestartCommand,
        FirstNotInTheChain,
        FirstOtherCommand,
        OtherCcw,
        OtherCount,
        NoCountLeft,
    }
}

#[derive(Clone, Copy, Debug, PartialEq, Eq)]
pub struct OverflowRead {
    /// The interrupted one.
    pub ccw: Ccw,
    pub count_left: usize,
}

impl OverflowRead {
    /// Asks for sense 3, tag 12 and the walk; not for what only action 5 asks of them. The data chain lies
    /// in storage of this length.
    pub fn of(chain: &[u8], report: &Report, storage: usize) -> Result<OverflowRead, Refusal> {
        let disagree = |rule| Err(Refusal::Overflow(rule));
        if report.restart_command() != READ_DATA {
            return disagree(OverflowRule::OtherRestartCommand);
        }
        let mut channel = Channel::new(Program::of_chain(chain), storage);
        let Ok(first) = channel.fetch_one(report.first) else {
            return disagree(OverflowRule::FirstNotInTheChain);
        };
        if !TAKING_DATA.contains(&first.command) {
            return disagree(OverflowRule::FirstOtherCommand);
        }
        let end = first.checked().and_then(|first| {
            channel.check_storage(&first)?;
            channel.walk(first, report.restart_displacement(), |_| ())
        });
        let end = end.map_err(Refusal::Walk)?;
        check_end(report, &end).map_err(Refusal::Overflow)?;
        Ok(OverflowRead {
            ccw: end.ccw,
            count_left: end.count_left,
        })
    }

    /// Bytes of the read that the interrupted CCW took.
    pub fn taken(&self) -> usize {
        self.ccw.count - self.count_left
    }

    pub fn chains(&self) -> bool {
        self.ccw.has(FLAG_CHAIN_DATA | FLAG_CHAIN_COMMAND)
    }

    /// The user's next non-TIC CCW; none is asked for where the interrupted CCW does not chain.
    pub fn next(&self, chain: &[u8]) -> Result<Option<Ccw>, Refusal> {
        let next = self
            .chains()
            .then(|| next_command(chain, self.ccw.behind()));
        next.transpose()
    }

    /// Of restart CCW 1: "that CCW's address plus the bytes it has taken (under skip unchanged)".
    pub fn address_left(&self) -> usize {
        if self.ccw.has(FLAG_SKIP) {
            self.ccw.address
        } else {
            self.ccw.address + self.taken()
        }
    }
}

fn check_end(report: &Report, end: &ReadEnd) -> Result<(), OverflowRule> {
    if end.ccw.behind() != report.address() {
        return Err(OverflowRule::OtherCcw);
    }
    if end.count_left != report.count_left() {
        return Err(OverflowRule::OtherCount);
    }
    if end.count_left == 0 {
        return Err(OverflowRule::NoCountLeft);
    }
    Ok(())
}

#[cfg(test)]
mod tests {
    use super::*;
    use crate::simulator::channel::ProgramCheck;
    use crate::simulator::encode::ccw;

    /// 3 bytes at 10, 4 skipped, 5 at 20, then a command behind a TIC.
    fn chain() -> Vec<u8> {
        [
            ccw(0x03, 0, 0x40, 1),
            ccw(0x86, 10, 0x80, 3),
            ccw(0x08, 0x20, 0, 0),
            ccw(0x03, 0, 0, 1),
            ccw(0x07, 0xFF_FFFF, 0xD8, 4),
            ccw(0x00, 20, 0x60, 5),
            ccw(0x08, 0, 0, 0),
        ]
        .concat()
    }

    /// What agrees with it: so many bytes were read, and so many are left of the CCW at this address.
    fn report(restart: u32, at: u8, left: u8) -> Report {
        let mut sense = [0; 24];
        sense[3] = 0x06;
        sense[15..18].copy_from_slice(&restart.to_be_bytes()[1..]);
        Report {
            sense,
            csw: [0, 0, 0, at + 8, 0x0E, 0, 0, left],
            first: 8,
            ..Report::default()
        }
    }

    fn read(report: &Report) -> Result<OverflowRead, Refusal> {
        OverflowRead::of(&chain(), report, 25)
    }

    #[test]
    fn where_it_was_interrupted() {
        // The CCW's address, count left and bytes taken, and the address of restart CCW 1.
        for (restart, at, left, taken, address) in [
            (0, 0x08, 3, 0, 10),
            (1, 0x08, 2, 1, 11),
            (2, 0x08, 1, 2, 12),
            (3, 0x20, 4, 0, 0xFF_FFFF),
            (6, 0x20, 1, 3, 0xFF_FFFF),
            (7, 0x28, 5, 0, 20),
            (11, 0x28, 1, 4, 24),
        ] {
            let read = read(&report(restart, at, left)).unwrap();
            assert_eq!((read.ccw.at, read.count_left), (at.into(), left.into()));
            assert_eq!((read.taken(), read.address_left()), (taken, address));
        }
    }

    #[test]
    fn each_rule() {
        use OverflowRule::*;
        type Change = fn(&mut Report);
        let changes: [(Change, OverflowRule); 15] = [
            (|report| report.sense[3] = 0x00, OtherRestartCommand),
            (|report| report.sense[3] = 0x86, OtherRestartCommand),
            (|report| report.first = 0x38, FirstNotInTheChain),
            (|report| report.first = 0x0C, FirstNotInTheChain),
            (|report| report.first = 0xFFF8, FirstNotInTheChain),
            (|report| report.first = 0, FirstOtherCommand),
            (|report| report.first = 0x10, FirstOtherCommand),
            (|report| report.csw[3] = 0x28, OtherCcw),
            (|report| report.csw[3] = 0x34, OtherCcw),
            (|report| report.csw[1] = 1, OtherCcw),
            (|report| report.sense[17] = 6, OtherCcw),
            (|report| report.sense[17] = 10, OtherCount),
            (|report| report.csw[7] = 5, OtherCount),
            (|report| report.csw[7] = 0, OtherCount),
            (|report| report.csw[6] = 1, OtherCount),
        ];
        for (change, rule) in changes {
            let mut report = report(8, 0x28, 4);
            assert!(read(&report).is_ok());
            change(&mut report);
            assert_eq!(read(&report), Err(Refusal::Overflow(rule)));
        }
    }

    #[test]
    fn no_count_left() {
        let refused = Err(Refusal::Overflow(OverflowRule::NoCountLeft));
        for restart in [12, 13, 13_039, 0xFF_FFFF] {
            assert_eq!(read(&report(restart, 0x28, 0)), refused);
            let other = Err(Refusal::Overflow(OverflowRule::OtherCount));
            assert_eq!(read(&report(restart, 0x28, 1)), other);
        }
    }

    #[test]
    fn each_command_that_takes_data() {
        let taking = [0x06, 0x0E, 0x1E, 0x86, 0x8E, 0x9E];
        for command in 0..=255 {
            let mut chain = chain();
            chain[8] = command;
            let refused = OverflowRead::of(&chain, &report(8, 0x28, 4), 25).err();
            let other = Refusal::Overflow(OverflowRule::FirstOtherCommand);
            let expected = (!taking.contains(&command)).then_some(other);
            assert_eq!(refused, expected);
        }
    }

    #[test]
    fn program_checks_of_the_walk() {
        for (at, byte, check) in [
            (0x0F, 0, ProgramCheck::CountZero),
            (0x0C, 0x84, ProgramCheck::LowFlags),
            (0x0B, 23, ProgramCheck::DataRange),
            (0x24, 0xD9, ProgramCheck::LowFlags),
            (0x20, 0x18, ProgramCheck::TicToTic),
            (0x13, 0x21, ProgramCheck::NotAMultipleOf8),
            (0x12, 1, ProgramCheck::PastTheChain),
            (0x2F, 0, ProgramCheck::CountZero),
            (0x2B, 21, ProgramCheck::DataRange),
        ] {
            let mut chain = chain();
            chain[at] = byte;
            // The last CCW is fetched when the one before has run out.
            for restart in [7, 8] {
                let report = report(restart, 0x28, 12 - restart as u8);
                let refused = OverflowRead::of(&chain, &report, 25).err();
                assert_eq!(refused, Some(Refusal::Walk(check)));
            }
            let behind = at >= 0x28;
            let before = OverflowRead::of(&chain, &report(6, 0x20, 1), 25);
            assert_eq!(before.is_ok(), behind);
        }
    }

    #[test]
    fn what_action_5_alone_asks() {
        let changes: [fn(&mut Report); 6] = [
            |report| report.sense[7] = 0x53,
            |report| report.sense[13] = 255,
            |report| report.sense[18] = 0xFF,
            |report| report.csw[4] = 0,
            |report| report.csw[5] = 0xFF,
            |report| report.mask = Some(1),
        ];
        for change in changes {
            let mut report = report(8, 0x28, 4);
            let expected = read(&report);
            change(&mut report);
            assert_eq!(read(&report), expected);
        }
    }

    /// Round and round, two CCWs a turn.
    #[test]
    fn displacement_of_millions() {
        let ccws = [
            ccw(0x06, 0, 0x80, 150),
            ccw(0x06, 5, 0x90, 50),
            ccw(0x08, 0, 0, 0),
        ];
        for (restart, at, left) in [
            (16_777_149, 0, 1),
            (16_777_150, 8, 50),
            (16_777_199, 8, 1),
            (16_777_200, 0, 150),
            (16_777_215, 0, 135),
        ] {
            let mut report = report(restart, at, left);
            report.first = 0;
            let read = OverflowRead::of(&ccws.concat(), &report, 150).unwrap();
            assert_eq!((read.ccw.at, read.count_left), (at.into(), left.into()));
        }
    }

    #[test]
    fn next_where_it_chains() {
        for (flags, chains) in [(0, false), (0x38, false), (0x40, true), (0x80, true)] {
            let mut chain = chain();
            chain[0x2C] = flags;
            let read = OverflowRead::of(&chain, &report(8, 0x28, 4), 25).unwrap();
            let next = read.next(&chain).map(|next| next.map(|next| next.at));
            assert_eq!((read.chains(), next), (chains, Ok(chains.then_some(0))));
            for (byte, check) in [
                (0x10, ProgramCheck::TicToTic),
                (0x04, ProgramCheck::NotAMultipleOf8),
                (0x38, ProgramCheck::PastTheChain),
            ] {
                chain[0x33] = byte;
                let expected = match chains {
                    true => Err(Refusal::Next(check)),
                    false => Ok(None),
                };
                assert_eq!(read.next(&chain), expected);
            }
            let ended = read.next(&chain[..0x30]).is_err();
            assert_eq!(ended, chains);
        }
    }
}
