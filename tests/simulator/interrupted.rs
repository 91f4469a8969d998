//! Question 9 for actions 8, 10 and 10A: the user's seek argument, the CCW that was interrupted and, for
//! 10A, the head reached. 9 asks for the seek argument too, and 11 for it and the head.

use super::channel::{Ccw, Channel, Program, CCW_LENGTH, FLAG_CHAIN_COMMAND};
use super::drive::SEEK;
use super::model::Model;
use super::pack::{TrackAddress, LAST_HEAD};
use super::report::Report;
use super::Refusal;

rules! {
    /// What does not agree, besides a next CCW that is not there.
    InterruptedRule {
        NoSeekArgument,
        SeekNotZero,
        SeekOffThePack,
        NotInTheChain,
        Tic,
        SeekWithoutCc,
        // In sense 6, for 10A and 11.
        HeadAboveLast,
    }
}

#[derive(Clone, Copy, Debug, PartialEq, Eq)]
pub struct Interrupted {
    pub ccw: Ccw,
    /// The user's seek argument.
    pub track: TrackAddress,
}

impl Interrupted {
    /// Asks all that 8, 10 and 10A have in common.
    pub fn of(chain: &[u8], report: &Report, model: Model) -> Result<Interrupted, Refusal> {
        let track = sought(report, model).map_err(Refusal::Interrupted)?;
        let ccw = interrupted_ccw(chain, report).map_err(Refusal::Interrupted)?;
        Ok(Interrupted { ccw, track })
    }

    pub fn is_seek(&self) -> bool {
        self.ccw.command == SEEK
    }

    /// What 10A asks besides; the track that the drive had come to, of the cylinder that the user sought.
    pub fn track_reached(&self, report: &Report) -> Result<TrackAddress, Refusal> {
        track_reached(self.track, report)
    }

    /// What 10 asks besides, of a seek; the next CCW.
    pub fn next_of_seek(&self, chain: &[u8]) -> Result<Ccw, Refusal> {
        if !self.ccw.has(FLAG_CHAIN_COMMAND) {
            return Err(Refusal::Interrupted(InterruptedRule::SeekWithoutCc));
        }
        next_command(chain, self.ccw.behind())
    }
}

/// The head reached, of the cylinder that the user sought.
pub fn track_reached(sought: TrackAddress, report: &Report) -> Result<TrackAddress, Refusal> {
    let head = report.head_reached();
    if head > LAST_HEAD {
        return Err(Refusal::Interrupted(InterruptedRule::HeadAboveLast));
    }
    Ok(TrackAddress { head, ..sought })
}

/// The track of the user's seek argument.
pub fn sought(report: &Report, model: Model) -> Result<TrackAddress, InterruptedRule> {
    let argument = report.seek_argument;
    let argument = argument.ok_or(InterruptedRule::NoSeekArgument)?;
    let (zeros, address) = argument.split_at(2);
    if zeros != [0, 0] {
        return Err(InterruptedRule::SeekNotZero);
    }
    let track = TrackAddress::decode(address);
    if !track.on_pack(model) {
        return Err(InterruptedRule::SeekOffThePack);
    }
    Ok(track)
}

fn interrupted_ccw(chain: &[u8], report: &Report) -> Result<Ccw, InterruptedRule> {
    let at = report.address().checked_sub(CCW_LENGTH);
    let ccw = at.and_then(|at| channel(chain).fetch_one(at).ok());
    let ccw = ccw.ok_or(InterruptedRule::NotInTheChain)?;
    if ccw.is_tic() {
        return Err(InterruptedRule::Tic);
    }
    Ok(ccw)
}

/// The user's next non-TIC CCW.
pub fn next_command(chain: &[u8], at: usize) -> Result<Ccw, Refusal> {
    channel(chain).fetch_unchecked(at).map_err(Refusal::Next)
}

fn channel(chain: &[u8]) -> Channel<'_> {
    Channel::new(Program::of_chain(chain), 0)
}

/// Head 0 of the next cylinder.
pub fn next_cylinder(track: TrackAddress) -> TrackAddress {
    TrackAddress {
        cylinder: track.cylinder + 1,
        head: 0,
    }
}

/// Head 18 carries.
pub fn next_track(track: TrackAddress) -> TrackAddress {
    if track.head < LAST_HEAD {
        TrackAddress {
            head: track.head + 1,
            ..track
        }
    } else {
        next_cylinder(track)
    }
}

#[cfg(test)]
mod tests {
    use super::*;
    use crate::simulator::channel::ProgramCheck;
    use crate::simulator::encode::ccw;

    fn chain() -> Vec<u8> {
        [
            ccw(0x07, 0, 0x40, 6),
            ccw(0x08, 0x18, 0, 0),
            ccw(0x07, 0, 0, 6),
            ccw(0x31, 0, 0x07, 0),
        ]
        .concat()
    }

    fn report(address: u8) -> Report {
        Report {
            csw: [0, 0, 0, address, 0x0E, 0, 0, 0],
            first: 0xFFFF,
            seek_argument: Some([0, 0, 1, 0x9A, 0, 18]),
            ..Report::default()
        }
    }

    fn interrupted(report: &Report) -> Result<Interrupted, InterruptedRule> {
        interrupted_on(Model::One, report)
    }

    fn interrupted_on(model: Model, report: &Report) -> Result<Interrupted, InterruptedRule> {
        Interrupted::of(&chain(), report, model).map_err(|refusal| match refusal {
            Refusal::Interrupted(rule) => rule,
            _ => panic!("another question"),
        })
    }

    fn track(cylinder: u16, head: u16) -> TrackAddress {
        TrackAddress { cylinder, head }
    }

    #[test]
    fn ccw_8_below_the_address() {
        for (address, at, is_seek) in [(8, 0, true), (0x18, 0x10, true), (0x20, 0x18, false)] {
            let found = interrupted(&report(address)).unwrap();
            assert_eq!((found.ccw.at, found.is_seek()), (at, is_seek));
            assert_eq!(found.track, track(410, 18));
        }
    }

    #[test]
    fn not_in_the_chain() {
        for address in [0, 1, 7, 9, 0x0C, 0x28, 0xFF] {
            let refused = interrupted(&report(address));
            assert_eq!(refused, Err(InterruptedRule::NotInTheChain));
        }
        let mut far = report(8);
        far.csw[1] = 1;
        assert_eq!(interrupted(&far), Err(InterruptedRule::NotInTheChain));
        assert_eq!(interrupted(&report(0x10)), Err(InterruptedRule::Tic));
    }

    #[test]
    fn seek_argument() {
        let rule = |argument| {
            let mut report = report(8);
            report.seek_argument = argument;
            interrupted(&report).err()
        };
        assert_eq!(rule(None), Some(InterruptedRule::NoSeekArgument));
        for at in 0..2 {
            let mut argument = [0; 6];
            argument[at] = 1;
            assert_eq!(rule(Some(argument)), Some(InterruptedRule::SeekNotZero));
        }
        for off in [[1, 0x9B, 0, 0], [0, 0, 0, 19], [0, 0, 1, 0], [2, 0, 0, 0]] {
            let [c0, c1, h0, h1] = off;
            let argument = Some([0, 0, c0, c1, h0, h1]);
            assert_eq!(rule(argument), Some(InterruptedRule::SeekOffThePack));
        }
        assert_eq!(rule(Some([0; 6])), None);
    }

    #[test]
    fn seek_argument_on_each_model() {
        let off = Err(InterruptedRule::SeekOffThePack);
        for (cylinder, one, eleven) in [
            (410, Ok(410), Ok(410)),
            (411, off, Ok(411)),
            (814, off, Ok(814)),
            (815, off, off),
        ] {
            let [c0, c1] = u16::to_be_bytes(cylinder);
            let report = Report {
                seek_argument: Some([0, 0, c0, c1, 0, 18]),
                ..report(8)
            };
            for (model, expected) in [(Model::One, one), (Model::Eleven, eleven)] {
                let found = interrupted_on(model, &report);
                assert_eq!(found.map(|found| found.track.cylinder), expected);
            }
        }
    }

    #[test]
    fn head_reached() {
        let found = interrupted(&report(0x20)).unwrap();
        for sense_6 in 0..=255 {
            let mut report = report(0x20);
            report.sense[6] = sense_6;
            let expected = match sense_6 & 0x1F {
                head @ 0..=18 => Ok(track(410, head.into())),
                _ => Err(Refusal::Interrupted(InterruptedRule::HeadAboveLast)),
            };
            assert_eq!(found.track_reached(&report), expected);
            // Nothing but 10A asks for it.
            assert_eq!(interrupted(&report), Ok(found));
        }
    }

    #[test]
    fn next_of_a_seek() {
        let next = |address| {
            let found = interrupted(&report(address)).unwrap();
            found.next_of_seek(&chain()).map(|next| next.at)
        };
        assert_eq!(next(8), Ok(0x18));
        let no_cc = Refusal::Interrupted(InterruptedRule::SeekWithoutCc);
        assert_eq!(next(0x18), Err(no_cc));
    }

    #[test]
    fn next_command_through_a_tic() {
        assert_eq!(next_command(&chain(), 8).map(|next| next.at), Ok(0x18));
        assert_eq!(next_command(&chain(), 0x10).map(|next| next.at), Ok(0x10));
        for (at, byte, check) in [
            (0x18, 0xF8, ProgramCheck::TicToTic),
            (0x0B, 0x1C, ProgramCheck::NotAMultipleOf8),
            (0x0B, 0x20, ProgramCheck::PastTheChain),
        ] {
            let mut chain = chain();
            chain[at] = byte;
            assert_eq!(next_command(&chain, 8), Err(Refusal::Next(check)));
        }
        let past = Refusal::Next(ProgramCheck::PastTheChain);
        assert_eq!(next_command(&chain(), 0x20), Err(past));
    }

    #[test]
    fn tracks_behind() {
        assert_eq!(next_cylinder(track(8, 18)), track(9, 0));
        assert_eq!(next_cylinder(track(410, 0)), track(411, 0));
        assert_eq!(next_track(track(8, 17)), track(8, 18));
        assert_eq!(next_track(track(8, 18)), track(9, 0));
        assert_eq!(next_track(track(410, 18)), track(411, 0));
        assert_eq!(next_cylinder(track(814, 3)), track(815, 0));
        assert_eq!(next_track(track(814, 18)), track(815, 0));
    }
}
