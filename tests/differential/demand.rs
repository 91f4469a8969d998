//! Demand 3, asked of a reading: where its provisos are met, it ends like the faultless run, but for
//! one end that is at the restart's 92.

use crate::lendings::GeneratedReading;
use crate::models::model_of;
use crate::simulator::channel::Ccw;
use crate::simulator::check_faults;
use crate::simulator::drive::{
    Done, Drive, UnitCheck, READ_DATA_MULTITRACK, READ_KEY_DATA_MULTITRACK,
};
use crate::simulator::extent::Extent;
use crate::simulator::faults::FaultList;
use crate::simulator::held::RECOVERY_ENTRY;
use crate::simulator::pack::TrackAddress;
use crate::simulator::report::MASK_PCI_FETCH;
use crate::simulator::run::{End, Outcome, Watch};

rules! {
    Proviso {
        // Each faulted track lies in the extent.
        TracksInTheExtent,
        // The others are the faultless run's.
        NoPciFetchMode,
        EndsWithinTheLimit,
        NoProgramCheck,
    }
}

/// The record of a data area.
type Area = (TrackAddress, u8);

/// The last commands of a faultless run.
#[derive(Default)]
pub struct LastTwo {
    /// Code of the last.
    command: u8,
    /// What the last but one took, then what the last took.
    taken: [Option<Area>; 2],
}

impl Watch for LastTwo {
    fn command(
        &mut self,
        ccw: &Ccw,
        _argument: &[u8],
        done: &Result<Done, UnitCheck>,
        _drive: &Drive,
    ) {
        let area = match done {
            Ok(Done::Read(arriving)) => arriving.data_area,
            _ => None,
        };
        self.command = ccw.command;
        self.taken = [self.taken[1], area.map(|area| (area.track, area.number))];
    }
}

impl LastTwo {
    fn takes_data(&self) -> bool {
        [READ_DATA_MULTITRACK, READ_KEY_DATA_MULTITRACK].contains(&self.command)
    }

    fn is_behind_faulted(&self, faults: &FaultList) -> bool {
        self.taken[0].is_some_and(|(track, number)| faults.of(track, number).is_some())
    }

    /// The code of a last command that ends by a step and is no exception for one reason alone: another
    /// code behind a faulted data area, or an 86 or 8E that is not right behind one.
    fn beside(&self, run: &Outcome, faults: &FaultList) -> Option<u8> {
        let End::UnitCheck(ended_by) = run.end else {
            return None;
        };
        let one_reason = self.takes_data() != self.is_behind_faulted(faults);
        (one_reason && ended_by.is_of_a_step()).then_some(self.command)
    }
}

/// "only where the uncut one's last command is an 86 or 8E that ends with End of Cylinder, File
/// Protected, or a step to a track that isn't in the image may address and count left be those of the
/// restart's 92": they are, exactly where the command before it reads a faulted data area.
#[derive(Clone, Copy, Debug)]
pub struct AtReadCount {
    pub ended_by: UnitCheck,
    pub is_masked: bool,
}

impl AtReadCount {
    pub fn of(run: &Outcome, last: &LastTwo, faults: &FaultList) -> Option<AtReadCount> {
        let End::UnitCheck(ended_by) = run.end else {
            return None;
        };
        let is_so = last.takes_data() && last.is_behind_faulted(faults) && ended_by.is_of_a_step();
        is_so.then_some(AtReadCount {
            ended_by,
            is_masked: run.mask.is_some(),
        })
    }

    /// The CSW of the whole reading: the 92 stands at 1020, behind a mask at 1028, and its count is 8.
    fn csw(self, [.., unit, channel, _, _]: [u8; 8]) -> [u8; 8] {
        let behind = if self.is_masked { 0x30 } else { 0x28 };
        [0, 0, 0x10, behind, unit, channel, 0, 8]
    }
}

/// The CSW of a reading whose faultless run has this one.
pub fn csw_of_reading(csw: [u8; 8], at_read_count: Option<AtReadCount>) -> [u8; 8] {
    at_read_count.map_or(csw, |at_read_count| at_read_count.csw(csw))
}

/// A faultless run that meets the provisos.
#[derive(Debug)]
pub struct Faultless {
    extent: Extent,
    /// Of the reading.
    csw: [u8; 8],
    pub at_read_count: Option<AtReadCount>,
    /// Of a last command that is nearly an exception.
    pub beside_read_count: Option<u8>,
    storage: Vec<u8>,
    /// The faulted data areas that it reads, in order.
    areas: Vec<Area>,
}

/// What a reading left, in the library's byte forms.
#[derive(Clone, Copy)]
pub struct Left<'a> {
    /// Neither as "limit" nor as "stopped".
    pub ended: bool,
    pub storage: &'a [u8],
    /// Of the last restart, which those before it are written over by; none where none was built.
    pub restart_arguments: Option<&'a [u8]>,
    pub list: &'a [u8],
    pub answer: &'a [u8],
}

impl Faultless {
    /// Of a reading that is not refused; or the first proviso that is not met.
    pub fn of(reading: &GeneratedReading) -> Result<Faultless, Proviso> {
        let lent = check_faults(reading.model, &reading.image, &reading.faults);
        let (_, faults) = lent.expect("questions 2 and 3 were answered yes");
        let extent = Extent::decode(&reading.extent, model_of(reading.model));
        let extent = extent.expect("question 5 was answered yes");
        if !faults.iter().all(|fault| extent.contains(fault.track)) {
            return Err(Proviso::TracksInTheExtent);
        }
        let mut storage = reading.storage.clone();
        let mut last = LastTwo::default();
        let run = reading.faultless(&mut storage, &mut last);
        let run = run.expect("question 1 was answered yes");
        if run.mask.unwrap_or(0) & MASK_PCI_FETCH != 0 {
            return Err(Proviso::NoPciFetchMode);
        }
        match run.end {
            End::Limit => Err(Proviso::EndsWithinTheLimit),
            End::ProgramCheck(_) => Err(Proviso::NoProgramCheck),
            _ => {
                let at_read_count = AtReadCount::of(&run, &last, &faults);
                Ok(Faultless {
                    extent,
                    csw: csw_of_reading(run.csw, at_read_count),
                    at_read_count,
                    beside_read_count: last.beside(&run, &faults),
                    storage,
                    areas: faulted_areas(&run, &faults),
                })
            }
        }
    }

    /// What the reading did otherwise.
    pub fn otherwise(&self, left: Left) -> Option<&'static str> {
        let (csw, rest) = left.answer.split_at(8);
        let made = usize::from(u16::from_be_bytes([rest[0], rest[1]]));
        let named = left.list.chunks(RECOVERY_ENTRY).take(made).map(record);
        let seek = left.restart_arguments.map(|arguments| &arguments[..6]);
        if !left.ended {
            Some("it does not end")
        } else if csw != self.csw {
            Some("its CSW is not that of the faultless run, nor of a restart's 92 where it must be")
        } else if left.storage != self.storage {
            Some("storage is not as the faultless run leaves it")
        } else if !named.eq(self.areas.iter().copied()) {
            Some("its recoveries are not the faulted data areas")
        } else if seek.is_some_and(|seek| !self.is_inside(seek)) {
            Some("its last restart seeks outside the extent")
        } else {
            None
        }
    }

    fn is_inside(&self, seek: &[u8]) -> bool {
        let (zeros, track) = seek.split_at(2);
        zeros == [0, 0] && self.extent.contains(TrackAddress::decode(track))
    }
}

/// Each time a read takes the data area of a record that the list names, even if it stores no byte.
fn faulted_areas(run: &Outcome, faults: &FaultList) -> Vec<Area> {
    let taken = run.taken.iter().map(|area| (area.track, area.number));
    taken
        .filter(|&(track, number)| faults.of(track, number).is_some())
        .collect()
}

/// The record of a list's entry.
fn record(entry: &[u8]) -> Area {
    (TrackAddress::decode(&entry[1..5]), entry[5])
}

#[cfg(test)]
mod tests {
    use super::*;
    use crate::simulator::encode::ccw;
    use crate::simulator::sample;

    fn reading() -> GeneratedReading {
        GeneratedReading {
            storage: vec![0; 8],
            limit: 5,
            ..sample::reading()
        }
    }

    const ANSWER: [u8; 11] = [0, 0, 0, 0x28, 0x0C, 0, 0, 0, 0, 1, 0];
    const STORAGE: [u8; 8] = [0xC1, 0xC2, 0xC3, 0xC4, 0xD1, 0xD2, 0xD3, 0xD4];
    const LIST: [u8; 12] = [0x15, 0, 0, 0, 1, 1, 9, 9, 9, 9, 9, 9];
    const LEFT: Left = Left {
        ended: true,
        storage: &STORAGE,
        restart_arguments: Some(&[0, 0, 0, 0, 0, 1, 0, 0]),
        list: &LIST,
        answer: &ANSWER,
    };

    #[test]
    fn sample_is_as_demanded() {
        assert_eq!(Faultless::of(&reading()).unwrap().otherwise(LEFT), None);
    }

    #[test]
    fn each_part_is_asked_for() {
        let faultless = Faultless::of(&reading()).unwrap();
        let other_csw = [0, 0, 0, 0x28, 0x0E, 0, 0, 0, 0, 1, 0];
        let none_made = [0, 0, 0, 0x28, 0x0C, 0, 0, 0, 0, 0, 0];
        let two_made = [0, 0, 0, 0x28, 0x0C, 0, 0, 0, 0, 2, 0];
        for (left, part) in [
            (
                Left {
                    ended: false,
                    ..LEFT
                },
                "it does not end",
            ),
            (
                Left {
                    answer: &other_csw,
                    ..LEFT
                },
                "its CSW",
            ),
            (
                Left {
                    storage: &STORAGE[..7],
                    ..LEFT
                },
                "storage",
            ),
            (
                Left {
                    answer: &none_made,
                    ..LEFT
                },
                "its recoveries",
            ),
            (
                Left {
                    answer: &two_made,
                    ..LEFT
                },
                "its recoveries",
            ),
            (
                Left {
                    list: &[0x15, 0, 0, 0, 1, 2],
                    ..LEFT
                },
                "its recoveries",
            ),
            (
                Left {
                    list: &[0x15, 0, 0, 0, 2, 1],
                    ..LEFT
                },
                "its recoveries",
            ),
            (
                Left {
                    restart_arguments: Some(&[0, 0, 0, 0, 0, 2]),
                    ..LEFT
                },
                "its last restart",
            ),
            (
                Left {
                    restart_arguments: Some(&[0, 1, 0, 0, 0, 1]),
                    ..LEFT
                },
                "its last restart",
            ),
        ] {
            let otherwise = faultless.otherwise(left);
            assert!(
                otherwise.is_some_and(|told| told.starts_with(part)),
                "{part}"
            );
        }
    }

    /// Whether the sample ends at the restart's 92, and with which CSW, where this R is faulted and the
    /// seek is followed by a mask and by reads of R1 and R2 and one behind them.
    fn end_behind(faulted: u8, mask: Option<u8>, command: u8) -> (bool, [u8; 8]) {
        let mut reading = reading();
        reading.faults[7] = faulted;
        reading.chain.truncate(8);
        if let Some(mask) = mask {
            reading.chain.extend(ccw(0x1F, 11, 0x40, 1));
            reading.arguments.push(mask);
        }
        for command in [0x06, 0x06, command] {
            reading.chain.extend(ccw(command, 0, 0x40, 4));
        }
        let faultless = Faultless::of(&reading).unwrap();
        (faultless.at_read_count.is_some(), faultless.csw)
    }

    #[test]
    fn ends_at_the_restarts_92() {
        for command in [0x86, 0x8E] {
            let no_mask = (true, [0, 0, 0x10, 0x28, 0x0E, 0, 0, 8]);
            assert_eq!(end_behind(2, None, command), no_mask);
            for mask in [0x00, 0x18, 0xC0] {
                let masked = (true, [0, 0, 0x10, 0x30, 0x0E, 0, 0, 8]);
                assert_eq!(end_behind(2, Some(mask), command), masked);
            }
        }
    }

    #[test]
    fn ends_in_the_chain() {
        let in_the_chain = (false, [0, 0, 0, 0x20, 0x0E, 0, 0, 4]);
        // No 86 or 8E; no step; no faulted data area before it.
        for (faulted, command) in [(2, 0x92), (2, 0x9E), (2, 0x0F), (1, 0x86)] {
            assert_eq!(end_behind(faulted, None, command), in_the_chain);
        }
    }

    #[test]
    fn each_proviso() {
        let changes: [(fn(&mut GeneratedReading), Proviso); 4] = [
            (
                |reading| reading.extent = vec![0, 0, 0, 2, 0, 0, 0, 3],
                Proviso::TracksInTheExtent,
            ),
            (
                |reading| {
                    reading.chain[..8].copy_from_slice(&[0x1F, 0, 0, 5, 0, 0, 0, 1]);
                },
                Proviso::NoPciFetchMode,
            ),
            (|reading| reading.limit = 4, Proviso::EndsWithinTheLimit),
            (
                |reading| reading.storage.truncate(7),
                Proviso::NoProgramCheck,
            ),
        ];
        for (change, proviso) in changes {
            let mut changed = reading();
            change(&mut changed);
            assert_eq!(Faultless::of(&changed).err(), Some(proviso));
        }
    }
}
