//! The drive: one command at one place of one track, or of a head behind it; sense.

use super::encode;
use super::faults::{Fault, FaultList};
use super::model::Model;
use super::pack::{Pack, Record, TrackAddress, LAST_HEAD};
use std::borrow::Cow;

pub const NO_OPERATION: u8 = 0x03;
pub const SEEK: u8 = 0x07;
pub const SET_FILE_MASK: u8 = 0x1F;
pub const SET_SECTOR: u8 = 0x23;
pub const SEARCH_ID_EQUAL: u8 = 0x31;
pub const READ_DATA: u8 = 0x06;
pub const READ_KEY_DATA: u8 = 0x0E;
pub const READ_COUNT: u8 = 0x12;
pub const READ_COUNT_KEY_DATA: u8 = 0x1E;
pub const READ_HOME_ADDRESS: u8 = 0x1A;

// Multitrack forms of a search and of four reads.
pub const SEARCH_ID_EQUAL_MULTITRACK: u8 = 0xB1;
pub const READ_DATA_MULTITRACK: u8 = 0x86;
pub const READ_KEY_DATA_MULTITRACK: u8 = 0x8E;
pub const READ_COUNT_MULTITRACK: u8 = 0x92;
pub const READ_COUNT_KEY_DATA_MULTITRACK: u8 = 0x9E;

/// Those that take a record's data area.
pub const TAKING_DATA: [u8; 6] = [
    READ_DATA,
    READ_KEY_DATA,
    READ_COUNT_KEY_DATA,
    READ_DATA_MULTITRACK,
    READ_KEY_DATA_MULTITRACK,
    READ_COUNT_KEY_DATA_MULTITRACK,
];

/// The single-track form of a multitrack command; every other code is its own.
pub fn single_track(command: u8) -> u8 {
    match command {
        SEARCH_ID_EQUAL_MULTITRACK => SEARCH_ID_EQUAL,
        READ_DATA_MULTITRACK => READ_DATA,
        READ_KEY_DATA_MULTITRACK => READ_KEY_DATA,
        READ_COUNT_MULTITRACK => READ_COUNT,
        READ_COUNT_KEY_DATA_MULTITRACK => READ_COUNT_KEY_DATA,
        _ => command,
    }
}

pub fn is_multitrack(command: u8) -> bool {
    single_track(command) != command
}

/// Bits 3 and 4: any of them inhibits a seek, both a step.
pub const MASK_SEEK_INHIBITED: u8 = 0x18;
/// Bits 2, 5 and 6.
pub const MASK_REJECTED: u8 = 0x26;

pub const LAST_SECTOR: u8 = 127;
pub const NO_SECTOR: u8 = 255;

/// What the CCW of a command names.
#[derive(Clone, Copy, Debug, PartialEq, Eq)]
pub enum Operand {
    Nothing,
    Argument,
    Storage,
}

impl Operand {
    pub fn of(command: u8) -> Operand {
        match single_track(command) {
            SEEK | SET_FILE_MASK | SET_SECTOR | SEARCH_ID_EQUAL => Operand::Argument,
            READ_DATA | READ_KEY_DATA | READ_COUNT | READ_COUNT_KEY_DATA | READ_HOME_ADDRESS => {
                Operand::Storage
            }
            _ => Operand::Nothing,
        }
    }
}

rules! {
    RejectRule {
        OtherCommand,
        WrongCount,
        ChainedData,
        SecondMask,
        MaskBits,
        Sector,
        SeekOffThePack,
        SeekNotZero,
    }
}

rules! {
    NotFoundRule {
        TrackNotInImage,
        IndexPassedTwice,
        R0Alone,
        // A step led there.
        NextHeadNotInImage,
    }
}

rules! {
    /// What the file mask forbids.
    ProtectedRule {
        Seek,
        Step,
    }
}

/// The unit checks found before anything moves.
#[derive(Clone, Copy, Debug, PartialEq, Eq, PartialOrd, Ord)]
pub enum UnitCheck {
    Reject(RejectRule),
    FileProtected(ProtectedRule),
    NoRecordFound(NotFoundRule),
    /// There is no head behind.
    EndOfCylinder,
}

pub type Sense = [u8; 24];

impl UnitCheck {
    pub fn all() -> Vec<UnitCheck> {
        let rejects = RejectRule::ALL.iter().copied().map(UnitCheck::Reject);
        let not_found = NotFoundRule::ALL.iter().copied();
        let protected = ProtectedRule::ALL.iter().copied();
        rejects
            .chain(not_found.map(UnitCheck::NoRecordFound))
            .chain(protected.map(UnitCheck::FileProtected))
            .chain([UnitCheck::EndOfCylinder])
            .collect()
    }

    /// One bit, and for a protected step the head that the drive stands on.
    pub fn sense(self, head: u16) -> Sense {
        let mut sense = [0; 24];
        match self {
            UnitCheck::Reject(_) => sense[0] = 0x80,
            UnitCheck::EndOfCylinder => sense[1] = 0x20,
            UnitCheck::NoRecordFound(_) => sense[1] = 0x08,
            UnitCheck::FileProtected(ProtectedRule::Seek) => sense[1] = 0x04,
            UnitCheck::FileProtected(ProtectedRule::Step) => {
                sense[1] = 0x04;
                sense[6] = head as u8;
            }
        }
        sense
    }

    /// Whether a step to the next head ended the command.
    pub fn is_of_a_step(self) -> bool {
        matches!(
            self,
            UnitCheck::EndOfCylinder
                | UnitCheck::FileProtected(ProtectedRule::Step)
                | UnitCheck::NoRecordFound(NotFoundRule::NextHeadNotInImage)
        )
    }
}

/// Sense of a faulted data area. The restart displacement is the length of the whole read;
/// `bytes_left_over` tells whether the count ran out before its end.
pub fn data_check_sense(
    fault: &Fault,
    restart_displacement: usize,
    bytes_left_over: bool,
) -> Sense {
    let mut sense = [0; 24];
    sense[0] = 0x08;
    sense[2] = 0x40;
    sense[7] = 0x53;
    sense[8..12].copy_from_slice(&encode::track_address(fault.track));
    sense[12] = fault.number;
    sense[15..18].copy_from_slice(&(restart_displacement as u32).to_be_bytes()[1..]);
    sense[18..20].copy_from_slice(&fault.error_displacement.to_be_bytes());
    sense[20..23].copy_from_slice(&fault.pattern);
    sense[23] = bytes_left_over.into();
    sense
}

/// The data area of a record that a read takes.
#[derive(Clone, Copy, Debug)]
pub struct DataArea<'d> {
    pub track: TrackAddress,
    pub number: u8,
    pub fault: Option<&'d Fault>,
}

/// What a read takes, in the order and as it arrives.
#[derive(Debug)]
pub struct Arriving<'d> {
    /// Count area or home address.
    front: Cow<'d, [u8]>,
    key: &'d [u8],
    data: Cow<'d, [u8]>,
    /// None in 12, 92 and 1A.
    pub data_area: Option<DataArea<'d>>,
}

impl<'d> Arriving<'d> {
    fn nothing() -> Arriving<'d> {
        Arriving {
            front: Cow::Borrowed(&[]),
            key: &[],
            data: Cow::Borrowed(&[]),
            data_area: None,
        }
    }

    pub fn length(&self) -> usize {
        self.data_start() + self.data.len()
    }

    /// Place of the first data byte, from the front of the read.
    pub fn data_start(&self) -> usize {
        self.front.len() + self.key.len()
    }

    /// Whether a data area was taken that has no bytes.
    pub fn is_unit_exception(&self) -> bool {
        self.data_area.is_some() && self.data.is_empty()
    }

    /// Copies from `from` on, counted from the front of the read, until `out` is full.
    pub fn copy_to(&self, mut from: usize, mut out: &mut [u8]) {
        for part in [&*self.front, self.key, &*self.data] {
            let Some(part) = part.get(from..) else {
                from -= part.len();
                continue;
            };
            let (filled, rest) = out.split_at_mut(part.len().min(out.len()));
            filled.copy_from_slice(&part[..filled.len()]);
            out = rest;
            from = 0;
        }
    }
}

/// Pattern byte i belongs to data length minus displacement plus i, where that is inside.
fn arrived(data: &[u8], fault: &Fault) -> Vec<u8> {
    let mut arrived = data.to_vec();
    let first = data.len() - usize::from(fault.error_displacement);
    for (byte, pattern) in arrived[first..].iter_mut().zip(fault.pattern) {
        *byte ^= pattern;
    }
    arrived
}

/// What a command did.
pub enum Done<'d> {
    Control,
    Search { equal: bool },
    Read(Arriving<'d>),
}

#[derive(Clone)]
pub struct Drive<'a> {
    pack: &'a Pack<'a>,
    faults: &'a FaultList,
    model: Model,
    track: TrackAddress,
    /// Of the track, R0 first; none where it is not in the image.
    records: Option<&'a [Record<'a>]>,
    /// Place on the track of the record that the last search or read was at; none at the index.
    place: Option<usize>,
    /// Whether the count area at `place` is what the last command passed.
    just_passed: bool,
    /// By searches, since the last control, read or equal search.
    index_passes: u8,
    /// Made by the last command, to tracks of the image.
    steps: usize,
    mask: Option<u8>,
}

impl<'a> Drive<'a> {
    pub fn new(pack: &'a Pack<'a>, faults: &'a FaultList, model: Model) -> Drive<'a> {
        let track = TrackAddress {
            cylinder: 0,
            head: 0,
        };
        Drive {
            pack,
            faults,
            model,
            track,
            records: pack.track(track),
            place: None,
            just_passed: false,
            index_passes: 0,
            steps: 0,
            mask: None,
        }
    }

    /// None where no mask was set.
    pub fn mask(&self) -> Option<u8> {
        self.mask
    }

    pub fn track(&self) -> TrackAddress {
        self.track
    }

    pub fn pack(&self) -> &'a Pack<'a> {
        self.pack
    }

    pub fn is_at_index(&self) -> bool {
        self.place.is_none()
    }

    /// Whether the track has no record behind the drive's place.
    pub fn is_behind_last(&self) -> bool {
        self.records
            .is_some_and(|records| self.behind() >= records.len())
    }

    pub fn index_passes(&self) -> u8 {
        self.index_passes
    }

    /// The record whose count area was just passed.
    pub fn passed(&self) -> Option<&'a Record<'a>> {
        let place = self.place.filter(|_| self.just_passed)?;
        self.records?.get(place)
    }

    /// Steps that the last command made, to tracks of the image.
    pub fn steps(&self) -> usize {
        self.steps
    }

    /// Carries out a command. The argument is as long as the CCW's count, and empty in a read.
    pub fn execute(
        &mut self,
        command: u8,
        argument: &[u8],
        chained_data: bool,
    ) -> Result<Done<'a>, UnitCheck> {
        self.steps = 0;
        check_form(command, argument, chained_data).map_err(UnitCheck::Reject)?;
        let form = single_track(command);
        if is_multitrack(command) {
            self.step_on(form)?;
        }
        match form {
            SEARCH_ID_EQUAL => self.search(argument).map(|equal| Done::Search { equal }),
            READ_HOME_ADDRESS => self.read_home_address().map(Done::Read),
            READ_COUNT => self.read_count().map(Done::Read),
            READ_DATA | READ_KEY_DATA | READ_COUNT_KEY_DATA => self.read_data(form).map(Done::Read),
            _ => self.control(form, argument).map(|()| Done::Control),
        }
    }

    /// Whether a multitrack command would end on its way to what it searches or reads.
    pub fn step_fails(&self, command: u8) -> bool {
        is_multitrack(command) && self.clone().step_on(single_track(command)).is_err()
    }

    /// "Where the single-track form would pass the index, these step to the next head": a read until
    /// a record other than R0 is ahead, a search once, since R0 is on every track.
    fn step_on(&mut self, form: u8) -> Result<(), UnitCheck> {
        self.records()?;
        while self.passes_index(form) {
            self.step()?;
        }
        Ok(())
    }

    /// Whether a single-track search or read would pass the index. Leaving it is no pass.
    fn passes_index(&self, form: u8) -> bool {
        let ahead = match form {
            SEARCH_ID_EQUAL => self.place.map_or(0, |place| place + 1),
            _ if self.takes_passed(form) => return false,
            _ => self.behind(),
        };
        self.records.is_some_and(|records| ahead >= records.len())
    }

    /// To the index of the next head. "Past head 18 they end with End of Cylinder (1.2) under any
    /// mask; before it, mask bits 3 and 4 at 11 make the step File Protected".
    fn step(&mut self) -> Result<(), UnitCheck> {
        if self.track.head == LAST_HEAD {
            return Err(UnitCheck::EndOfCylinder);
        }
        if self.mask.unwrap_or(0) & MASK_SEEK_INHIBITED == MASK_SEEK_INHIBITED {
            return Err(UnitCheck::FileProtected(ProtectedRule::Step));
        }
        self.to_track(TrackAddress {
            head: self.track.head + 1,
            ..self.track
        });
        self.to_index();
        if self.records.is_none() {
            return Err(UnitCheck::NoRecordFound(NotFoundRule::NextHeadNotInImage));
        }
        self.steps += 1;
        Ok(())
    }

    fn to_track(&mut self, track: TrackAddress) {
        self.track = track;
        self.records = self.pack.track(track);
    }

    fn control(&mut self, command: u8, argument: &[u8]) -> Result<(), UnitCheck> {
        match command {
            SEEK => self.seek(argument)?,
            SET_FILE_MASK => self.set_file_mask(argument[0]).map_err(UnitCheck::Reject)?,
            SET_SECTOR if (LAST_SECTOR + 1..NO_SECTOR).contains(&argument[0]) => {
                return Err(UnitCheck::Reject(RejectRule::Sector));
            }
            _ => (),
        }
        self.to_index();
        Ok(())
    }

    fn seek(&mut self, argument: &[u8]) -> Result<(), UnitCheck> {
        let (zeros, address) = argument.split_at(2);
        let track = TrackAddress::decode(address);
        if !track.on_pack(self.model) {
            return Err(UnitCheck::Reject(RejectRule::SeekOffThePack));
        }
        if zeros != [0, 0] {
            return Err(UnitCheck::Reject(RejectRule::SeekNotZero));
        }
        if self.mask.unwrap_or(0) & MASK_SEEK_INHIBITED != 0 {
            return Err(UnitCheck::FileProtected(ProtectedRule::Seek));
        }
        self.to_track(track);
        Ok(())
    }

    fn set_file_mask(&mut self, mask: u8) -> Result<(), RejectRule> {
        if self.mask.is_some() {
            return Err(RejectRule::SecondMask);
        }
        if mask & MASK_REJECTED != 0 {
            return Err(RejectRule::MaskBits);
        }
        self.mask = Some(mask);
        Ok(())
    }

    /// Whether the next count area has the ID asked for.
    fn search(&mut self, id: &[u8]) -> Result<bool, UnitCheck> {
        let records = self.records()?;
        let mut place = self.place.map_or(0, |place| place + 1);
        if place == records.len() {
            if self.index_passes == 1 {
                return Err(UnitCheck::NoRecordFound(NotFoundRule::IndexPassedTwice));
            }
            place = 0;
            self.index_passes += 1;
        }
        let equal = records[place].count_area.starts_with(id);
        if equal {
            self.index_passes = 0;
        }
        self.place = Some(place);
        self.just_passed = true;
        Ok(equal)
    }

    fn read_home_address(&mut self) -> Result<Arriving<'a>, UnitCheck> {
        self.records()?;
        self.to_index();
        Ok(Arriving {
            front: Cow::Owned(encode::home_address(self.track).to_vec()),
            ..Arriving::nothing()
        })
    }

    fn read_count(&mut self) -> Result<Arriving<'a>, UnitCheck> {
        let (place, record) = self.next_record()?;
        self.read_at(place);
        self.just_passed = true;
        Ok(Arriving {
            front: Cow::Borrowed(record.count_area),
            ..Arriving::nothing()
        })
    }

    /// Whether a 06 or 0E takes the record whose count area was just passed.
    fn takes_passed(&self, form: u8) -> bool {
        self.just_passed && [READ_DATA, READ_KEY_DATA].contains(&form)
    }

    fn read_data(&mut self, form: u8) -> Result<Arriving<'a>, UnitCheck> {
        let (place, record) = match self.place {
            Some(place) if self.takes_passed(form) => (place, &self.records()?[place]),
            _ => self.next_record()?,
        };
        self.read_at(place);
        let mut arriving = Arriving::nothing();
        if form == READ_COUNT_KEY_DATA {
            arriving.front = Cow::Borrowed(record.count_area);
        }
        if form != READ_DATA {
            arriving.key = record.key;
        }
        let fault = self.faults.of(self.track, record.number());
        arriving.data = match fault {
            Some(fault) => Cow::Owned(arrived(record.data, fault)),
            None => Cow::Borrowed(record.data),
        };
        arriving.data_area = Some(DataArea {
            track: self.track,
            number: record.number(),
            fault,
        });
        Ok(arriving)
    }

    /// The next record other than R0 and its place, round the track if need be.
    fn next_record(&self) -> Result<(usize, &'a Record<'a>), UnitCheck> {
        let records = self.records()?;
        let behind = self.behind();
        let place = if behind < records.len() { behind } else { 1 };
        let record = records.get(place);
        record
            .map(|record| (place, record))
            .ok_or(UnitCheck::NoRecordFound(NotFoundRule::R0Alone))
    }

    /// The place behind the drive's, R0's left out.
    fn behind(&self) -> usize {
        self.place.map_or(1, |place| place + 1)
    }

    fn records(&self) -> Result<&'a [Record<'a>], UnitCheck> {
        self.records
            .ok_or(UnitCheck::NoRecordFound(NotFoundRule::TrackNotInImage))
    }

    fn to_index(&mut self) {
        self.place = None;
        self.just_passed = false;
        self.index_passes = 0;
    }

    /// Behind the record that a read took.
    fn read_at(&mut self, place: usize) {
        self.place = Some(place);
        self.just_passed = false;
        self.index_passes = 0;
    }
}

/// What is rejected whatever the argument says.
fn check_form(command: u8, argument: &[u8], chained_data: bool) -> Result<(), RejectRule> {
    let right_count = match single_track(command) {
        NO_OPERATION => argument.len(),
        SEEK => 6,
        SET_FILE_MASK | SET_SECTOR => 1,
        SEARCH_ID_EQUAL => 5,
        _ => {
            return match Operand::of(command) {
                Operand::Storage => Ok(()),
                _ => Err(RejectRule::OtherCommand),
            }
        }
    };
    if argument.len() != right_count {
        return Err(RejectRule::WrongCount);
    }
    if chained_data {
        return Err(RejectRule::ChainedData);
    }
    Ok(())
}

#[cfg(test)]
mod multitrack_tests;

#[cfg(test)]
mod tests {
    use super::*;
    use crate::simulator::check_faults;

    const FIRST: TrackAddress = TrackAddress {
        cylinder: 0,
        head: 0,
    };

    /// 000/00 with R0, R1 with a key, R2 without data; 000/01 with R0 alone.
    fn image() -> Vec<u8> {
        let mut image = Vec::new();
        encode::put_home_address(&mut image, FIRST);
        encode::put_record(&mut image, FIRST, 0, &[], &[0xF0; 8]);
        encode::put_record(&mut image, FIRST, 1, &[0x11, 0x12], &[0xA1, 0xA2, 0xA3]);
        encode::put_record(&mut image, FIRST, 2, &[], &[]);
        let second = TrackAddress { head: 1, ..FIRST };
        encode::put_home_address(&mut image, second);
        encode::put_record(&mut image, second, 0, &[], &[0xE0; 8]);
        image
    }

    /// R1's fault: error displacement 2.
    fn fault() -> Fault {
        Fault {
            track: FIRST,
            number: 1,
            error_displacement: 2,
            pattern: [0x01, 0x02, 0x04],
        }
    }

    /// Calls `test` with a new drive over the image.
    fn with_drive(faults: &[Fault], test: impl FnOnce(Drive)) {
        with_drive_of(Model::One, faults, test);
    }

    fn with_drive_of(model: Model, faults: &[Fault], test: impl FnOnce(Drive)) {
        let image = image();
        let mut list = Vec::new();
        for &fault in faults {
            encode::put_fault(&mut list, fault);
        }
        let (pack, faults) = check_faults(model.number(), &image, &list).unwrap();
        test(Drive::new(&pack, &faults, model));
    }

    fn search(drive: &mut Drive, number: u8) -> Result<bool, UnitCheck> {
        let done = drive.execute(SEARCH_ID_EQUAL, &[0, 0, 0, 0, number], false)?;
        Ok(matches!(done, Done::Search { equal: true }))
    }

    fn control(drive: &mut Drive, command: u8, argument: &[u8]) -> Option<UnitCheck> {
        drive.execute(command, argument, false).err()
    }

    /// The bytes that a read takes.
    fn read(drive: &mut Drive, command: u8) -> Result<Vec<u8>, UnitCheck> {
        let Done::Read(arriving) = drive.execute(command, &[], true)? else {
            panic!("{command:02X} is a read");
        };
        let mut bytes = vec![0; arriving.length()];
        arriving.copy_to(0, &mut bytes);
        Ok(bytes)
    }

    const R1_COUNT: [u8; 8] = [0, 0, 0, 0, 1, 2, 0, 3];
    const R2_COUNT: [u8; 8] = [0, 0, 0, 0, 2, 0, 0, 0];

    #[test]
    fn each_read_of_r1() {
        for (command, expected) in [
            (READ_DATA, &[0xA1, 0xA2, 0xA3][..]),
            (READ_KEY_DATA, &[0x11, 0x12, 0xA1, 0xA2, 0xA3]),
            (READ_COUNT, &R1_COUNT),
            (
                READ_COUNT_KEY_DATA,
                &[0, 0, 0, 0, 1, 2, 0, 3, 0x11, 0x12, 0xA1, 0xA2, 0xA3],
            ),
            (READ_HOME_ADDRESS, &[0; 5]),
        ] {
            with_drive(&[], |mut drive| {
                assert_eq!(read(&mut drive, command).unwrap(), expected);
            });
        }
    }

    #[test]
    fn searches_until_the_index_is_passed_twice() {
        with_drive(&[], |mut drive| {
            for _ in 0..6 {
                assert_eq!(search(&mut drive, 9), Ok(false));
            }
            let failed = Err(UnitCheck::NoRecordFound(NotFoundRule::IndexPassedTwice));
            assert_eq!(search(&mut drive, 9), failed);
        });
    }

    #[test]
    fn count_area_just_passed() {
        with_drive(&[], |mut drive| {
            assert_eq!(search(&mut drive, 0), Ok(true));
            assert_eq!(read(&mut drive, READ_DATA).unwrap(), [0xF0; 8]);
            assert_eq!(search(&mut drive, 9), Ok(false));
            assert_eq!(read(&mut drive, READ_DATA).unwrap(), [0xA1, 0xA2, 0xA3]);
            assert_eq!(read(&mut drive, READ_COUNT).unwrap(), R2_COUNT);
            assert_eq!(read(&mut drive, READ_DATA).unwrap(), []);
            assert_eq!(read(&mut drive, READ_COUNT).unwrap(), R1_COUNT);
            assert_eq!(read(&mut drive, READ_COUNT_KEY_DATA).unwrap(), R2_COUNT);
        });
    }

    #[test]
    fn control_commands_go_to_the_index() {
        for (command, argument) in [
            (NO_OPERATION, &[][..]),
            (SEEK, &[0; 6]),
            (SET_FILE_MASK, &[0]),
            (SET_SECTOR, &[0]),
        ] {
            with_drive(&[], |mut drive| {
                assert_eq!(search(&mut drive, 9), Ok(false));
                assert_eq!(search(&mut drive, 9), Ok(false));
                assert_eq!(control(&mut drive, command, argument), None);
                assert_eq!(search(&mut drive, 0), Ok(true));
            });
        }
    }

    #[test]
    fn data_length_0() {
        with_drive(&[], |mut drive| {
            for (command, exception) in [
                (READ_DATA, false),
                (READ_DATA, true),
                (READ_COUNT, false),
                (READ_COUNT, false),
                (READ_KEY_DATA, true),
            ] {
                let Ok(Done::Read(arriving)) = drive.execute(command, &[], false) else {
                    panic!("{command:02X} takes a record");
                };
                assert_eq!(arriving.is_unit_exception(), exception);
            }
        });
    }

    #[test]
    fn nothing_found() {
        let found_nothing = |rule| Err(UnitCheck::NoRecordFound(rule));
        with_drive(&[], |mut drive| {
            assert_eq!(control(&mut drive, SEEK, &[0, 0, 0, 0, 0, 1]), None);
            for command in [READ_DATA, READ_KEY_DATA, READ_COUNT, READ_COUNT_KEY_DATA] {
                let read = read(&mut drive, command);
                assert_eq!(read, found_nothing(NotFoundRule::R0Alone));
            }
            assert_eq!(
                read(&mut drive, READ_HOME_ADDRESS).unwrap(),
                [0, 0, 0, 0, 1]
            );
            assert_eq!(control(&mut drive, SEEK, &[0, 0, 0, 0, 0, 2]), None);
            let nowhere = found_nothing(NotFoundRule::TrackNotInImage);
            assert_eq!(read(&mut drive, READ_HOME_ADDRESS), nowhere);
            assert_eq!(read(&mut drive, READ_DATA), nowhere);
            assert!(search(&mut drive, 0).is_err());
        });
    }

    #[test]
    fn each_reject() {
        for (command, argument, chained_data, rule) in [
            (0x00, &[][..], false, RejectRule::OtherCommand),
            (0x9A, &[], false, RejectRule::OtherCommand),
            (0x87, &[0; 6], false, RejectRule::OtherCommand),
            (SEEK, &[0; 5], false, RejectRule::WrongCount),
            (SET_FILE_MASK, &[0; 2], false, RejectRule::WrongCount),
            (SET_SECTOR, &[0; 2], false, RejectRule::WrongCount),
            (SEARCH_ID_EQUAL, &[0; 6], false, RejectRule::WrongCount),
            (
                SEARCH_ID_EQUAL_MULTITRACK,
                &[0; 4],
                false,
                RejectRule::WrongCount,
            ),
            (
                SEARCH_ID_EQUAL_MULTITRACK,
                &[0; 5],
                true,
                RejectRule::ChainedData,
            ),
            (NO_OPERATION, &[], true, RejectRule::ChainedData),
            (SEARCH_ID_EQUAL, &[0; 5], true, RejectRule::ChainedData),
            (SET_FILE_MASK, &[0x02], false, RejectRule::MaskBits),
            (SET_SECTOR, &[128], false, RejectRule::Sector),
            (
                SEEK,
                &[0, 0, 1, 0x9B, 0, 0],
                false,
                RejectRule::SeekOffThePack,
            ),
            (SEEK, &[0, 1, 0, 0, 0, 0], false, RejectRule::SeekNotZero),
        ] {
            with_drive(&[], |mut drive| {
                let done = drive.execute(command, argument, chained_data);
                assert_eq!(done.err(), Some(UnitCheck::Reject(rule)));
            });
        }
    }

    #[test]
    fn seeks_up_to_the_models_last_cylinder() {
        let off = Some(UnitCheck::Reject(RejectRule::SeekOffThePack));
        for (cylinder, one, eleven) in [
            (410, None, None),
            (411, off, None),
            (814, off, None),
            (815, off, off),
        ] {
            let [c0, c1] = u16::to_be_bytes(cylinder);
            for (model, expected) in [(Model::One, one), (Model::Eleven, eleven)] {
                with_drive_of(model, &[], |mut drive| {
                    let argument = [0, 0, c0, c1, 0, 18];
                    assert_eq!(control(&mut drive, SEEK, &argument), expected);
                });
            }
        }
    }

    #[test]
    fn masks() {
        with_drive(&[], |mut drive| {
            assert_eq!(drive.mask(), None);
            assert_eq!(control(&mut drive, SET_FILE_MASK, &[0x10]), None);
            assert_eq!(drive.mask(), Some(0x10));
            let second = Some(UnitCheck::Reject(RejectRule::SecondMask));
            assert_eq!(control(&mut drive, SET_FILE_MASK, &[0x10]), second);
            let protected = Some(UnitCheck::FileProtected(ProtectedRule::Seek));
            assert_eq!(control(&mut drive, SEEK, &[0; 6]), protected);
            let rejected = Some(UnitCheck::Reject(RejectRule::SeekNotZero));
            assert_eq!(control(&mut drive, SEEK, &[1, 0, 0, 0, 0, 0]), rejected);
        });
    }

    #[test]
    fn sense_of_the_other_unit_checks() {
        let step = UnitCheck::FileProtected(ProtectedRule::Step);
        for check in UnitCheck::all() {
            let (byte, value) = match check {
                UnitCheck::Reject(_) => (0, 0x80),
                UnitCheck::EndOfCylinder => (1, 0x20),
                UnitCheck::NoRecordFound(_) => (1, 0x08),
                UnitCheck::FileProtected(_) => (1, 0x04),
            };
            for head in 0..=LAST_HEAD {
                let mut expected = [0; 24];
                expected[byte] = value;
                if check == step {
                    expected[6] = head as u8;
                }
                assert_eq!(check.sense(head), expected);
            }
        }
    }

    #[test]
    fn sense_of_a_faulted_data_area() {
        let fault = Fault {
            track: TrackAddress {
                cylinder: 0x0102,
                head: 0x0012,
            },
            number: 0xFE,
            error_displacement: 0x0304,
            pattern: [5, 6, 7],
        };
        let expected = [
            0x08, 0, 0x40, 0, 0, 0, 0, 0x53, 0x01, 0x02, 0x00, 0x12, 0xFE, 0, 0, 0x00, 0x32, 0xEE,
            0x03, 0x04, 5, 6, 7, 1,
        ];
        assert_eq!(data_check_sense(&fault, 13_038, true), expected);
        assert_eq!(data_check_sense(&fault, 13_038, false)[23], 0);
    }

    #[test]
    fn faulted_data_arrive_changed() {
        with_drive(&[fault()], |mut drive| {
            let arrived = read(&mut drive, READ_KEY_DATA).unwrap();
            assert_eq!(arrived, [0x11, 0x12, 0xA1, 0xA3, 0xA1]);
        });
        let data = [0; 5];
        for (error_displacement, expected) in [
            (5, [1, 2, 4, 0, 0]),
            (3, [0, 0, 1, 2, 4]),
            (2, [0, 0, 0, 1, 2]),
            (1, [0, 0, 0, 0, 1]),
        ] {
            let fault = Fault {
                error_displacement,
                ..fault()
            };
            assert_eq!(arrived(&data, &fault), expected);
        }
    }

    #[test]
    fn copies_from_any_place() {
        let arriving = Arriving {
            front: Cow::Borrowed(&[1, 2, 3]),
            key: &[],
            data: Cow::Borrowed(&[4, 5]),
            data_area: None,
        };
        let all = [1, 2, 3, 4, 5];
        assert_eq!((arriving.length(), arriving.data_start()), (5, 3));
        for from in 0..=5 {
            for to in from..=5 {
                let mut out = vec![0; to - from];
                arriving.copy_to(from, &mut out);
                assert_eq!(out, all[from..to]);
            }
        }
    }
}
