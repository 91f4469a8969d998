//! Restart programs and their arguments, as actions 5, 5A and 8 to 11 build them.

use super::channel::{
    Ccw, CCW_LENGTH, FLAG_CHAIN_COMMAND, FLAG_SKIP, RESTART_ARGUMENTS, RESTART_PROGRAM,
};
use super::drive::{
    READ_COUNT, READ_COUNT_MULTITRACK, READ_DATA, READ_DATA_MULTITRACK, READ_HOME_ADDRESS,
    READ_KEY_DATA_MULTITRACK, SEARCH_ID_EQUAL, SEEK, SET_FILE_MASK, SET_SECTOR,
};
use super::encode;
use super::overflow::OverflowRead;
use super::pack::TrackAddress;

/// Places in the restart arguments.
const SEEK_ARGUMENT: usize = 0;
const MASK: usize = 6;
const SECTOR: usize = 7;
const ID: usize = 8;

#[derive(Clone, Debug, PartialEq, Eq)]
pub struct BuiltRestart {
    pub program: [u8; 64],
    pub arguments: [u8; 16],
}

/// The read count of 5A: "In 5A the read count takes code 92 when the next command is 86 or 8E."
/// None in 5, where bit 3 is on: the command begins with a count area by itself.
pub fn read_count_before(next: &Ccw) -> Option<u8> {
    match next.command {
        READ_DATA_MULTITRACK | READ_KEY_DATA_MULTITRACK => Some(READ_COUNT_MULTITRACK),
        command if command & 0x10 == 0 => Some(READ_COUNT),
        _ => None,
    }
}

/// Actions 5 and 5A: behind the count area of the record with this ID, then to the next CCW.
pub fn behind_record(id: [u8; 5], mask: Option<u8>, sector: u8, next: &Ccw) -> BuiltRestart {
    let mut writer = Writer::new(TrackAddress::decode(&id[..4]), mask, sector);
    writer.built.arguments[ID..ID + 5].copy_from_slice(&id);
    let search = writer.here();
    writer.put_control(SEARCH_ID_EQUAL, ID, 5);
    writer.put_tic(search);
    if let Some(read_count) = read_count_before(next) {
        writer.put_skipped_read(read_count, 8);
    }
    writer.put_tic(next.at);
    writer.built
}

/// Actions 8, 10 and 10A: from the home address of a track to this CCW.
pub fn from_home_address(track: TrackAddress, mask: Option<u8>, to: &Ccw) -> BuiltRestart {
    let mut writer = Writer::new(track, mask, 0);
    writer.put_skipped_read(READ_HOME_ADDRESS, 5);
    writer.put_tic(to.at);
    writer.built
}

/// Actions 9 and 11: from the home address of a track to restart CCW 1, which goes on with the read, and to
/// the next CCW where there is one.
pub fn through_ccw_1(
    track: TrackAddress,
    mask: Option<u8>,
    read: &OverflowRead,
    next: Option<&Ccw>,
) -> BuiltRestart {
    let mut writer = Writer::new(track, mask, 0);
    writer.put_skipped_read(READ_HOME_ADDRESS, 5);
    let (flags, count) = (read.ccw.flags, read.count_left as u16);
    writer.put(READ_DATA, read.address_left(), flags, count);
    if let Some(next) = next {
        writer.put_tic(next.at);
    }
    writer.built
}

/// Areas being written; what is not written is 0.
struct Writer {
    built: BuiltRestart,
    /// Bytes of the program so far.
    length: usize,
}

impl Writer {
    /// Seek, mask unless none was set, sector.
    fn new(track: TrackAddress, mask: Option<u8>, sector: u8) -> Writer {
        let mut arguments = [0; 16];
        arguments[SEEK_ARGUMENT + 2..MASK].copy_from_slice(&encode::track_address(track));
        arguments[MASK] = mask.unwrap_or(0);
        arguments[SECTOR] = sector;
        let built = BuiltRestart {
            program: [0; 64],
            arguments,
        };
        let mut writer = Writer { built, length: 0 };
        writer.put_control(SEEK, SEEK_ARGUMENT, 6);
        if mask.is_some() {
            writer.put_control(SET_FILE_MASK, MASK, 1);
        }
        writer.put_control(SET_SECTOR, SECTOR, 1);
        writer
    }

    /// Address of the next CCW written.
    fn here(&self) -> usize {
        RESTART_PROGRAM + self.length
    }

    fn put(&mut self, command: u8, address: usize, flags: u8, count: u16) {
        let behind = self.length + CCW_LENGTH;
        let ccw = encode::ccw(command, address, flags, count);
        self.built.program[self.length..behind].copy_from_slice(&ccw);
        self.length = behind;
    }

    fn put_control(&mut self, command: u8, argument: usize, count: u16) {
        let address = RESTART_ARGUMENTS + argument;
        self.put(command, address, FLAG_CHAIN_COMMAND, count);
    }

    fn put_skipped_read(&mut self, command: u8, count: u16) {
        self.put(command, 0, FLAG_CHAIN_COMMAND | FLAG_SKIP, count);
    }

    fn put_tic(&mut self, target: usize) {
        self.put(0x08, target, 0, 0);
    }
}

#[cfg(test)]
mod tests {
    use super::*;

    const SOUGHT: [u8; 5] = [0x01, 0x02, 0x00, 0x12, 0xFE];

    fn command_at(at: usize, command: u8) -> Ccw {
        Ccw {
            at,
            command,
            address: 0,
            flags: 0,
            count: 1,
        }
    }

    /// The CCWs one behind the other, then zeros.
    fn program(ccws: &[[u8; CCW_LENGTH]]) -> [u8; 64] {
        let mut program = [0; 64];
        program[..ccws.len() * CCW_LENGTH].copy_from_slice(ccws.as_flattened());
        program
    }

    #[test]
    fn action_5_without_a_mask() {
        let built = behind_record(SOUGHT, None, 0x7F, &command_at(0x7F8, 0x1E));
        let expected = program(&[
            [0x07, 0, 0x20, 0x00, 0x40, 0, 0, 6],
            [0x23, 0, 0x20, 0x07, 0x40, 0, 0, 1],
            [0x31, 0, 0x20, 0x08, 0x40, 0, 0, 5],
            [0x08, 0, 0x10, 0x10, 0x00, 0, 0, 0],
            [0x08, 0, 0x07, 0xF8, 0x00, 0, 0, 0],
        ]);
        assert_eq!(built.program, expected);
        let arguments = [0, 0, 1, 2, 0, 0x12, 0, 0x7F, 1, 2, 0, 0x12, 0xFE, 0, 0, 0];
        assert_eq!(built.arguments, arguments);
    }

    #[test]
    fn action_5a_with_a_mask() {
        let built = behind_record(SOUGHT, Some(0xD8), 1, &command_at(8, 0x06));
        let expected = program(&[
            [0x07, 0, 0x20, 0x00, 0x40, 0, 0, 6],
            [0x1F, 0, 0x20, 0x06, 0x40, 0, 0, 1],
            [0x23, 0, 0x20, 0x07, 0x40, 0, 0, 1],
            [0x31, 0, 0x20, 0x08, 0x40, 0, 0, 5],
            [0x08, 0, 0x10, 0x18, 0x00, 0, 0, 0],
            [0x12, 0, 0x00, 0x00, 0x50, 0, 0, 8],
            [0x08, 0, 0x00, 0x08, 0x00, 0, 0, 0],
        ]);
        assert_eq!(built.program, expected);
        assert_eq!(built.arguments[6..8], [0xD8, 1]);
    }

    #[test]
    fn a_mask_of_zeros_is_a_mask() {
        let built = behind_record(SOUGHT, Some(0), 0, &command_at(8, 0x06));
        assert_eq!(built.program[8], SET_FILE_MASK);
    }

    #[test]
    fn bit_3_decides_between_5_and_5a() {
        for command in 0..=255 {
            let built = behind_record(SOUGHT, None, 0, &command_at(8, command));
            // In 5 the last TIC stands there.
            let expected = match command {
                0x86 | 0x8E => 0x92,
                _ if command & 0x10 == 0 => 0x12,
                _ => 0x08,
            };
            assert_eq!(built.program[0x20], expected);
        }
    }

    #[test]
    fn home_address_with_and_without_a_mask() {
        let track = TrackAddress {
            cylinder: 0x0109,
            head: 18,
        };
        let built = from_home_address(track, None, &command_at(0x10, 0x31));
        let expected = program(&[
            [0x07, 0, 0x20, 0x00, 0x40, 0, 0, 6],
            [0x23, 0, 0x20, 0x07, 0x40, 0, 0, 1],
            [0x1A, 0, 0x00, 0x00, 0x50, 0, 0, 5],
            [0x08, 0, 0x00, 0x10, 0x00, 0, 0, 0],
        ]);
        assert_eq!(built.program, expected);
        let arguments = [0, 0, 1, 9, 0, 18, 0, 0, 0, 0, 0, 0, 0, 0, 0, 0];
        assert_eq!(built.arguments, arguments);
        let masked = from_home_address(track, Some(0xC0), &command_at(0x10, 0x31));
        assert_eq!(masked.program[8..16], [0x1F, 0, 0x20, 0x06, 0x40, 0, 0, 1]);
        assert_eq!(masked.program[16..40], built.program[8..32]);
        assert_eq!(masked.arguments[6], 0xC0);
    }

    #[test]
    fn ccw_1_with_and_without_a_next_ccw() {
        let track = TrackAddress {
            cylinder: 0x0109,
            head: 18,
        };
        let read = OverflowRead {
            ccw: Ccw {
                at: 0x18,
                command: 0x9E,
                address: 0xFF00,
                flags: 0xA8,
                count: 0x0203,
            },
            count_left: 0x0102,
        };
        let next = command_at(0x7F8, 0x31);
        let built = through_ccw_1(track, None, &read, Some(&next));
        let expected = program(&[
            [0x07, 0, 0x20, 0x00, 0x40, 0, 0, 6],
            [0x23, 0, 0x20, 0x07, 0x40, 0, 0, 1],
            [0x1A, 0, 0x00, 0x00, 0x50, 0, 0, 5],
            [0x06, 1, 0x00, 0x01, 0xA8, 0, 1, 2],
            [0x08, 0, 0x07, 0xF8, 0x00, 0, 0, 0],
        ]);
        assert_eq!(built.program, expected);
        let arguments = [0, 0, 1, 9, 0, 18, 0, 0, 0, 0, 0, 0, 0, 0, 0, 0];
        assert_eq!(built.arguments, arguments);
        let masked = through_ccw_1(track, Some(0x01), &read, Some(&next));
        assert_eq!(masked.program[8..16], [0x1F, 0, 0x20, 0x06, 0x40, 0, 0, 1]);
        assert_eq!(masked.program[16..48], built.program[8..40]);
        assert_eq!(masked.arguments[6], 0x01);
        let last = through_ccw_1(track, None, &read, None);
        assert_eq!(last.program[..0x20], built.program[..0x20]);
        assert_eq!(last.program[0x20..], [0; 0x20]);
    }
}
