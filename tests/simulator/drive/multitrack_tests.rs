//! Steps to the next head.

use super::*;
use crate::simulator::check_faults;
use crate::simulator::large::{put_track, track_at, TracksOf};

/// Calls `test` with a drive over tracks of cylinder 0 and 1 at these places of the pack, each with
/// so many records of one byte after R0, on the track at `at`.
fn with_drive(tracks: &[(usize, u8)], at: usize, test: impl FnOnce(Drive)) {
    let mut image = Vec::new();
    for &(place, records) in tracks {
        let records = TracksOf {
            records,
            data_length: 1,
        };
        put_track(&mut image, track_at(place), records);
    }
    let (pack, faults) = check_faults(1, &image, &[]).unwrap();
    let mut drive = Drive::new(&pack, &faults, Model::One);
    drive.to_track(track_at(at));
    test(drive);
}

/// Head and R of the record that a read takes, and how many steps led there.
fn read(drive: &mut Drive, command: u8) -> Result<(u16, u8, usize), UnitCheck> {
    let Done::Read(arriving) = drive.execute(command, &[], false)? else {
        panic!("{command:02X} is a read");
    };
    let number = match arriving.data_area {
        Some(area) => area.number,
        None => arriving.front[4],
    };
    Ok((drive.track.head, number, drive.steps()))
}

/// Whether a search finds this R on this head, and the head that the drive is on.
fn search(drive: &mut Drive, command: u8, head: u8, number: u8) -> Result<(bool, u16), UnitCheck> {
    let done = drive.execute(command, &[0, 0, 0, head, number], false)?;
    Ok((
        matches!(done, Done::Search { equal: true }),
        drive.track.head,
    ))
}

const NEXT_HEAD_NOT_IN_IMAGE: UnitCheck =
    UnitCheck::NoRecordFound(NotFoundRule::NextHeadNotInImage);
const STEP_PROTECTED: UnitCheck = UnitCheck::FileProtected(ProtectedRule::Step);

const READS: [u8; 4] = [
    READ_DATA_MULTITRACK,
    READ_KEY_DATA_MULTITRACK,
    READ_COUNT_MULTITRACK,
    READ_COUNT_KEY_DATA_MULTITRACK,
];

#[test]
fn reads_go_on_behind_r0_of_the_next_head() {
    for command in READS {
        with_drive(&[(0, 1), (1, 2)], 0, |mut drive| {
            let taken = |_| read(&mut drive, command);
            let records = [1, 2, 3].map(taken);
            assert_eq!(records, [Ok((0, 1, 0)), Ok((1, 1, 1)), Ok((1, 2, 0))]);
            assert_eq!(read(&mut drive, command), Err(NEXT_HEAD_NOT_IN_IMAGE));
        });
    }
}

#[test]
fn single_track_forms_go_round() {
    for command in READS {
        with_drive(&[(0, 1), (1, 1)], 0, |mut drive| {
            assert_eq!(read(&mut drive, single_track(command)), Ok((0, 1, 0)));
            drive.to_index();
            assert_eq!(read(&mut drive, READ_COUNT_KEY_DATA), Ok((0, 1, 0)));
            assert_eq!(read(&mut drive, single_track(command)), Ok((0, 1, 0)));
        });
    }
}

#[test]
fn data_of_the_count_area_just_passed_without_a_step() {
    for (passing, taking) in [
        (READ_COUNT, READ_DATA_MULTITRACK),
        (READ_COUNT_MULTITRACK, READ_DATA_MULTITRACK),
        (READ_COUNT_MULTITRACK, READ_KEY_DATA_MULTITRACK),
        (READ_COUNT_MULTITRACK, READ_DATA),
    ] {
        with_drive(&[(0, 1), (1, 1)], 0, |mut drive| {
            assert_eq!(read(&mut drive, passing), Ok((0, 1, 0)));
            assert_eq!(read(&mut drive, taking), Ok((0, 1, 0)));
            assert_eq!(read(&mut drive, READ_COUNT_MULTITRACK), Ok((1, 1, 1)));
        });
    }
}

#[test]
fn searches_begin_with_r0_of_the_next_head() {
    with_drive(&[(0, 1), (1, 1)], 0, |mut drive| {
        let mut search = |head, number| {
            let command = SEARCH_ID_EQUAL_MULTITRACK;
            search(&mut drive, command, head, number)
        };
        assert_eq!(search(0, 0), Ok((true, 0)));
        assert_eq!(search(0, 1), Ok((true, 0)));
        assert_eq!(search(1, 0), Ok((true, 1)));
        assert_eq!(search(1, 1), Ok((true, 1)));
        assert_eq!(search(2, 0), Err(NEXT_HEAD_NOT_IN_IMAGE));
    });
}

#[test]
fn index_passes_start_again() {
    with_drive(&[(0, 0), (1, 0)], 0, |mut drive| {
        let mut search = |command| search(&mut drive, command, 9, 9);
        assert_eq!(search(SEARCH_ID_EQUAL), Ok((false, 0)));
        assert_eq!(search(SEARCH_ID_EQUAL), Ok((false, 0)));
        assert_eq!(search(SEARCH_ID_EQUAL_MULTITRACK), Ok((false, 1)));
        assert_eq!(search(SEARCH_ID_EQUAL), Ok((false, 1)));
        let twice = UnitCheck::NoRecordFound(NotFoundRule::IndexPassedTwice);
        assert_eq!(search(SEARCH_ID_EQUAL), Err(twice));
    });
}

#[test]
fn steps_over_tracks_with_r0_alone() {
    let alone: Vec<_> = (0..18).map(|head| (head, 0)).chain([(18, 1)]).collect();
    for command in READS {
        with_drive(&alone, 0, |mut drive| {
            assert_eq!(read(&mut drive, command), Ok((18, 1, 18)));
        });
        with_drive(&alone[..18], 0, |mut drive| {
            assert_eq!(read(&mut drive, command), Err(NEXT_HEAD_NOT_IN_IMAGE));
        });
        with_drive(&[(0, 0), (2, 1)], 0, |mut drive| {
            assert_eq!(read(&mut drive, command), Err(NEXT_HEAD_NOT_IN_IMAGE));
        });
    }
}

/// End of Cylinder, then the mask, then the image.
#[test]
fn order_of_the_tests() {
    for (at, mask, check) in [
        (18, 0x00, UnitCheck::EndOfCylinder),
        (18, 0x18, UnitCheck::EndOfCylinder),
        (17, 0x18, STEP_PROTECTED),
        (17, 0xD9, STEP_PROTECTED),
        (17, 0x08, NEXT_HEAD_NOT_IN_IMAGE),
        (17, 0x10, NEXT_HEAD_NOT_IN_IMAGE),
    ] {
        // The track behind head 18 in the image is cylinder 1's first.
        with_drive(&[(at, 0), (19, 1)], at, |mut drive| {
            assert!(drive.execute(SET_FILE_MASK, &[mask], false).is_ok());
            for command in READS {
                assert_eq!(read(&mut drive, command), Err(check));
                drive.to_track(track_at(at));
            }
            let command = SEARCH_ID_EQUAL_MULTITRACK;
            assert_eq!(search(&mut drive, command, 0, 9), Ok((false, at as u16)));
            assert_eq!(search(&mut drive, command, 0, 9), Err(check));
            assert!(check.is_of_a_step());
        });
    }
}

#[test]
fn no_step_from_a_track_that_is_not_in_the_image() {
    let check = UnitCheck::NoRecordFound(NotFoundRule::TrackNotInImage);
    with_drive(&[(1, 1)], 0, |mut drive| {
        for command in READS {
            assert_eq!(read(&mut drive, command), Err(check));
        }
        let command = SEARCH_ID_EQUAL_MULTITRACK;
        assert_eq!(search(&mut drive, command, 1, 0), Err(check));
        assert_eq!(drive.track, track_at(0));
        assert!(!check.is_of_a_step());
    });
}
