//! Document 01's sample: a chain that reads two records, one track with R0, R1 and R2, one fault,
//! an extent of that track only. And a sample over two heads.

use super::encode::{ccw, put_fault, put_home_address, put_record, track_address};
use super::faults::Fault;
use super::held::{HeldReading, HeldRun};
use super::large::track_at;
use super::pack::TrackAddress;

pub const CHAIN: [u8; 40] = [
    0x07, 0x00, 0x00, 0x00, 0x40, 0x00, 0x00, 0x06, // seek
    0x31, 0x00, 0x00, 0x06, 0x40, 0x00, 0x00, 0x05, // search ID equal
    0x08, 0x00, 0x00, 0x08, 0x00, 0x00, 0x00, 0x00, // TIC to the search
    0x06, 0x00, 0x00, 0x00, 0x40, 0x00, 0x00, 0x04, // read data of R1
    0x06, 0x00, 0x00, 0x04, 0x00, 0x00, 0x00, 0x04, // read data of R2
];

/// Seek argument 000/01, ID of R1 there.
pub const ARGUMENTS: [u8; 11] = [
    0x00, 0x00, 0x00, 0x00, 0x00, 0x01, 0x00, 0x00, 0x00, 0x01, 0x01,
];

pub const IMAGE: [u8; 57] = [
    0x01, 0x00, 0x05, 0x00, 0x00, 0x00, 0x00, 0x01, // home address 000/01
    0x02, 0x00, 0x10, 0x00, 0x00, 0x00, 0x01, 0x00, 0x00, 0x00, 0x08, // R0
    0x00, 0x00, 0x00, 0x00, 0x00, 0x00, 0x00, 0x00, //
    0x02, 0x00, 0x0C, 0x00, 0x00, 0x00, 0x01, 0x01, 0x00, 0x00, 0x04, // R1
    0xC1, 0xC2, 0xC3, 0xC4, //
    0x02, 0x00, 0x0C, 0x00, 0x00, 0x00, 0x01, 0x02, 0x00, 0x00, 0x04, // R2
    0xD1, 0xD2, 0xD3, 0xD4, //
];

/// R1, error displacement 3, pattern 00 01 00.
pub const FAULTS: [u8; 13] = [
    0x20, 0x00, 0x0A, 0x00, 0x00, 0x00, 0x01, 0x01, 0x00, 0x03, 0x00, 0x01, 0x00,
];

pub const EXTENT: [u8; 8] = [0x00, 0x00, 0x00, 0x01, 0x00, 0x00, 0x00, 0x01];

/// Its run, with storage of 16 bytes.
pub fn run() -> HeldRun {
    HeldRun {
        chain: CHAIN.to_vec(),
        arguments: ARGUMENTS.to_vec(),
        storage: vec![0; 16],
        image: IMAGE.to_vec(),
        faults: FAULTS.to_vec(),
        limit: 64,
        ..HeldRun::default()
    }
}

/// Its reading, with the same.
pub fn reading() -> HeldReading {
    HeldReading::of_run(run(), EXTENT.to_vec())
}

/// The same on another track.
pub fn on_track(track: TrackAddress) -> HeldReading {
    let address = track_address(track);
    let (mut image, mut faults) = (Vec::new(), FAULTS.to_vec());
    put_home_address(&mut image, track);
    put_record(&mut image, track, 0, &[], &[0; 8]);
    put_record(&mut image, track, 1, &[], b"\xC1\xC2\xC3\xC4");
    put_record(&mut image, track, 2, &[], b"\xD1\xD2\xD3\xD4");
    faults[3..7].copy_from_slice(&address);
    HeldReading {
        arguments: [&[0, 0], &address[..], &address, &[1]].concat(),
        image,
        faults,
        extent: [address; 2].concat(),
        ..reading()
    }
}

/// The first sample over heads 17 and 18, R1 on each of them faulted: the second read is an 86, and End of
/// Cylinder ends an 86 behind it.
pub fn over_two_heads() -> HeldReading {
    let mut ccws = CHAIN[..0x20].to_vec();
    ccws.extend(ccw(0x86, 4, 0x40, 4));
    ccws.extend(ccw(0x86, 8, 0, 4));
    let (mut image, mut faults) = (Vec::new(), Vec::new());
    for (head, data) in [(17, b"\xC1\xC2\xC3\xC4"), (18, b"\xD1\xD2\xD3\xD4")] {
        let track = track_at(head);
        put_home_address(&mut image, track);
        put_record(&mut image, track, 0, &[], &[]);
        put_record(&mut image, track, 1, &[], data);
        let fault = Fault {
            track,
            number: 1,
            error_displacement: 3,
            pattern: [0, 1, 0],
        };
        put_fault(&mut faults, fault);
    }
    HeldReading {
        chain: ccws,
        arguments: vec![0, 0, 0, 0, 0, 17, 0, 0, 0, 17, 1],
        image,
        faults,
        extent: vec![0, 0, 0, 17, 0, 0, 0, 18],
        ..reading()
    }
}
