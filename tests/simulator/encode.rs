//! Fields and CCWs written: the other direction of `fields`, `pack`, `faults`, `report` and `channel`.

use super::channel::CCW_LENGTH;
use super::faults::{Fault, FAULT};
use super::pack::{TrackAddress, HOME_ADDRESS, RECORD};
use super::report::{self, Report};

/// Appends a field of at most 65,535 bytes of contents.
pub fn put_field(bytes: &mut Vec<u8>, tag: u8, contents: &[u8]) {
    let length = u16::try_from(contents.len()).expect("the contents fit a field");
    bytes.push(tag);
    bytes.extend(length.to_be_bytes());
    bytes.extend(contents);
}

/// Cylinder 2, head 2.
pub fn track_address(track: TrackAddress) -> [u8; 4] {
    let [c0, c1] = track.cylinder.to_be_bytes();
    let [h0, h1] = track.head.to_be_bytes();
    [c0, c1, h0, h1]
}

/// Contents of a home address. A head of 256 or more leaves its high byte where 00 belongs.
pub fn home_address(track: TrackAddress) -> [u8; 5] {
    let [c0, c1, h0, h1] = track_address(track);
    [0x00, c0, c1, h0, h1]
}

/// Contents of a record: count area, key, data.
pub fn record(track: TrackAddress, number: u8, key: &[u8], data: &[u8]) -> Vec<u8> {
    let key_length = u8::try_from(key.len()).expect("the key fits its length");
    let data_length = u16::try_from(data.len()).expect("the data fit their length");
    let mut contents = Vec::with_capacity(8 + key.len() + data.len());
    contents.extend(track_address(track));
    contents.extend([number, key_length]);
    contents.extend(data_length.to_be_bytes());
    contents.extend(key);
    contents.extend(data);
    contents
}

/// Contents of a fault.
pub fn fault(fault: Fault) -> [u8; 10] {
    let [c0, c1, h0, h1] = track_address(fault.track);
    let [e0, e1] = fault.error_displacement.to_be_bytes();
    let [p0, p1, p2] = fault.pattern;
    [c0, c1, h0, h1, fault.number, e0, e1, p0, p1, p2]
}

/// An address of up to 24 bits.
pub const fn ccw(command: u8, address: usize, flags: u8, count: u16) -> [u8; CCW_LENGTH] {
    let [_, a0, a1, a2] = (address as u32).to_be_bytes();
    let [c0, c1] = count.to_be_bytes();
    [command, a0, a1, a2, flags, 0, c0, c1]
}

pub fn put_home_address(image: &mut Vec<u8>, track: TrackAddress) {
    put_field(image, HOME_ADDRESS, &home_address(track));
}

pub fn put_record(image: &mut Vec<u8>, track: TrackAddress, number: u8, key: &[u8], data: &[u8]) {
    put_field(image, RECORD, &record(track, number, key, data));
}

pub fn put_fault(list: &mut Vec<u8>, of_record: Fault) {
    put_field(list, FAULT, &fault(of_record));
}

/// Tries of 0 are left out.
pub fn report(report: &Report) -> Vec<u8> {
    let mut bytes = Vec::new();
    put_field(&mut bytes, report::SENSE, &report.sense);
    put_field(&mut bytes, report::CSW, &report.csw);
    let first = (report.first as u16).to_be_bytes();
    put_field(&mut bytes, report::FIRST_CCW, &first);
    if let Some(mask) = report.mask {
        put_field(&mut bytes, report::FILE_MASK, &[mask]);
    }
    if let Some(argument) = report.seek_argument {
        put_field(&mut bytes, report::SEEK_ARGUMENT, &argument);
    }
    if report.tries != 0 {
        put_field(&mut bytes, report::TRIES, &[report.tries]);
    }
    bytes
}
