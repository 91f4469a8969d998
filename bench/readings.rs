//! Whole readings of one chain with few cuts and with many, beside its run without faults.

use crate::library;
use crate::simulator::encode::{ccw, put_fault};
use crate::simulator::faults::Fault;
use crate::simulator::held::{HeldReading, HeldRun, READING_ANSWER, RECOVERY_ENTRY};
use crate::simulator::large::{put_track, TracksOf};
use crate::simulator::pack::TrackAddress;
use crate::simulator::reading::End;
use crate::times::least;
use std::hint::black_box;

/// A reading with the areas that it writes besides.
struct Workload {
    held: HeldReading,
    list: Vec<u8>,
    answer: [u8; READING_ANSWER],
}

const STORAGE: usize = 65_536;
const DATA: usize = 200;

/// A record that is read once, alone on its track.
const ONCE: TrackAddress = TrackAddress {
    cylinder: 0,
    head: 0,
};

/// A track of 39 records, of which those of odd R are read 50 times each.
const OFTEN: TrackAddress = TrackAddress {
    cylinder: 0,
    head: 1,
};
const RECORDS: u8 = 39;
const TIMES: usize = 50;

pub fn print() {
    println!(
        "{:<32}{:>10}{:>14}{:>14}{:>8}{:>14}{:>8}",
        "reading 1,001 times",
        "cuts",
        "library ns",
        "simulator ns",
        "ratio",
        "faultless ns",
        "ratio"
    );
    let odd = |records: u8| (0..records).map(|place| 2 * place + 1).collect();
    for (name, cuts, track, numbers) in [
        ("none faulted", 0, ONCE, Vec::new()),
        ("one faulted, read once", 1, ONCE, vec![1]),
        ("2 faulted, read 50 times", 100, OFTEN, odd(2)),
        ("20 faulted, read 50 times", 1_000, OFTEN, odd(20)),
    ] {
        let [library, simulator, faultless] = timed(workload(track, &numbers), cuts);
        println!(
            "{name:<32}{cuts:>10}{library:>14.0}{simulator:>14.0}{:>8.2}{faultless:>14.0}{:>8.2}",
            library / simulator,
            library / faultless
        );
    }
}

/// With these records of a track faulted.
fn workload(track: TrackAddress, numbers: &[u8]) -> Workload {
    let mut faults = Vec::new();
    for &number in numbers {
        let fault = Fault {
            track,
            number,
            error_displacement: 100,
            pattern: [0x01, 0x02, 0x04],
        };
        put_fault(&mut faults, fault);
    }
    let mut image = Vec::new();
    for (track, records) in [(ONCE, 1), (OFTEN, RECORDS)] {
        let tracks = TracksOf {
            records,
            data_length: DATA,
        };
        put_track(&mut image, track, tracks);
    }
    let held = HeldReading {
        chain: chain(),
        // Seek argument 000/01, ID of R38 there.
        arguments: vec![0, 0, 0, 0, 0, 1, 0, 0, 0, 1, RECORDS - 1],
        storage: vec![0; STORAGE],
        image,
        faults,
        extent: vec![0, 0, 0, 0, 0, 0, 0, 1],
        ..HeldReading::default()
    };
    Workload {
        list: vec![0; RECOVERY_ENTRY * held.limit],
        held,
        answer: [0; READING_ANSWER],
    }
}

/// A read on the first track; on the second every second record is read and the others are passed by
/// a search for the last but one, again and again; a last read.
fn chain() -> Vec<u8> {
    let read = |flags| ccw(0x1E, 0, flags, 8 + DATA as u16);
    let mut ccws = vec![read(0x40), ccw(0x07, 0, 0x40, 6)];
    for _ in 0..TIMES {
        let start = 8 * ccws.len();
        ccws.extend([read(0x40), ccw(0x31, 6, 0x40, 5), ccw(0x08, start, 0, 0)]);
    }
    ccws.push(read(0));
    ccws.concat()
}

/// Nanoseconds of the library's reading, the simulator's, and the library's run without faults.
fn timed(workload: Workload, cuts: usize) -> [f64; 3] {
    let mut by_simulator = workload.held.clone();
    let mut faultless = workload.held.clone().into_run();
    faultless.faults.clear();
    let mut by_library = workload;
    let ends = [
        read_by_library(&mut by_library),
        read_by_simulator(&mut by_simulator),
        run_by_library(&mut faultless),
    ];
    assert_eq!(ends, [library::ENDED; 3], "all end");
    let storage = &by_library.held.storage;
    assert!(*storage == by_simulator.storage, "both read the same");
    assert!(*storage == faultless.storage, "as without faults");
    assert_eq!(made(&by_library), cuts, "every cut is recovered from");
    least(
        10,
        [
            &mut || read_by_library(black_box(&mut by_library)),
            &mut || read_by_simulator(black_box(&mut by_simulator)),
            &mut || run_by_library(black_box(&mut faultless)),
        ],
    )
}

fn made(workload: &Workload) -> usize {
    u16::from_be_bytes([workload.answer[8], workload.answer[9]]).into()
}

fn read_by_library(workload: &mut Workload) -> u8 {
    let Workload { held, list, answer } = workload;
    library::read_held(held, list, answer)
}

fn read_by_simulator(held: &mut HeldReading) -> u8 {
    match held.simulated().map(|reading| reading.end) {
        Ok(End::Limit(_)) => library::LIMIT,
        Ok(End::Stopped(_)) => library::STOPPED,
        Ok(_) => library::ENDED,
        Err(refusal) => refusal.number(),
    }
}

fn run_by_library(held: &mut HeldRun) -> u8 {
    library::run_held(held, &mut [0; library::ANSWER])
}
