//! Small readings of which every one of a kind is tried.

use crate::chains::steps::{every, stepped, Step, FEW, FEW_OVER_HEADS};
use crate::compare::{Comparison, Disagreement};
use crate::exhaustive::each_byte_at_each_value;
use crate::generate::extent_of;
use crate::lendings::GeneratedReading;
use crate::models;
use crate::simulator::extent::whole_pack;
use crate::simulator::faults::Fault;
use crate::simulator::held::RECOVERY_ENTRY;
use crate::simulator::large::{place_of, track_at};
use crate::simulator::pack::TrackAddress;
use crate::simulator::{encode, sample};

pub fn compare_all(comparison: &mut Comparison) -> Result<(), Disagreement> {
    each_byte(comparison)?;
    each_limit(comparison)?;
    each_length(comparison)?;
    each_few_steps(comparison)?;
    each_other_model(comparison)?;
    each_border_track(comparison)
}

/// The sample on each track at the end of a pack; the same track sought, then in the extent alone, though
/// the image does not have it.
fn each_border_track(comparison: &mut Comparison) -> Result<(), Disagreement> {
    for (model, track) in models::border_tracks() {
        let mut reading = GeneratedReading {
            model: model.number(),
            ..sample::on_track(track)
        };
        let extent = reading.extent.clone();
        reading.extent = whole_pack(model).to_vec();
        comparison.reading("each border track", &reading)?;
        reading.image.clear();
        reading.faults.clear();
        comparison.reading("each border track sought", &reading)?;
        reading.extent = extent;
        comparison.reading("each border track as extent", &reading)?;
    }
    Ok(())
}

/// The sample, and where other questions refuse too.
fn each_other_model(comparison: &mut Comparison) -> Result<(), Disagreement> {
    for model in models::others() {
        let mut reading = GeneratedReading {
            model,
            ..both_faulted()
        };
        comparison.reading("no model", &reading)?;
        reading.image.pop();
        reading.faults.pop();
        reading.extent.fill(0xFF);
        comparison.reading("no model, all else damaged", &reading)?;
    }
    Ok(())
}

/// Document 01's sample with a fault in R2 besides, so that both reads are cut.
fn both_faulted() -> GeneratedReading {
    let mut faults = sample::FAULTS.to_vec();
    let second = Fault {
        track: track_at(1),
        number: 2,
        error_displacement: 2,
        pattern: [0x81, 0x42, 0x24],
    };
    encode::put_fault(&mut faults, second);
    GeneratedReading {
        storage: vec![0xEE; 16],
        faults,
        ..sample::reading()
    }
}

/// The sample over two heads with each byte of each area that is only read at each value.
fn each_byte(comparison: &mut Comparison) -> Result<(), Disagreement> {
    type Area = fn(&mut GeneratedReading) -> &mut Vec<u8>;
    let areas: [Area; 5] = [
        |reading| &mut reading.chain,
        |reading| &mut reading.arguments,
        |reading| &mut reading.image,
        |reading| &mut reading.faults,
        |reading| &mut reading.extent,
    ];
    for area in areas {
        let mut reading = sample::over_two_heads();
        let bytes = area(&mut reading).clone();
        for changed in each_byte_at_each_value(&bytes) {
            *area(&mut reading) = changed;
            comparison.reading_on_any("two heads, one byte set", &reading)?;
        }
    }
    Ok(())
}

/// Each limit up to the end of the faultless run and one more, and those refused.
fn each_limit(comparison: &mut Comparison) -> Result<(), Disagreement> {
    for limit in [0, 1, 2, 3, 4, 5, 6, 7, 4_096, 4_097, 1 << 32, usize::MAX] {
        let mut reading = both_faulted();
        reading.limit = limit;
        reading.list_length = RECOVERY_ENTRY * limit.min(4_097);
        comparison.reading_on_any("sample, each limit", &reading)?;
        reading.faults.clear();
        comparison.reading_on_any("sample, each limit", &reading)?;
    }
    Ok(())
}

/// Lists, answer areas, extents, restart areas and storage of each length up to what they must have
/// and a little more.
fn each_length(comparison: &mut Comparison) -> Result<(), Disagreement> {
    type SetLength = fn(&mut GeneratedReading, usize);
    let lengths: [(&str, SetLength, usize); 6] = [
        (
            "list of each length",
            |reading, length| reading.list_length = length,
            400,
        ),
        (
            "answer area of each length",
            |reading, length| reading.answer_length = length,
            20,
        ),
        (
            "extent of each length",
            |reading, length| reading.extent.resize(length, 0),
            20,
        ),
        (
            "restart program of each length",
            |reading, length| reading.program.resize(length, 0),
            80,
        ),
        (
            "restart arguments of each length",
            |reading, length| reading.restart_arguments.resize(length, 0),
            20,
        ),
        (
            "storage of each length",
            |reading, length| reading.storage.resize(length, 0),
            20,
        ),
    ];
    for (kind, set_length, longest) in lengths {
        for length in 0..=longest {
            let mut reading = both_faulted();
            set_length(&mut reading, length);
            comparison.reading_on_any(kind, &reading)?;
        }
    }
    Ok(())
}

/// Every sequence of three steps over R0 and R1, of five over R0, R1 and R2, and of five over heads 16
/// to 18, head 17 with R0 alone, on the first cylinder or at the end of a pack.
fn each_few_steps(comparison: &mut Comparison) -> Result<(), Disagreement> {
    for steps in every(3, &FEW) {
        let reading = all_faulted(0, &[1], &steps);
        comparison.reading_on_any("each three steps, R0 and R1", &reading)?;
    }
    for steps in every(5, &FEW) {
        let reading = all_faulted(0, &[2], &steps);
        comparison.reading_on_any("each five steps, R0, R1 and R2", &reading)?;
    }
    for steps in every(5, &FEW_OVER_HEADS) {
        let (model, cylinder) = comparison.any_cylinder();
        let first = place_of(TrackAddress { cylinder, head: 16 });
        let reading = GeneratedReading {
            model: model.number(),
            ..all_faulted(first, &[1, 0, 1], &steps)
        };
        comparison.reading("each five steps over heads", &reading)?;
    }
    Ok(())
}

/// The steps over tracks of which all records but R0 are faulted.
fn all_faulted(first: usize, records: &[u8], steps: &[Step]) -> GeneratedReading {
    let mut run = stepped(first, records, steps);
    for (place, &records) in records.iter().enumerate() {
        for number in 1..=records {
            let fault = Fault {
                track: track_at(first + place),
                number,
                error_displacement: 2,
                pattern: [0x81, 0x42, 0x24],
            };
            encode::put_fault(&mut run.faults, fault);
        }
    }
    run.limit = 16;
    GeneratedReading::of_run(run, extent_of([first, first + records.len() - 1]))
}
