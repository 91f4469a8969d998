//! Numbers on a pack and in a report: each at its bounds and beside them.

use super::book::Book;
use super::bytes::{big_endian, bounds, number, Checked};
use super::questions::changed;
use crate::library;
use crate::simulator::held::HeldRecovery;

/// Of all numbers but those of tracks, which alone go by it.
const MODEL: u8 = 1;

pub fn check(book: &Book) -> Checked {
    let table = book
        .page
        .table("Limits", &["number", "smallest", "largest"])?;
    table.has(&[
        "cylinder of model 1",
        "cylinder of model 11",
        "head",
        "R of a record",
        "records on a track, with R0",
        "key length",
        "data length",
        "key length plus data length",
        "R of a fault",
        "error displacement of a fault",
        "restart displacement in a report of 5",
        "restart displacement in a report of 9 or 11",
        "sector in a report of 5, sense 13",
        "head reached in a report of 10A or 11, sense 6",
        "sector of a set sector; 255 too",
        "tries",
    ])?;
    for [name, smallest, largest] in table.each() {
        let both = || Ok::<_, String>((number(smallest)?, number(largest)?));
        let image = |image: Result<Vec<u8>, String>| Ok(library::check_image(MODEL, &mut image?));
        match name {
            "cylinder of model 1" => tracks(book, 1, name, both()?, |n| (n, 0))?,
            "cylinder of model 11" => tracks(book, 11, name, both()?, |n| (n, 0))?,
            "head" => {
                for model in [1, 11] {
                    tracks(book, model, name, both()?, |n| (0, n))?;
                }
            }
            "R of a record" => one_byte(name, both()?, |n| {
                let other = if n == 0 { 1 } else { n };
                image(book.track((0, 0), &[(other, &[])]))
            })?,
            "records on a track, with R0" => bounds(name, both()?, 2, |n| {
                let mut track = book.home_address(0, 0)?;
                for record in 0..n {
                    track.extend(book.record((0, 0), record, &[], &[])?);
                }
                image(Ok(track))
            })?,
            "key length" => one_byte(name, both()?, |n| {
                image(with_record(book, &vec![1; n], &[2]))
            })?,
            "data length" => bounds(name, both()?, 2, |n| {
                image(with_record(book, &[], &vec![1; n]))
            })?,
            "key length plus data length" => bounds(name, both()?, 2, |n| {
                let key = n.min(200);
                image(with_record(book, &vec![1; key], &vec![2; n - key]))
            })?,
            "R of a fault" => {
                let smallest = number(smallest)?;
                for (record, expected) in [(smallest, 0), (smallest - 1, 3)] {
                    let answer = faulted(book, record, 1)?;
                    ensure!(answer == expected, "{name}: {record} gives {answer}");
                }
                one_byte(name, (smallest, number(largest)?), |n| faulted(book, n, 1))?
            }
            "error displacement of a fault" => {
                ensure!(largest == "the record's data length", "{name}: {largest}");
                bounds(name, (number(smallest)?, DATA.len()), 3, |n| {
                    faulted(book, 1, n)
                })?
            }
            "restart displacement in a report of 5" => {
                ensure!(smallest == "the error displacement", "{name}: {smallest}");
                for error in [1, 3, 13_000] {
                    bounds(name, (error, number(largest)?), 9, |n| {
                        recovered(book, n, error, 0)
                    })?
                }
            }
            "restart displacement in a report of 9 or 11" => {
                ensure!(both()? == (0, 0xFF_FFFF), "{name}: not all of three bytes");
                for n in [0, 1, 13_038, 13_039, 0xFF_FFFE, 0xFF_FFFF] {
                    let answer = interrupted(book, n)?;
                    ensure!(answer == 0, "{name}: {n} is refused by {answer}");
                }
            }
            "sector in a report of 5, sense 13" => {
                bounds(name, both()?, 9, |n| recovered(book, 4, 3, n))?
            }
            "head reached in a report of 10A or 11, sense 6" => {
                for report in [OF_TEN_A, OF_ELEVEN] {
                    bounds(name, both()?, 9, |n| reached(book, report, n))?
                }
            }
            "sector of a set sector; 255 too" => {
                let reject = 1;
                let set = |n: usize| {
                    let chain = book.ccw(0x23, 0, 0, 1)?;
                    let ran = book.run_example(chain, vec![n as u8])?;
                    Ok(u8::from(ran.sense[0] != 0))
                };
                bounds(name, both()?, reject, set)?;
                ensure!((set(254)?, set(255)?) == (reject, 0), "{name}: 254, 255");
            }
            _ => one_byte(name, both()?, |n| tried(book, n))?,
        }
    }
    Ok(())
}

/// A number of one byte, whose largest is the byte's.
fn one_byte(
    name: &str,
    (smallest, largest): (usize, usize),
    trial: impl Fn(usize) -> Result<u8, String>,
) -> Checked {
    ensure!(largest == 255, "{name}: {largest} is not a byte's largest");
    let below = smallest.checked_sub(1).map(&trial).transpose()?;
    ensure!(below != Some(0), "{name}: {smallest} is not the smallest");
    for number in smallest..=largest {
        let answer = trial(number)?;
        ensure!(answer == 0, "{name}: {number} is refused by {answer}");
    }
    Ok(())
}

/// A number of a track's, in images and in extents.
fn tracks(
    book: &Book,
    model: u8,
    name: &str,
    allowed: (usize, usize),
    track: impl Fn(usize) -> (usize, usize),
) -> Checked {
    bounds(name, allowed, 2, |n| {
        let mut image = book.track(track(n), &[])?;
        Ok(library::check_image(model, &mut image))
    })?;
    bounds(name, allowed, 5, |n| {
        let mut extent = book.tracks(track(n), track(n))?;
        Ok(library::check_extent(model, &mut extent))
    })
}

fn with_record(book: &Book, key: &[u8], data: &[u8]) -> Result<Vec<u8>, String> {
    let mut image = book.track((0, 0), &[])?;
    image.extend(book.record((0, 0), 1, key, data)?);
    Ok(image)
}

const DATA: [u8; 9] = [7; 9];

/// A fault of a track that has every record.
fn faulted(book: &Book, record: usize, displacement: usize) -> Result<u8, String> {
    let records: Vec<(usize, &[u8])> = (1..=255).map(|number| (number, &DATA[..])).collect();
    let mut image = book.track((0, 0), &records)?;
    let mut faults = book.fault((0, 0), record, displacement, 0)?;
    Ok(library::check_faults(MODEL, &mut image, &mut faults))
}

/// Recovery from a cut of a chain with one read, long enough for any record.
fn recovered(book: &Book, restart: usize, error: usize, sector: usize) -> Result<u8, String> {
    const COUNT: usize = 16_384;
    let flags = book.flag("skip")? | book.flag("SLI")?;
    let mut sense = vec![0; 24];
    sense[..3].copy_from_slice(&book.sense_bits("0.4 2.1")?);
    sense[7] = 0x53;
    sense[13] = sector as u8;
    sense[15..18].copy_from_slice(&big_endian(restart, 3));
    sense[18..20].copy_from_slice(&big_endian(error, 2));
    let unit = book.status("channel end+device end+unit check")?;
    let fields = [
        book.field("sense", &sense)?,
        book.field("CSW", &book.csw_of(8, unit, 0, COUNT - restart)?)?,
        book.field("address of the cut read's first CCW", &[0, 0])?,
    ];
    let held = HeldRecovery {
        chain: book.ccw(0x1E, 0, flags, COUNT)?,
        report: fields.concat(),
        extent: book.tracks((0, 0), (0, 0))?,
        ..HeldRecovery::default()
    };
    Ok(book.recover(held)?.number)
}

/// Recovery by 9 from a read that was interrupted behind so many bytes; its data chain leads round.
fn interrupted(book: &Book, restart: usize) -> Result<u8, String> {
    const COUNT: usize = 9_999;
    let mut sense = vec![0; 24];
    sense[..3].copy_from_slice(&book.sense_bits("1.2 1.7")?);
    sense[3] = 0x06;
    sense[15..18].copy_from_slice(&big_endian(restart, 3));
    let unit = book.status("channel end+device end+unit check")?;
    let left = COUNT - restart % COUNT;
    let fields = [
        book.field("sense", &sense)?,
        book.field("CSW", &book.csw_of(8, unit, 0, left)?)?,
        book.field("address of the cut read's first CCW", &[0, 0])?,
        book.field("seek argument", &[0; 6])?,
    ];
    let chain = [
        book.ccw(0x06, 0, book.flag("CD")?, COUNT)?,
        book.ccw(0x08, 0, 0, 0)?,
    ];
    let held = HeldRecovery {
        chain: chain.concat(),
        report: fields.concat(),
        extent: book.tracks((1, 0), (1, 0))?,
        storage: vec![0; COUNT],
        ..HeldRecovery::default()
    };
    Ok(book.recover(held)?.number)
}

/// Of the worked report: one of 10A, and one of 11.
const OF_TEN_A: &str = "sense 0 = 00 04 00; 14 = 000000000000";
const OF_ELEVEN: &str =
    "sense 0 = 00 05 00 06; sense 15 = 000003; csw = 00 000020 0E 00 0001; 14 = 000000000000";

/// The same with this head reached.
fn reached(book: &Book, report: &str, head: usize) -> Result<u8, String> {
    let change = format!("{report}; sense 6 = {head:02X}");
    Ok(book.recover(changed(book, &change)?)?.number)
}

/// The worked report with so many tries.
fn tried(book: &Book, tries: usize) -> Result<u8, String> {
    let mut held = super::inputs::worked(book)?;
    held.report.extend(book.field("tries", &[tries as u8])?);
    Ok(book.recover(held)?.number)
}
