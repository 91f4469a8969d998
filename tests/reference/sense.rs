//! Sense: of a cut, of the other unit checks; the names of bits; displacements.

use super::book::{Book, Ran, KEPT};
use super::bytes::{big_endian, byte, number, source, value, Checked};
use crate::simulator::held::HeldRun;

pub fn check(book: &Book) -> Checked {
    cut(book)?;
    others(book)?;
    names(book)?;
    displacements(book)
}

const PLACE: (usize, usize) = (0x0104, 18);
const RECORD: usize = 0x77;
const PATTERN: usize = 0x11_22_44;

/// A cut of 12 bytes of data on track 260/18, read with this count.
fn cut(book: &Book) -> Checked {
    let table = book.page.table("Sense", &["byte", "contents"])?;
    for (count, left_over) in [(12, false), (5, true)] {
        let mut image = book.track((0, 0), &[])?;
        image.extend(book.track(PLACE, &[(RECORD, &[9; 12])])?);
        let chain = [
            book.ccw(0x07, 0, book.flag("CC")?, 6)?,
            book.ccw(0x1E, 0, 0, 8 + count)?,
        ];
        let mut arguments = vec![0, 0];
        arguments.extend(big_endian(PLACE.0, 2));
        arguments.extend(big_endian(PLACE.1, 2));
        let ran = book.run(HeldRun {
            chain: chain.concat(),
            arguments,
            storage: vec![KEPT; 64],
            image,
            faults: book.fault(PLACE, RECORD, 3, PATTERN)?,
            ..HeldRun::default()
        })?;
        ensure!(
            ran.first == 8,
            "the cut read's first CCW is {:04X}",
            ran.first
        );
        let mut next = 0;
        for [place, contents] in table.each() {
            let (first, last) = match place.split_once(" to ") {
                Some((first, last)) => (number(first)?, number(last)?),
                None => (number(place)?, number(place)?),
            };
            ensure!(first == next, "sense: byte {place} behind byte {next}");
            next = last + 1;
            let expected = match contents {
                "cylinder" => PLACE.0,
                "head" => PLACE.1,
                "R" => RECORD,
                "restart displacement" => 20,
                "error displacement" => 3,
                "the 3 pattern bytes" => PATTERN,
                "01 where bytes of the record were left over, else 00" => left_over.into(),
                _ => byte(contents)?.into(),
            };
            let sense = ran.sense.get(first..next).ok_or("sense behind byte 23")?;
            ensure!(
                value(sense) == expected,
                "sense byte {place}: {contents}, but {sense:02X?}"
            );
        }
        ensure!(next == 24, "sense: {next} bytes");
    }
    Ok(())
}

/// By a drive that steps have led to each head, of a cylinder above 255.
fn others(book: &Book) -> Checked {
    let columns = ["check", "bit", "byte", "value", "byte 6"];
    let table = book.page.table("Sense", &columns)?;
    table.has(&[
        "command reject",
        "end of cylinder",
        "no record found",
        "file protected, of a seek",
        "file protected, of a step",
    ])?;
    for [check, bit, place, on, byte_6] in table.each() {
        let heads = match check {
            "end of cylinder" => 18..=18,
            "file protected, of a step" => 0..=17,
            _ => 0..=18,
        };
        for head in heads {
            let mut sense = vec![0; 24];
            sense[number(place)?] = byte(on)?;
            ensure!(
                sense[..3] == book.sense_bits(bit)?,
                "{check}: {bit} is not {on} in byte {place}"
            );
            sense[6] = match byte_6 {
                "the head on which the drive stands" => head,
                _ => byte(byte_6)?,
            };
            for ran in ended_on(book, check, head.into())? {
                ensure!(
                    ran.sense == sense,
                    "{check} on head {head}: sense {:02X?}",
                    ran.sense
                );
            }
        }
    }
    Ok(())
}

/// Runs that a check ends on this head. Its track has R1, those before it R0 alone, so that a 92 steps to
/// it from the head sought, up to two before it.
fn ended_on(book: &Book, check: &str, head: usize) -> Result<Vec<Ran>, String> {
    const AT_MASK: usize = 6;
    const AT_ID: usize = 7;
    let cc = book.flag("CC")?;
    let seek = book.ccw(0x07, 0, cc, 6)?;
    let mask = book.ccw(0x1F, AT_MASK, cc, 1)?;
    let count = book.ccw(0x92, 0, cc, 8)?;
    // The searches examine R0, R1, and R0 once more.
    let mut ends = match check {
        "command reject" => vec![(book.ccw(0x02, 0, 0, 1)?, 18)],
        "end of cylinder" => vec![(count.clone(), 18)],
        "no record found" => vec![(book.ccw(0x31, AT_ID, cc, 5)?.repeat(3), 18)],
        "file protected, of a seek" => vec![([&mask[..], &seek].concat(), 18)],
        _ => vec![([&mask[..], &count, &count].concat(), 18)],
    };
    if check == "no record found" && head < 18 {
        // The image lacks the track of the next head.
        ends.push((count.clone(), head));
    }
    let mut arguments = vec![0, 0];
    arguments.extend(big_endian(PLACE.0, 2));
    arguments.extend(big_endian(head.saturating_sub(2), 2));
    arguments.extend([0x18, 0, 0, 0, 0, 0x63]);
    let mut runs = Vec::new();
    for (end, last) in ends {
        let mut image = Vec::new();
        for on in 0..=last {
            let records: &[(usize, &[u8])] = if on == head { &[(1, &[9])] } else { &[] };
            image.extend(book.track((PLACE.0, on), records)?);
        }
        runs.push(book.run(HeldRun {
            chain: [&seek[..], &count, &end].concat(),
            arguments: arguments.clone(),
            storage: vec![KEPT; 64],
            image,
            ..HeldRun::default()
        })?);
    }
    Ok(runs)
}

/// The bits that occur in the error table, by the names that `explain` prints.
fn names(book: &Book) -> Checked {
    let table = book.page.table("Sense", &["bit", "value", "name"])?;
    let rows = book.page.table("Error table", &["row", "bits", "action"])?;
    let mut used: Vec<&str> = rows
        .each()
        .flat_map(|[_, bits, _]| bits.split(' '))
        .collect();
    used.sort_unstable();
    used.dedup();
    table.has(&used)?;
    let source = source("crates/explain_names/src/lib.rt")?;
    let start = source
        .find("b\"command reject/")
        .ok_or("no names of bits")?;
    let list = source[start + 2..].split('"').next().unwrap_or("");
    let printed: Vec<&str> = list.split('/').collect();
    ensure!(printed.len() == 24, "{} names of bits", printed.len());
    for [bit, on, name] in table.each() {
        let (of, place) = bit.split_once('.').ok_or("no bit")?;
        let (of, place) = (number(of)?, number(place)?);
        ensure!(byte(on)? == book.bit(place)?, "{bit}: value {on}");
        let named = printed[8 * of + place];
        ensure!(name == named, "{bit}: '{name}', but explain says '{named}'");
    }
    Ok(())
}

fn displacements(book: &Book) -> Checked {
    let columns = [
        "command",
        "in front of the data",
        "restart displacement",
        "error displacement",
        "first wrong byte",
    ];
    let table = book.page.table("Displacements", &columns)?;
    table.has(&["06, 86", "0E, 8E", "1E, 9E"])?;
    for [codes, front, restart, error, wrong] in table.each() {
        for code in codes.split(", ") {
            displaced(book, code, [front, restart, error, wrong])?;
        }
    }
    Ok(())
}

/// A row of the displacements, for one of its commands.
fn displaced(book: &Book, code: &str, [front, restart, error, wrong]: [&str; 4]) -> Checked {
    let held = |faults: Vec<u8>| {
        let chain = [
            book.ccw(0x06, 60, book.flag("CC")?, 4)?,
            book.ccw(byte(code)?, 0, book.flag("SLI")?, 40)?,
        ];
        book.run(HeldRun {
            chain: chain.concat(),
            storage: vec![KEPT; 64],
            image: book.pack()?,
            faults,
            ..HeldRun::default()
        })
    };
    let good = held(vec![])?.storage;
    let ran = held(book.fault((0, 0), 2, 3, 0xFF_00_00)?)?;
    ensure!(
        value(&ran.sense[15..18]) == number(restart)?,
        "{code}: restart displacement"
    );
    ensure!(
        value(&ran.sense[18..20]) == number(error)?,
        "{code}: error displacement"
    );
    let first = (0..40).find(|&at| ran.storage[at] != good[at]);
    ensure!(first == Some(number(wrong)?), "{code}: wrong at {first:?}");
    let data = (0..40).find(|&at| good[at] == 0xD1);
    ensure!(data == Some(number(front)?), "{code}: data at {data:?}");
    Ok(())
}
