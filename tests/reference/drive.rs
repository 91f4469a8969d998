//! The drive: commands, file mask, position, unit checks.

use super::book::{Book, Ran, COMMANDS, KEPT};
use super::bytes::{byte, bytes, hex, number, value, Checked};
use super::channel::shown;
use super::inputs::worked;
use crate::simulator::drive::{single_track, NotFoundRule, ProtectedRule, RejectRule, UnitCheck};
use crate::simulator::held::HeldRun;
use crate::simulator::run::End;

pub fn check(book: &Book) -> Checked {
    let start = book.run_example(book.ccw(0x1A, 0, 0, 5)?, vec![])?;
    let home = book.home.put(&[])?;
    ensure!(
        start.storage[..5] == home && start.mask_set == 0,
        "a run does not begin on track 000/00 without a mask"
    );
    codes(book)?;
    counts(book)?;
    names(book)?;
    stored(book)?;
    stands(book)?;
    file_mask(book)?;
    position(book)?;
    unit_checks(book)
}

/// Whether a run ended by a command reject.
fn is_rejected(book: &Book, ran: &Ran) -> Result<bool, String> {
    let unit = book.status("channel end+device end+unit check")?;
    let shown = shown(book, ran, "unit status")?;
    Ok(shown == unit.into() && ran.sense[..3] == book.sense_bits("0.0")?)
}

/// A run of one command with an argument of zeros and SLI on.
fn alone(book: &Book, code: u8, count: usize) -> Result<Ran, String> {
    let flags = book.flag("SLI")?;
    book.run_example(book.ccw(code, 0, flags, count)?, vec![0; 64])
}

// ---- commands

/// Every code: listed, a TIC, or rejected.
fn codes(book: &Book) -> Checked {
    let table = book.page.table("Commands", &COMMANDS)?;
    let mut listed = [None; 256];
    for [code, _, count, ..] in table.each::<5>() {
        let count = if count == "any" { 1 } else { number(count)? };
        let place = &mut listed[hex(code)? & 0xFF];
        ensure!(place.is_none(), "{code} is listed twice");
        *place = Some(count);
    }
    let program_check: usize = book.status("program check")?.into();
    for code in 0..=255u8 {
        let count = listed[usize::from(code)];
        let ran = alone(book, code, count.unwrap_or(1))?;
        let is_tic = shown(book, &ran, "channel status")? == program_check;
        ensure!(is_tic == (code % 16 == 8), "{code:02X}: a TIC is {is_tic}");
        let rejected = is_rejected(book, &ran)?;
        ensure!(
            is_tic || rejected != count.is_some(),
            "{code:02X}: rejected is {rejected}"
        );
    }
    Ok(())
}

fn counts(book: &Book) -> Checked {
    for [code, _, count, ..] in book.page.table("Commands", &COMMANDS)?.each::<5>() {
        for tried in 1..=64 {
            let rejected = is_rejected(book, &alone(book, hex(code)? as u8, tried)?)?;
            let allowed = count == "any" || number(count)? == tried;
            ensure!(
                rejected != allowed,
                "{code} with count {tried}: rejected is {rejected}"
            );
        }
    }
    Ok(())
}

/// The names are those that `explain` prints.
fn names(book: &Book) -> Checked {
    let source = super::bytes::source("crates/explain_names/src/lib.rt")?;
    for [code, command, ..] in book.page.table("Commands", &COMMANDS)?.each::<5>() {
        let named =
            source.contains(&format!("/{command}/")) || source.contains(&format!("/{command}\","));
        ensure!(named, "{code}: '{command}' is no name of a command");
    }
    Ok(())
}

/// What reads store of record 2, and that the other commands store nothing.
fn stored(book: &Book) -> Checked {
    let record = book.record_contents((0, 0), 2, &[0xE1, 0xE2], &[0xD1, 0xD2, 0xD3, 0xD4])?;
    let (count, key_data) = record.split_at(8);
    let (key, data) = key_data.split_at(2);
    let home = book.home.put(&[])?;
    for [code, _, _, what, _] in book.page.table("Commands", &COMMANDS)?.each() {
        let expected = match what {
            "data" => data.to_vec(),
            "key, data" => [key, data].concat(),
            "count area, 8" => count.to_vec(),
            "count area, key, data" => [count, key, data].concat(),
            "home address, 5" => home.clone(),
            "nothing" => vec![],
            _ => {
                argument(book, code, what)?;
                vec![]
            }
        };
        let cc = book.flag("CC")?;
        let sli = book.flag("SLI")?;
        let code = hex(code)? as u8;
        let size = match code {
            0x07 => 6,
            0x31 | 0xB1 => 5,
            0x1F | 0x23 => 1,
            _ => 40,
        };
        let chain = [book.ccw(0x06, 60, cc, 4)?, book.ccw(code, 0, sli, size)?];
        let ran = book.run_example(chain.concat(), vec![0; 64])?;
        let mut storage = expected;
        storage.resize(60, KEPT);
        ensure!(
            ran.storage[..60] == storage,
            "{code:02X} stores other bytes"
        );
    }
    Ok(())
}

/// Asks an argument in the form that a row gives it.
fn argument(book: &Book, code: &str, what: &str) -> Checked {
    let cc = book.flag("CC")?;
    let ran = match (code, what) {
        ("07", "argument: 00 00, cylinder 2, head 2") => {
            let chain = [book.ccw(0x07, 0, cc, 6)?, book.ccw(0x1A, 0, 0, 5)?];
            let ran = book.run_example(chain.concat(), vec![0, 0, 0, 0, 0, 2])?;
            ran.storage[4] == 2
        }
        ("1F", "argument: the mask") => {
            let ran = book.run_example(book.ccw(0x1F, 0, 0, 1)?, vec![0xD9])?;
            (ran.mask_set, ran.mask) == (1, 0xD9)
        }
        ("23", "argument: the sector, 00 to 7F or FF") => {
            let mut all = true;
            for sector in 0..=255u8 {
                let ran = book.run_example(book.ccw(0x23, 0, 0, 1)?, vec![sector])?;
                let allowed = sector <= 0x7F || sector == 0xFF;
                all &= is_rejected(book, &ran)? != allowed;
            }
            all
        }
        ("31" | "B1", "argument: cylinder 2, head 2, R 1") => {
            let code = hex(code)? as u8;
            equal(book, &[], code, &[0, 0, 0, 0, 0])? && !equal(book, &[], code, &[0, 0, 0, 0, 1])?
        }
        _ => false,
    };
    ensure!(ran, "{code}: '{what}'");
    Ok(())
}

/// A CCW that gets the drive on its way: reads skip, searches are unequal.
fn on_the_way(book: &Book, code: u8) -> Result<Vec<u8>, String> {
    let cc = book.flag("CC")?;
    match code {
        0x31 | 0xB1 => book.ccw(code, 0, cc, 5),
        0x07 => book.ccw(code, 8, cc, 6),
        0x1F | 0x23 => book.ccw(code, 8, cc, 1),
        0x03 => book.ccw(code, 0, cc, 1),
        _ => book.ccw(code, 0, cc | book.flag("skip")? | book.flag("SLI")?, 40),
    }
}

/// An ID that no track has, then zeros.
const ARGUMENTS: [u8; 16] = [0, 0, 0, 0, 0x63, 0, 0, 0, 0, 0, 0, 0, 0, 0, 0, 0];

/// Which record a read takes behind these commands: "R1", or "R1 of 000/02" on another head.
fn taken(book: &Book, before: &[u8], code: u8) -> Result<String, String> {
    let mut chain = Vec::new();
    for &code in before {
        chain.extend(on_the_way(book, code)?);
    }
    chain.extend(book.ccw(code, 0, book.flag("SLI")?, 40)?);
    let ran = book.run_example(chain, ARGUMENTS.to_vec())?;
    let records: [(usize, usize, &[u8], &[u8]); 4] = [
        (0, 0, &[], &[0; 8]),
        (0, 1, &[], &[0xC1, 0xC2, 0xC3, 0xC4]),
        (0, 2, &[0xE1, 0xE2], &[0xD1, 0xD2, 0xD3, 0xD4]),
        (2, 1, &[], &[]),
    ];
    let exception: usize = book.status("channel end+device end+unit exception")?.into();
    for (head, number, key, data) in records {
        let count = book.record_contents((0, head), number, key, data)?[..8].to_vec();
        let form = single_track(code);
        let mut bytes = match form {
            0x06 => data.to_vec(),
            0x0E => [key, data].concat(),
            0x12 => count,
            _ => [&count, key, data].concat(),
        };
        bytes.resize(40, KEPT);
        let is_empty = form != 0x12 && data.is_empty();
        let shows_exception = shown(book, &ran, "unit status")? == exception;
        if ran.storage[..40] == bytes && shows_exception == is_empty {
            return Ok(named(head, number));
        }
    }
    Err(format!("{code:02X} behind {before:02X?} takes no record"))
}

/// A record as the page names it where the drive stood on 000/00.
fn named(head: usize, number: usize) -> String {
    match head {
        0 => format!("R{number}"),
        _ => format!("R{number} of 000/{head:02}"),
    }
}

/// Whether a search for this ID is equal behind these commands: it leaves out a CCW.
fn equal(book: &Book, before: &[u8], code: u8, id: &[u8]) -> Result<bool, String> {
    let mut chain = Vec::new();
    for &code in before {
        chain.extend(on_the_way(book, code)?);
    }
    let at = chain.len();
    chain.extend(book.ccw(code, ARGUMENTS.len(), book.flag("CC")?, 5)?);
    chain.extend(book.ccw(0x03, 0, 0, 1)?.repeat(2));
    let ran = book.run_example(chain, [&ARGUMENTS[..], id].concat())?;
    match shown(book, &ran, "address")? - at {
        16 => Ok(false),
        24 => Ok(true),
        _ => Err(format!("a search behind {before:02X?} does not end")),
    }
}

/// Where a command leaves a drive that stood behind record 1.
fn stands(book: &Book) -> Checked {
    for [code, _, _, _, stands] in book.page.table("Commands", &COMMANDS)?.each() {
        let expected = match stands {
            "at the index" | "behind a record" => ("R1", "R1"),
            "behind a count area" => ("R2", "R1"),
            _ => return Err(format!("{code}: stands '{stands}'")),
        };
        let before = [0x06, hex(code)? as u8];
        let seen = (taken(book, &before, 0x06)?, taken(book, &before, 0x12)?);
        ensure!(
            (&seen.0[..], &seen.1[..]) == expected,
            "{code}: {} and {} follow",
            seen.0,
            seen.1
        );
        let index = equal(book, &before, 0x31, &[0, 0, 0, 0, 0])?;
        ensure!(index, "{code}: R0 is not examined next");
        // Behind a record the way goes by the index, at the index it does not.
        let passes = passes(book, &before)?;
        let expected = if stands == "at the index" { 1 } else { 2 };
        ensure!(passes == expected, "{code}: '{stands}'");
    }
    Ok(())
}

/// By searches for an ID that the track has not: how often R0 is examined before no record is
/// found.
fn passes(book: &Book, before: &[u8]) -> Result<usize, String> {
    let mut chain = Vec::new();
    for &code in before {
        chain.extend(on_the_way(book, code)?);
    }
    let at = chain.len();
    chain.extend(on_the_way(book, 0x31)?.repeat(8));
    let ran = book.run_example(chain, ARGUMENTS.to_vec())?;
    ensure!(
        ran.sense[..3] == book.sense_bits("1.4")?,
        "searches go on for ever"
    );
    let searches = (shown(book, &ran, "address")? - at) / 8;
    // From the index: R0, R1, R2, the index passed, R0, R1, R2, and the search that finds none.
    match searches {
        7 => Ok(1),
        4 => Ok(2),
        _ => Err(format!("{searches} searches behind {before:02X?}")),
    }
}

// ---- file mask

fn file_mask(book: &Book) -> Checked {
    let table = book.page.table("File mask", &["bit", "effect"])?;
    table.has(&["0", "1", "2", "3", "4", "5", "6", "7"])?;
    for [bit, effect] in table.each() {
        let mask = book.bit(number(bit)?)?;
        let chain = [
            book.ccw(0x1F, 6, book.flag("CC")?, 1)?,
            book.ccw(0x07, 0, 0, 6)?,
        ];
        let ran = book.run_example(chain.concat(), vec![0, 0, 0, 0, 0, 0, mask])?;
        let mut held = worked(book)?;
        held.report.extend(book.field("file mask", &[mask])?);
        let recovered = book.recover(held)?;
        let protected = ran.sense[..3] == book.sense_bits("1.5")?;
        let fetch_mode = book.answers.get("corrected only") == Some(&recovered.what);
        let expected = match effect {
            "none" => (false, false, false),
            "command reject" => (true, false, false),
            "later seeks are file protected" => (false, true, false),
            "PCI fetch mode: a cut is corrected only" => (false, false, true),
            _ => return Err(format!("mask bit {bit}: '{effect}'")),
        };
        let seen = (is_rejected(book, &ran)?, protected, fetch_mode);
        ensure!(seen == expected, "mask bit {bit}: {effect}, but {seen:?}");
    }
    Ok(())
}

// ---- position

/// On one track by the single-track forms, over heads by the multitrack ones.
fn position(book: &Book) -> Checked {
    position_of(
        book,
        "Position",
        ["06, 0E take", "12, 1E take", "31 examines"],
    )?;
    position_of(book, "Steps", ["86, 8E take", "92, 9E take", "B1 examines"])
}

/// The codes that a column begins with.
fn codes_of(column: &str) -> Result<Vec<u8>, String> {
    let (codes, _) = column.rsplit_once(' ').ok_or("no codes")?;
    codes.split(", ").map(byte).collect()
}

fn position_of(book: &Book, heading: &str, [of_data, of_count, of_search]: [&str; 3]) -> Checked {
    let columns = [
        "the drive stands",
        "reached by",
        of_data,
        of_count,
        of_search,
    ];
    let table = book.page.table(heading, &columns)?;
    table.has(&[
        "at the index",
        "behind the count area of R0",
        "behind the count area of R1",
        "behind R1",
        "behind the count area of R2, the last",
        "behind R2, the last",
    ])?;
    for [stands, reached, data, count, examined] in table.each() {
        let before = bytes(reached)?;
        for (column, expected) in [(of_data, data), (of_count, count)] {
            for code in codes_of(column)? {
                let taken = taken(book, &before, code)?;
                ensure!(
                    taken == expected,
                    "{heading}, {stands}: {code:02X} takes {taken}"
                );
            }
        }
        for code in codes_of(of_search)? {
            for (head, number) in [(0, 0), (0, 1), (0, 2), (1, 0), (2, 0), (2, 1)] {
                let equal = equal(book, &before, code, &[0, 0, 0, head, number])?;
                let expected = named(head.into(), number.into()) == examined;
                ensure!(
                    equal == expected,
                    "{heading}, {stands}: a search of R{number} of head {head}"
                );
            }
        }
    }
    Ok(())
}

// ---- unit checks

fn unit_checks(book: &Book) -> Checked {
    use UnitCheck::{EndOfCylinder, FileProtected, NoRecordFound, Reject};
    let reject = |rule| End::UnitCheck(Reject(rule));
    let not_found = |rule| End::UnitCheck(NoRecordFound(rule));
    let causes = [
        ("an unlisted code", reject(RejectRule::OtherCommand)),
        (
            "07, 1F, 23, 31 or B1 with another count",
            reject(RejectRule::WrongCount),
        ),
        (
            "CD in 03, 07, 1F, 23, 31 or B1",
            reject(RejectRule::ChainedData),
        ),
        ("a second 1F in a run", reject(RejectRule::SecondMask)),
        ("mask bit 2, 5 or 6", reject(RejectRule::MaskBits)),
        ("a sector from 80 to FE", reject(RejectRule::Sector)),
        (
            "on model 1 a seek to cylinder 411 or head 19, or above",
            reject(RejectRule::SeekOffThePack),
        ),
        (
            "on model 11 a seek to cylinder 815 or head 19, or above",
            reject(RejectRule::SeekOffThePack),
        ),
        (
            "a seek argument that does not begin 00 00",
            reject(RejectRule::SeekNotZero),
        ),
        (
            "07 under a mask with bit 3 or 4",
            End::UnitCheck(FileProtected(ProtectedRule::Seek)),
        ),
        (
            "a step under a mask with bits 3 and 4",
            End::UnitCheck(FileProtected(ProtectedRule::Step)),
        ),
        ("a step past head 18", End::UnitCheck(EndOfCylinder)),
        (
            "a search or read where the image has no such track",
            not_found(NotFoundRule::TrackNotInImage),
        ),
        (
            "a search that passes the index a second time",
            not_found(NotFoundRule::IndexPassedTwice),
        ),
        (
            "a read that finds R0 alone on its way round",
            not_found(NotFoundRule::R0Alone),
        ),
        (
            "a step to a head whose track the image lacks",
            not_found(NotFoundRule::NextHeadNotInImage),
        ),
        (
            "06, 0E, 1E, 86, 8E or 9E of a record with data length 0",
            End::UnitException,
        ),
    ];
    let columns = [
        "check",
        "unit status",
        "sense",
        "cause",
        "chain",
        "arguments",
    ];
    let table = book.page.table("Unit checks", &columns)?;
    let mut found: Vec<&str> = table
        .each()
        .map(|[_, _, _, cause, ..]: [&str; 6]| cause)
        .collect();
    let mut asked = causes.map(|(cause, _)| cause);
    found.sort_unstable();
    asked.sort_unstable();
    ensure!(found == asked, "line {}: other causes", table.line);
    for [check, unit, sense, cause, chain, arguments] in table.each() {
        let on_11 = cause.starts_with("on model 11 ");
        let held = HeldRun {
            model: if on_11 { 11 } else { 1 },
            chain: bytes(chain)?,
            arguments: bytes(arguments)?,
            storage: vec![KEPT; 64],
            image: book.pack()?,
            ..HeldRun::default()
        };
        let simulated = held.clone().simulated().map(|outcome| outcome.end);
        let rule = causes.iter().find(|(of, _)| *of == cause);
        ensure!(
            simulated.ok() == rule.map(|(_, end)| *end),
            "{cause}: the example shows {simulated:?}"
        );
        let named = match rule.map(|(_, end)| *end) {
            Some(End::UnitCheck(Reject(_))) => "command reject",
            Some(End::UnitCheck(FileProtected(_))) => "file protected",
            Some(End::UnitCheck(EndOfCylinder)) => "end of cylinder",
            Some(End::UnitException) => "unit exception",
            _ => "no record found",
        };
        ensure!(check == named, "{cause}: {check}");
        let ran = book.run(held)?;
        let status = if sense == "none" {
            book.status("channel end+device end+unit exception")?
        } else {
            book.status("channel end+device end+unit check")?
        };
        ensure!(
            shown(book, &ran, "unit status")? == hex(unit)? && hex(unit)? == status.into(),
            "{cause}: unit status in {:02X?}",
            ran.csw
        );
        let mut expected = vec![0; 24];
        if sense != "none" {
            let (bits, byte_6) = sense.split_once(", byte 6 = ").unwrap_or((sense, "00"));
            expected[..3].copy_from_slice(&book.sense_bits(bits)?);
            expected[6] = byte(byte_6)?;
        }
        ensure!(ran.sense == expected, "{cause}: sense {:02X?}", ran.sense);
        ensure!(
            value(&ran.storage[..1]) == KEPT.into(),
            "{cause}: storage is written"
        );
    }
    Ok(())
}
