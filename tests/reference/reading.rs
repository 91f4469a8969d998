//! The whole reading: how it ends, its list, what is a recovery.

use super::book::{Book, Read, KEPT};
use super::bytes::{byte, number, value, Checked};
use super::inputs::worked_reading;
use crate::simulator::held::HeldReading;

pub fn check(book: &Book) -> Checked {
    ends(book)?;
    list(book)?;
    recoveries(book)
}

/// The worked reading, made to meet a cause.
fn trial(book: &Book, what: &str) -> Result<HeldReading, String> {
    let mut held = worked_reading(book)?;
    let cc = book.flag("CC")?;
    match what {
        "without a cut" => held.faults.clear(),
        "finished" => held.faults = book.fault((0, 1), 2, 1, 0x80_0000)?,
        "corrected only" => {
            let mask = book.ccw(0x1F, held.arguments.len(), cc, 1)?;
            held.arguments.push(0x01);
            // The TIC leads 8 further.
            held.chain[19] += 8;
            held.chain.splice(..0, mask);
        }
        "5" => held.chain[32] = 0x1E,
        "5A" => (),
        "too many commands" => {
            held.chain = [book.ccw(0x03, 0, cc, 7)?, book.ccw(0x08, 0, 0, 0)?].concat();
        }
        "too many recoveries" => {
            let read = |address| book.ccw(0x06, address, cc, 4);
            held.chain = [read(0)?, read(4)?, read(8)?].concat();
            held.image = book.pack()?;
            let one = book.fault((0, 0), 1, 4, 0xFF_0000)?;
            held.faults = [one, book.fault((0, 0), 2, 4, 0xFF_0000)?].concat();
            held.extent = book.tracks((0, 0), (0, 0))?;
            held.limit = 2;
            held.list_length = 12;
        }
        "action 2" => held.extent = book.tracks((0, 0), (0, 0))?,
        "refused by 9" => {
            held.chain.truncate(32);
            held.chain.extend(book.ccw(0x08, 0x10, 0, 0)?);
        }
        _ => return Err(format!("no trial of '{what}'")),
    }
    Ok(held)
}

fn ends(book: &Book) -> Checked {
    let causes = [
        ("a run ended without a cut", "without a cut"),
        ("a cut was answered \"finished\"", "finished"),
        ("a cut was answered \"corrected only\"", "corrected only"),
        (
            "a run began as many commands as it may, and had not ended",
            "too many commands",
        ),
        (
            "a cut came after as many recoveries as the first run's limit",
            "too many recoveries",
        ),
        ("a cut was answered by action 2", "action 2"),
        ("a cut was refused by question 9", "refused by 9"),
    ];
    let table = book
        .page
        .table("Ends", &["number", "end", "cause", "CSW"])?;
    let found: Vec<&str> = table.each().map(|[_, _, cause, _]| cause).collect();
    ensure!(
        found == causes.map(|(cause, _)| cause),
        "line {}: other causes, or in another order",
        table.line
    );
    let names = book.page.table("Ends", &["number", "end", "C name"])?;
    names.has(&["0", "64", "65"])?;
    for ([number_of, end, cause, csw], (_, what)) in table.each().zip(causes) {
        let held = trial(book, what)?;
        let read = book.read(held.clone())?;
        ensure!(
            usize::from(read.number) == number(number_of)?,
            "{cause}: {} is returned",
            read.number
        );
        let named = names.each::<3>().find(|[of, ..]| *of == number_of);
        let [_, name, _] = named.ok_or(format!("no end {number_of}"))?;
        let stopped_by = match end.strip_prefix("stopped by ") {
            Some(by) => number(by)?,
            None => 0,
        };
        ensure!(
            end == name || stopped_by > 0 && name == "stopped",
            "{cause}: {end} is named {name}"
        );
        ensure!(
            usize::from(read.stopped_by) == stopped_by,
            "{cause}: stopped by {}",
            read.stopped_by
        );
        let expected = csw_of(book, &held, what, csw)?;
        ensure!(read.csw == expected, "{cause}: CSW {:02X?}", read.csw);
        left(book, what, &held, &read)?;
    }
    Ok(())
}

/// The CSW that a row names.
fn csw_of(book: &Book, held: &HeldReading, what: &str, csw: &str) -> Result<Vec<u8>, String> {
    let cut = book.status("channel end+device end+unit check")?;
    let end = book.status("channel end+device end")?;
    // The third read of three is the one that comes too late.
    if what == "too many recoveries" && csw == "the cut's" {
        return book.csw_of(0x18, cut, 0, 0);
    }
    let run = book.run(held.clone().into_run())?.csw;
    let part = |name: &str| book.csw.get(&run, name).map(value);
    let (unit, channel) = (part("unit status")? as u8, part("channel status")? as u8);
    let expected_unit = match (csw, what) {
        ("that run's", "without a cut") | ("its last command's", "too many commands") => end,
        ("the cut's, unit check off", "finished") => cut,
        ("the cut's", "corrected only" | "action 2" | "refused by 9") => cut,
        _ => return Err(format!("{what}: CSW '{csw}'")),
    };
    ensure!(unit == expected_unit, "{what}: unit status {unit:02X}");
    let off = csw == "the cut's, unit check off";
    let unit = if off { end } else { unit };
    book.csw_of(part("address")?, unit, channel, part("count left")?)
}

/// Storage and the areas of the restart, as the text under the table says.
fn left(book: &Book, what: &str, held: &HeldReading, read: &Read) -> Checked {
    let run = book.run(held.clone().into_run())?;
    let as_read = read.held.storage == run.storage;
    let untouched = read.held.program == held.program;
    let expected = match what {
        "without a cut" | "too many commands" => (true, true),
        "action 2" | "refused by 9" => (true, true),
        "finished" | "corrected only" => (false, true),
        _ => (false, false),
    };
    ensure!(
        (as_read, untouched) == expected,
        "{what}: storage or restart areas"
    );
    if what == "too many recoveries" {
        // Record 1, read again, is the cut that came too late: its first byte is wrong.
        let stored = &read.held.storage[..12];
        ensure!(
            stored == [0xC1, 0xC2, 0xC3, 0xC4, 0xD1, 0xD2, 0xD3, 0xD4, !0xC1, 0xC2, 0xC3, 0xC4],
            "{what}: storage {stored:02X?}"
        );
    }
    Ok(())
}

/// Bytes of entries, and those behind them.
fn list(book: &Book) -> Checked {
    let held = trial(book, "too many recoveries")?;
    let read = book.read(held)?;
    ensure!(read.recoveries == 2, "{} recoveries", read.recoveries);
    let mut expected = Vec::new();
    for record in [1, 2] {
        expected.extend(book.entry.put(&[
            ("GIRUVE_AT_ENTRY_ACTION", book.codes["5A"].into()),
            ("GIRUVE_AT_ENTRY_RECORD", record),
        ])?);
    }
    ensure!(read.list == expected, "the list is {:02X?}", read.list);
    // One cut on track 260/18.
    let mut held = worked_reading(book)?;
    let place = (260, 18);
    held.image = book.track(place, &[(0x77, &[1]), (0x78, &[2])])?;
    held.faults = book.fault(place, 0x77, 1, 0x01_0000)?;
    held.arguments[..6].copy_from_slice(&[0, 0, 0x01, 0x04, 0, 0x12]);
    held.arguments[6..].copy_from_slice(&[0x01, 0x04, 0, 0x12, 0x77]);
    held.extent = book.tracks(place, place)?;
    held.chain[28] = book.flag("CC")? | book.flag("SLI")?;
    held.chain[36] = book.flag("SLI")?;
    let read = book.read(held)?;
    let mut expected = book.entry.put(&[
        ("GIRUVE_AT_ENTRY_ACTION", book.codes["5A"].into()),
        ("GIRUVE_AT_ENTRY_CYLINDER", place.0),
        ("GIRUVE_AT_ENTRY_HEAD", place.1),
        ("GIRUVE_AT_ENTRY_RECORD", 0x77),
    ])?;
    expected.resize(read.list.len(), KEPT);
    ensure!(
        read.list == expected,
        "the list is {:02X?}",
        &read.list[..12]
    );
    Ok(())
}

fn recoveries(book: &Book) -> Checked {
    let table = book
        .page
        .table("List", &["a cut that was answered", "entry"])?;
    table.has(&[
        "restart, 5",
        "restart, 5A",
        "finished",
        "corrected only",
        "action 2",
        "refused by 9",
    ])?;
    for [answer, entry] in table.each() {
        let what = answer.strip_prefix("restart, ").unwrap_or(answer);
        let read = book.read(trial(book, what)?)?;
        let counted = if entry == "none" { 0 } else { 1 };
        ensure!(
            read.recoveries == counted,
            "{answer}: {} recoveries",
            read.recoveries
        );
        let first = if entry == "none" { KEPT } else { byte(entry)? };
        ensure!(
            read.list[0] == first,
            "{answer}: entry {:02X}",
            read.list[0]
        );
        ensure!(
            read.list[6 * counted..].iter().all(|&byte| byte == KEPT),
            "{answer}: bytes behind the entries"
        );
    }
    Ok(())
}
