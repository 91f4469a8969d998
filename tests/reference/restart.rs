//! Restart programs and their arguments, assembled from the tables.

use super::book::{Book, Layout, COMMANDS};
use super::bytes::{big_endian, byte, bytes, hex, number, value, Checked};
use super::inputs::{worked, worked_under, OF_FIVE_A, OF_NINE};
use super::questions::changed_on;
use crate::simulator::held::HeldRecovery;

pub fn check(book: &Book) -> Checked {
    bit_3(book)?;
    each_action(book)?;
    restart_ccw_1(book)?;
    for heading in [OF_FIVE_A, OF_NINE] {
        worked_restart(book, heading)?;
    }
    Ok(())
}

/// The listed commands with bit 3 on and off, as the text names them.
fn bit_3(book: &Book) -> Checked {
    let (on, off) = (&AFTER_FIVE, &AFTER_FIVE_A);
    let named = |codes: &[u8]| {
        let codes: Vec<String> = codes.iter().map(|code| format!("{code:02X}")).collect();
        let (last, others) = codes.split_last().expect("some codes");
        format!("{} and {last}", others.join(", "))
    };
    let said = format!("{} have it on, {} off", named(on), named(off));
    ensure!(book.page.says(&said), "bit 3: {said}");
    let mut listed = Vec::new();
    for [code, ..] in book.page.table("Commands", &COMMANDS)?.each::<5>() {
        listed.push(byte(code)?);
    }
    listed.sort_unstable();
    let mut both = [&on[..], off].concat();
    both.sort_unstable();
    ensure!(both == listed, "bit 3 is not told of each command");
    Ok(())
}

/// The commands behind a cut that make it 5, and 5A.
const AFTER_FIVE: [u8; 8] = [0x12, 0x1A, 0x1E, 0x1F, 0x31, 0x92, 0x9E, 0xB1];
const AFTER_FIVE_A: [u8; 7] = [0x03, 0x06, 0x07, 0x0E, 0x23, 0x86, 0x8E];

/// What a restart is built from.
struct Case {
    action: &'static str,
    /// Sense bytes 0 to 2.
    sense: &'static str,
    /// Of the CSW: behind the CCW that the report is about.
    address: usize,
    /// Flags and count left of the read at 0018.
    flags: u8,
    left: usize,
    /// The command to go on with behind a cut, at 0030.
    next: u8,
    seek_argument: [u8; 6],
    sense_6: u8,
    mask: Option<u8>,
}

const RECORD: [u8; 5] = [0x01, 0x04, 0x00, 0x12, 0x77];
const SECTOR: u8 = 0x05;

/// The data address and the count of the read at 0018.
const READ_TO: usize = 0x10;
const COUNT: usize = 4;

fn each_action(book: &Book) -> Checked {
    let mut cases = Vec::new();
    let cc = book.flag("CC")?;
    for mask in [None, Some(0x00), Some(0xD8), Some(0x01)] {
        let mut add = |action, sense, address, next, (head, sense_6)| {
            cases.push(Case {
                action,
                sense,
                address,
                flags: cc,
                left: 0,
                next,
                seek_argument: [0, 0, 0, 4, 0, head],
                sense_6,
                mask,
            })
        };
        // In PCI fetch mode 5 builds no restart.
        if mask != Some(0x01) {
            for next in AFTER_FIVE {
                add("5", "08 00 40", 0x20, next, (0, 0x5F));
            }
            for next in AFTER_FIVE_A {
                add("5A", "08 00 40", 0x20, next, (0, 0x5F));
            }
        }
        for head in [0, 3, 18] {
            for sense_6 in [0x00, 0x02, 0x13, 0xFF] {
                add("8", "00 20 00", 0x20, 0x06, (head, sense_6));
                add("10", "00 04 00", 0x08, 0x06, (head, sense_6));
            }
            // Heads 0, 2, 3, 17 and 18, with bits 0 to 2 off and on.
            for sense_6 in [0x00, 0x02, 0x11, 0x12, 0x43, 0xF2] {
                add("10A", "00 04 00", 0x20, 0x06, (head, sense_6));
            }
        }
        let mut add = |action, sense, (flags, left), (head, sense_6)| {
            cases.push(Case {
                action,
                sense,
                address: 0x20,
                flags,
                left,
                next: 0x06,
                seek_argument: [0, 0, 0, 4, 0, head],
                sense_6,
                mask,
            })
        };
        for head in [0, 3, 18] {
            for sense_6 in [0x00, 0x02, 0x13, 0xFF] {
                add("9", "00 21 00", (cc, 1), (head, sense_6));
            }
            for sense_6 in [0x00, 0x02, 0x11, 0x12, 0x43, 0xF2] {
                add("11", "00 05 00", (cc, 1), (head, sense_6));
            }
        }
        // Each combination of CD, CC, SLI, skip and PCI, with 3 bytes taken to none.
        for flags in (0..32).map(|flags| flags << 3) {
            for left in 1..=COUNT {
                add("9", "00 21 00", (flags, left), (3, 0x12));
                add("11", "00 05 00", (flags, left), (3, 0x12));
            }
        }
    }
    for case in &cases {
        let (program, arguments) = assembled(book, case)?;
        let what = format!(
            "action {} before {:02X}, flags {:02X}, {} left, sense 6 {:02X}, mask {:02X?}",
            case.action, case.next, case.flags, case.left, case.sense_6, case.mask
        );
        let recovered = book.recover(held(book, case)?)?;
        ensure!(
            recovered.number == 0 && book.answers.get("restart") == Some(&recovered.what),
            "{what}: {} and {}",
            recovered.number,
            recovered.what
        );
        ensure!(
            book.codes.get(case.action) == Some(&recovered.action),
            "{what}: action code {:02X}",
            recovered.action
        );
        ensure!(
            recovered.held.program == program,
            "{what}: the program is {:02X?}, not {program:02X?}",
            recovered.held.program
        );
        ensure!(
            recovered.held.restart_arguments == arguments,
            "{what}: the arguments are {:02X?}, not {arguments:02X?}",
            recovered.held.restart_arguments
        );
    }
    Ok(())
}

/// A chain whose CCWs behind the seek and behind the read are TICs to 0030.
fn held(book: &Book, case: &Case) -> Result<HeldRecovery, String> {
    let cc = book.flag("CC")?;
    let ccws = [
        book.ccw(0x07, 0, cc, 6)?,
        book.ccw(0x08, 0x30, 0, 0)?,
        book.ccw(0x03, 0, cc, 1)?,
        book.ccw(0x06, READ_TO, case.flags, COUNT)?,
        book.ccw(0x08, 0x30, 0, 0)?,
        book.ccw(0x03, 0, cc, 1)?,
        book.ccw(case.next, 0, 0, 6)?,
    ];
    let mut held = worked(book)?;
    held.chain = ccws.concat();
    held.extent = book.tracks((0, 0), (410, 18))?;
    let id: String = RECORD.iter().map(|byte| format!("{byte:02X}")).collect();
    let argument: String = case
        .seek_argument
        .iter()
        .map(|byte| format!("{byte:02X}"))
        .collect();
    let mut change = format!(
        "sense 0 = {} 06; sense 6 = {:02X}; sense 8 = {id}; sense 13 = {SECTOR:02X}; \
         sense 15 = {:06X}; csw = 00 {:06X} 0E 00 {:04X}; 14 = {argument}",
        case.sense,
        case.sense_6,
        COUNT - case.left,
        case.address,
        case.left
    );
    if let Some(mask) = case.mask {
        change += &format!("; 13 = {mask:02X}");
    }
    changed_on(book, held, &change)
}

/// Program and arguments as the tables say.
fn assembled(book: &Book, case: &Case) -> Result<(Vec<u8>, Vec<u8>), String> {
    let columns = [
        "action",
        "seek argument",
        "sector",
        "ID",
        "CCW to go on with",
    ];
    let table = book.page.table("Where a restart goes", &columns)?;
    table.has(&["5", "5A", "8", "9", "10", "10A", "11"])?;
    let row = table
        .each::<5>()
        .find(|[action, ..]| *action == case.action);
    let [_, seek, sector, id, go_on] = row.ok_or("no such action")?;
    let cylinder = value(&case.seek_argument[2..4]);
    let head_reached = usize::from(case.sense_6 & 0x1F);
    let of_place = |place: usize| {
        [
            vec![0, 0],
            big_endian(place / 19, 2),
            big_endian(place % 19, 2),
        ]
        .concat()
    };
    let seek = match seek {
        "00 00 and sense 8 to 11" => [&[0, 0], &RECORD[..4]].concat(),
        "head 0 of the cylinder behind field 14's" => of_place((cylinder + 1) * 19),
        "field 14" => case.seek_argument.to_vec(),
        "the track behind field 14's cylinder and the head reached" => {
            of_place(cylinder * 19 + head_reached + 1)
        }
        _ => return Err(format!("seek argument '{seek}'")),
    };
    let sector = match sector {
        "sense 13" => SECTOR,
        _ => byte(sector)?,
    };
    let id = match id {
        "sense 8 to 12" => RECORD,
        "zeros" => [0; 5],
        _ => return Err(format!("ID '{id}'")),
    };
    let go_on = match go_on {
        "behind the current CCW" | "behind the interrupted CCW" => 0x30,
        "the interrupted CCW" => case.address - 8,
        _ => return Err(format!("CCW to go on with '{go_on}'")),
    };
    let program = program(book, case, go_on)?;
    Ok((program, arguments(book, case, &seek, sector, &id)?))
}

/// The name of a command.
fn command<'a>(book: &'a Book, code: &str) -> Result<&'a str, String> {
    let table = book.page.table("Commands", &COMMANDS)?;
    let row = table.each::<5>().find(|row| row[0] == code);
    Ok(row.ok_or(format!("{code} is no command"))?[1])
}

fn program(book: &Book, case: &Case, go_on: usize) -> Result<Vec<u8>, String> {
    let columns = ["step", "built", "code", "address", "flags", "count"];
    let heading = match case.action {
        "5" | "5A" => "Program of 5 and 5A",
        "9" | "11" => "Program of 9 and 11",
        _ => "Program of 8, 10 and 10A",
    };
    let mut program = Vec::new();
    let mut search = None;
    for [step, built, code, address, flags, count] in book.page.table(heading, &columns)?.each() {
        let name = match code {
            "08" if program.is_empty() => "",
            "08" if address == "the search" => "TIC back",
            "08" => "TIC on",
            _ => command(book, code)?,
        };
        ensure!(step == name, "{heading}: {step} has the code of '{name}'");
        let is_built = match built {
            "always" => true,
            "where a mask was set" => case.mask.is_some(),
            "in 5A before 86 and 8E" => case.action == "5A" && [0x86, 0x8E].contains(&case.next),
            "in 5A before all others" => case.action == "5A" && ![0x86, 0x8E].contains(&case.next),
            "where the interrupted CCW has CD or CC" => {
                case.flags & (book.flag("CD")? | book.flag("CC")?) != 0
            }
            _ => return Err(format!("{step}: built '{built}'")),
        };
        if !is_built {
            continue;
        }
        let here = 0x1000 + program.len();
        if step == "search ID equal" {
            search = Some(here);
        }
        let address = match address {
            "the search" => search.ok_or("no search")?,
            "the CCW to go on with" => go_on,
            "the next byte of the interrupted CCW" => {
                let skips = case.flags & book.flag("skip")? != 0;
                READ_TO + if skips { 0 } else { COUNT - case.left }
            }
            _ => hex(address)?,
        };
        let flags = match flags {
            "those of the interrupted CCW" => case.flags,
            _ => byte(flags)?,
        };
        let count = match count {
            "the count left" => case.left,
            _ => hex(count)?,
        };
        program.extend(book.ccw(byte(code)?, address, flags, count)?);
    }
    program.resize(64, 0);
    Ok(program)
}

fn arguments(
    book: &Book,
    case: &Case,
    seek: &[u8],
    sector: u8,
    id: &[u8],
) -> Result<Vec<u8>, String> {
    let columns = ["offset", "address", "length", "contents"];
    let table = book.page.table("Arguments of a restart", &columns)?;
    for [offset, address, ..] in table.each::<4>() {
        ensure!(
            hex(address)? == 0x2000 + number(offset)?,
            "{address} is not offset {offset}"
        );
    }
    let layout = Layout::of(table, "contents")?;
    ensure!(
        layout.length() == 16,
        "{} bytes of arguments",
        layout.length()
    );
    layout.put(&[
        ("seek argument", value(seek)),
        ("mask; 00 where none was set", case.mask.unwrap_or(0).into()),
        ("sector", sector.into()),
        ("ID", value(id)),
        ("zeros", 0),
    ])
}

/// Each example of restart CCW 1, by 9 and by 11.
fn restart_ccw_1(book: &Book) -> Checked {
    const PLACE: usize = 0x18;
    let columns = [
        "chain",
        "restart displacement",
        "CSW's address",
        "count left",
        "restart CCW 1",
        "TIC on to",
    ];
    let table = book.page.table("Restart CCW 1", &columns)?;
    ensure!(table.rows.len() == 7, "{} examples", table.rows.len());
    for [chain, restart, address, left, ccw, tic] in table.each() {
        let mut expected = bytes(ccw)?;
        if tic != "none" {
            expected.extend(book.ccw(0x08, hex(tic)?, 0, 0)?);
        }
        expected.resize(64 - PLACE, 0);
        for (action, sense) in [("9", "00 21 00 06"), ("11", "00 05 00 06")] {
            let mut held = worked(book)?;
            held.chain = bytes(chain)?;
            held.extent = book.tracks((0, 0), (410, 18))?;
            let change = format!(
                "sense 0 = {sense}; sense 15 = {:06X}; csw = 00 {address} 0E 00 {:04X}; \
                 12 = 0000; 14 = 000000000000",
                number(restart)?,
                number(left)?
            );
            let recovered = book.recover(changed_on(book, held, &change)?)?;
            ensure!(
                recovered.number == 0 && book.codes.get(action) == Some(&recovered.action),
                "{action}, {chain}, {restart}: {} and {:02X}",
                recovered.number,
                recovered.action
            );
            let built = &recovered.held.program[PLACE..];
            ensure!(
                built == expected,
                "{action}, {chain}, {restart}: {built:02X?}"
            );
        }
    }
    Ok(())
}

/// The bytes of a worked restart are those that the library builds; 5A mends byte 2 of storage.
fn worked_restart(book: &Book, heading: &str) -> Checked {
    let table = book
        .page
        .table(heading, &["address", "bytes", "what it is"])?;
    let mut shown = Vec::new();
    let mut next = 0x1000;
    for [address, written, _] in table.each() {
        if address == "2000" {
            ensure!(next == 0x1040, "the program ends at {next:04X}");
            next = 0x2000;
        }
        ensure!(hex(address)? == next, "{address} is {next:04X}");
        let written = bytes(written)?;
        next += written.len();
        shown.extend(written);
    }
    let before = worked_under(book, heading)?;
    let recovered = book.recover(before.clone())?;
    let built = [
        &recovered.held.program[..],
        &recovered.held.restart_arguments,
    ]
    .concat();
    ensure!(shown == built, "the library builds {built:02X?}");
    let mut storage = before.storage;
    if heading == OF_FIVE_A {
        storage[2] ^= 1;
    }
    ensure!(recovered.held.storage == storage, "another byte is mended");
    Ok(())
}
