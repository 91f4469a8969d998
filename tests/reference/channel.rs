//! The channel: CCWs and what they name, program checks, incorrect length, the CSW.

use super::book::{Book, Ran, KEPT};
use super::bytes::{byte, bytes, hex, number, value, Checked};
use crate::simulator::channel::ProgramCheck;
use crate::simulator::held::{HeldRestart, HeldRun};
use crate::simulator::run::End;

pub fn check(book: &Book) -> Checked {
    ensure!(book.ccw.length() == 8, "a CCW of another length");
    ensure!(book.csw.length() == 8, "a CSW of another length");
    ignored(book)?;
    status_bits(book)?;
    flags(book)?;
    named_areas(book)?;
    program_checks(book)?;
    no_program_checks(book)?;
    incorrect_length(book)?;
    ends(book)
}

/// One part of a run's CSW.
pub fn shown(book: &Book, ran: &Ran, part: &str) -> Result<usize, String> {
    book.csw.get(&ran.csw, part).map(value)
}

/// The byte of a CCW that means nothing, and the CSW's first, which is 00.
fn ignored(book: &Book) -> Checked {
    let mut chain = book.ccw(0x1A, 0, 0, 5)?;
    let plain = book.run_example(chain.clone(), vec![])?;
    let filled = book.ccw.put(&[("ignored", 0xFF)])?;
    for (byte, filled) in chain.iter_mut().zip(filled) {
        *byte |= filled;
    }
    let ran = book.run_example(chain, vec![])?;
    ensure!(
        (ran.csw, ran.storage) == (plain.csw.clone(), plain.storage),
        "the ignored byte of a CCW is not ignored"
    );
    ensure!(
        book.csw.get(&plain.csw, "00")? == [0],
        "a CSW begins with 00"
    );
    Ok(())
}

/// Each status bit, in the byte of the CSW that its row names.
fn status_bits(book: &Book) -> Checked {
    let table = book
        .page
        .table("CSW", &["status", "value", "name", "C name"])?;
    for [status, value, name, _] in table.each() {
        let cc = book.flag("CC")?;
        let (chain, arguments) = match name {
            "channel end" | "device end" => (book.ccw(0x03, 0, 0, 1)?, vec![]),
            "unit check" => (book.ccw(0x02, 0, 0, 1)?, vec![]),
            "unit exception" => {
                let chain = [book.ccw(0x07, 0, cc, 6)?, book.ccw(0x06, 0, 0, 1)?];
                (chain.concat(), vec![0, 0, 0, 0, 0, 2])
            }
            "incorrect length" => (book.ccw(0x1A, 0, 0, 4)?, vec![]),
            "program check" => (book.ccw(0x08, 0, 0, 0)?, vec![]),
            _ => return Err(format!("no status '{name}'")),
        };
        let ran = book.run_example(chain, arguments)?;
        let shows = shown(book, &ran, &format!("{status} status"))?;
        ensure!(
            shows & usize::from(byte(value)?) != 0,
            "{name}: {status} status {shows:02X}"
        );
    }
    ensure!(table.rows.len() == 6, "{} status bits", table.rows.len());
    Ok(())
}

// ---- flags

fn flags(book: &Book) -> Checked {
    let table = book
        .page
        .table("CCW", &["flag", "value", "name", "effect"])?;
    table.has(&["0", "1", "2", "3", "4", "5", "6", "7"])?;
    for [flag, written, name, effect] in table.each() {
        let flag = book.bit(number(flag)?)?;
        ensure!(byte(written)? == flag, "flag {name}: {written}");
        // A read of the home address with one byte too few or too many, and one more command behind.
        let read = |count: usize| {
            let chain = [book.ccw(0x1A, 0, flag, count)?, book.ccw(0x03, 8, 0, 1)?];
            book.run_example(chain.concat(), vec![])
        };
        let (short, whole, long) = (read(4)?, read(5)?, read(6)?);
        let seen = |ran: &Ran| {
            Ok::<_, String>((
                shown(book, ran, "address")?,
                shown(book, ran, "channel status")?,
                ran.storage[0] != KEPT,
            ))
        };
        let is = |ran: &Ran, address: usize, channel: usize, stores: bool| {
            seen(ran).map(|seen| seen == (address, channel, stores))
        };
        let wrong: usize = book.status("incorrect length")?.into();
        let program: usize = book.status("program check")?.into();
        let holds = match (name, effect) {
            // The count of the CCW behind takes over: 1 byte, or none and 1 is left.
            ("CD", "data chaining: the read goes on in the next CCW") => {
                is(&short, 16, 0, true)? && is(&whole, 16, wrong, true)?
            }
            ("CC", "command chaining: the next CCW is a command of its own") => {
                is(&short, 8, wrong, true)? && is(&whole, 16, 0, true)?
            }
            ("SLI", "incorrect length is not shown, unless CD is on") => {
                is(&short, 8, 0, true)? && is(&long, 8, 0, true)?
            }
            ("skip", "a read's bytes are passed over and not stored") => {
                is(&short, 8, wrong, false)? && is(&whole, 8, 0, false)?
            }
            ("PCI", "none") => is(&short, 8, wrong, true)? && is(&whole, 8, 0, true)?,
            ("none", "program check") => {
                is(&short, 8, program, false)? && is(&whole, 8, program, false)?
            }
            _ => false,
        };
        ensure!(holds, "flag {written}: {name}, {effect}");
    }
    Ok(())
}

// ---- what addresses name

fn named_areas(book: &Book) -> Checked {
    let table = book
        .page
        .table("CCW", &["CCW", "in the chain", "in a restart program"])?;
    let begins = book.page.table("CCW", &["area", "begins at", "C name"])?;
    begins.has(&["restart program", "restart arguments"])?;
    let mut at = [0; 2];
    for ([_, begins, _], at) in begins.each().zip(&mut at) {
        *at = hex(begins)?;
    }
    let [program, arguments] = at;
    let below = format!(
        "below {program:04X} one of the chain, from {program:04X} on one of the restart program"
    );
    let from = format!("restart arguments, from {arguments:04X} on");
    let expected = [
        ["TIC", "a CCW of the chain", &below],
        ["07, 1F, 23, 31, B1", "arguments", &from],
        ["06, 0E, 12, 1E, 1A, 86, 8E, 92, 9E", "storage", "storage"],
        ["03 and unlisted codes", "nothing", "nothing"],
    ];
    ensure!(
        table.each().eq(expected),
        "line {}: the areas that CCWs name",
        table.line
    );
    // In a restart program: a mask from the restart arguments, a TIC into it, a TIC into the chain.
    let cc = book.flag("CC")?;
    let ccws = [
        book.ccw(0x1F, arguments + 6, cc, 1)?,
        book.ccw(0x08, program + 0x18, 0, 0)?,
        book.ccw(0x02, 0, 0, 1)?,
        book.ccw(0x1A, 1, cc, 5)?,
        book.ccw(0x08, 8, 0, 0)?,
    ];
    let ran = restarted(book, &ccws)?;
    let stored = ran.storage[..6] == [KEPT, 0, 0, 0, 0, 0];
    ensure!(
        (ran.mask_set, ran.mask, stored) == (1, 0xC0, true),
        "a restart program's CCWs name other areas"
    );
    ensure!(shown(book, &ran, "address")? == 16, "its TIC to the chain");
    let outside = [
        book.ccw(0x1F, arguments - 1, 0, 1)?,
        book.ccw(0x1F, arguments + 16, 0, 1)?,
        book.ccw(0x1A, 60, 0, 5)?,
    ];
    for ccw in outside {
        let ran = restarted(book, &[ccw])?;
        let check = book.status("program check")?.into();
        ensure!(
            shown(book, &ran, "channel status")? == check,
            "a restart program's CCW outside its area"
        );
    }
    // In the chain an address of 2000 is one of the arguments, 1000 none of its CCWs.
    let mask = book.ccw(0x1F, 3, 0, 1)?;
    let ran = book.run_example(mask, vec![0, 0, 0, 0x40])?;
    ensure!((ran.mask_set, ran.mask) == (1, 0x40), "arguments from 0000");
    Ok(())
}

/// A restart program whose restart arguments have a mask of C0; the chain has a 03 at 0008.
fn restarted(book: &Book, ccws: &[Vec<u8>]) -> Result<Ran, String> {
    let mut program = ccws.concat();
    program.resize(64, 0);
    let mut arguments = vec![0; 16];
    arguments[6] = 0xC0;
    book.run(HeldRun {
        chain: [book.ccw(0x02, 0, 0, 1)?, book.ccw(0x03, 0, 0, 1)?].concat(),
        storage: vec![KEPT; 64],
        image: book.pack()?,
        restart: Some(HeldRestart { program, arguments }),
        ..HeldRun::default()
    })
}

// ---- program checks

/// An example with 16 bytes of arguments and of storage.
fn example(book: &Book, chain: &str) -> Result<HeldRun, String> {
    Ok(HeldRun {
        chain: bytes(chain)?,
        arguments: vec![0; 16],
        storage: vec![KEPT; 16],
        image: book.pack()?,
        ..HeldRun::default()
    })
}

fn program_checks(book: &Book) -> Checked {
    use ProgramCheck::*;
    let causes = [
        ("a count of 0", CountZero),
        ("flag bit 5", LowFlags),
        ("flag bit 6", LowFlags),
        ("flag bit 7", LowFlags),
        ("a TIC at the front of the chain", TicFirst),
        ("a TIC that names a TIC", TicToTic),
        (
            "a TIC to an address that 8 does not divide",
            NotAMultipleOf8,
        ),
        ("a TIC to an address behind the chain", PastTheChain),
        ("no CCW behind one with CC", PastTheChain),
        ("no CCW behind one with CD", PastTheChain),
        ("an argument that is not wholly in the arguments", DataRange),
        ("a read that is not wholly in storage", DataRange),
        ("one of these at a data-chained CCW", DataRange),
    ];
    let table = book
        .page
        .table("Program check", &["cause", "chain", "address"])?;
    table.has(&causes.map(|(cause, _)| cause))?;
    for [cause, chain, address] in table.each() {
        let ran = book.run(example(book, chain)?)?;
        let check = book.status("program check")?;
        let expected = book.csw_of(hex(address)?, 0, check, 0)?;
        ensure!(ran.csw == expected, "{cause}: CSW {:02X?}", ran.csw);
        let rule = causes.iter().find(|(of, _)| *of == cause);
        let found = example(book, chain)?.simulated().map(|ran| ran.end);
        let expected = rule.map(|(_, rule)| End::ProgramCheck(*rule));
        ensure!(
            found.ok() == expected,
            "{cause}: the example shows {found:?}"
        );
        if let Some(bit) = cause.strip_prefix("flag bit ") {
            let flags = book.ccw.get(&bytes(chain)?, "flags").map(value)?;
            ensure!(
                flags == book.bit(number(bit)?)?.into(),
                "{cause}: {flags:02X}"
            );
        }
    }
    Ok(())
}

fn no_program_checks(book: &Book) -> Checked {
    let columns = ["case", "chain", "unit status", "address"];
    let table = book.page.table("Program check", &columns)?;
    table.has(&[
        "a read with skip, wherever its bytes would lie",
        "03 with any address",
        "a code that is not listed, with any address",
        "a TIC with count 0 and any flags",
        "a count that is longer than the record, in range",
    ])?;
    for [case, chain, unit, address] in table.each() {
        let ran = book.run(example(book, chain)?)?;
        let seen = (
            shown(book, &ran, "unit status")?,
            shown(book, &ran, "channel status")?,
            shown(book, &ran, "address")?,
        );
        let expected = (hex(unit)?, 0, hex(address)?);
        ensure!(seen == expected, "{case}: CSW {:02X?}", ran.csw);
    }
    Ok(())
}

// ---- incorrect length, CSW

fn incorrect_length(book: &Book) -> Checked {
    let columns = ["left at the end", "CD", "SLI", "channel status"];
    let table = book.page.table("Incorrect length", &columns)?;
    let mut seen = Vec::new();
    for [left, cd, sli, status] in table.each() {
        let count = match left {
            "nothing" => 5,
            "count" => 6,
            "bytes of the record" => 4,
            _ => return Err(format!("what is left: '{left}'")),
        };
        let mut flags = book.flag("CC")?;
        for (flag, on) in [("CD", cd), ("SLI", sli)] {
            match on {
                "on" => flags |= book.flag(flag)?,
                _ => ensure!(on == "off", "{flag} '{on}'"),
            }
        }
        let chain = [book.ccw(0x1A, 0, flags, count)?, book.ccw(0x03, 0, 0, 1)?];
        let ran = book.run_example(chain.concat(), vec![])?;
        let shows = shown(book, &ran, "channel status")?;
        ensure!(
            shows == hex(status)?,
            "{left}, CD {cd}, SLI {sli}: {shows:02X}"
        );
        let ended = shown(book, &ran, "address")? == 8;
        ensure!(
            ended == (shows != 0),
            "{left}, CD {cd}, SLI {sli}: the chain"
        );
        seen.push((left, cd, sli));
    }
    seen.sort_unstable();
    seen.dedup();
    ensure!(seen.len() == 8, "{} cases of length", seen.len());
    Ok(())
}

fn ends(book: &Book) -> Checked {
    let table = book
        .page
        .table("CSW", &["end", "unit status", "count left"])?;
    table.has(&[
        "program check",
        "03",
        "07, 1F, 23, 31, B1",
        "read",
        "read of a faulted data area",
        "read of an empty data area",
        "command reject, file protected, no record found, end of cylinder",
    ])?;
    let cc = book.flag("CC")?;
    let seek = |head: u8| vec![0, 0, 0, 0, 0, head];
    for [end, unit, left] in table.each() {
        // Each with a count of its own, and with what would be left of it.
        let trials: Vec<(Vec<u8>, Vec<u8>, usize)> = match (end, left) {
            ("program check", "0") => vec![(book.ccw(0x1A, 60, 0, 5)?, vec![], 0)],
            ("03", "its count") => vec![(book.ccw(0x03, 0, 0, 77)?, vec![], 77)],
            ("07, 1F, 23, 31, B1", "0") => vec![
                (book.ccw(0x07, 0, 0, 6)?, seek(0), 0),
                (book.ccw(0x1F, 0, 0, 1)?, seek(0), 0),
                (book.ccw(0x23, 0, 0, 1)?, seek(0), 0),
                (book.ccw(0x31, 0, 0, 5)?, seek(0), 0),
                (book.ccw(0xB1, 0, 0, 5)?, seek(0), 0),
            ],
            ("read", "what its current CCW has left") => {
                vec![(book.ccw(0x1A, 0, 0, 9)?, vec![], 4)]
            }
            ("read of a faulted data area", "what its current CCW has left") => {
                vec![(book.ccw(0x06, 0, 0, 9)?, vec![], 5)]
            }
            ("read of an empty data area", "what its current CCW has left") => {
                let chain = [book.ccw(0x07, 0, cc, 6)?, book.ccw(0x06, 0, 0, 9)?];
                vec![(chain.concat(), seek(2), 9)]
            }
            (_, "the command's whole count") => {
                let alone = [book.ccw(0x07, 0, cc, 6)?, book.ccw(0x06, 0, 0, 9)?];
                let last = [book.ccw(0x07, 0, cc, 6)?, book.ccw(0x86, 0, 0, 9)?];
                let masked = [book.ccw(0x1F, 6, cc, 1)?, book.ccw(0x07, 0, 0, 6)?];
                vec![
                    (book.ccw(0x02, 0, 0, 9)?, vec![], 9),
                    (alone.concat(), seek(1), 9),
                    (last.concat(), seek(18), 9),
                    (masked.concat(), [seek(0), vec![0x10]].concat(), 6),
                ]
            }
            _ => return Err(format!("{end}: count left '{left}'")),
        };
        for (chain, arguments, expected) in trials {
            let ran = book.run(HeldRun {
                chain,
                arguments,
                storage: vec![KEPT; 64],
                image: book.pack()?,
                faults: book.fault((0, 0), 1, 1, 0)?,
                ..HeldRun::default()
            })?;
            let seen = (
                shown(book, &ran, "unit status")?,
                shown(book, &ran, "count left")?,
            );
            ensure!(seen == (hex(unit)?, expected), "{end}: {:02X?}", ran.csw);
        }
    }
    Ok(())
}
