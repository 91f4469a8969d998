//! Recovery: what each answer leaves, what action 5 comes to, which bytes are corrected.

use super::book::{Book, Recovered, ANSWERS, KEPT};
use super::bytes::{byte, number, value, Checked};
use super::questions::changed;
use crate::simulator::held::HeldRecovery;

pub fn check(book: &Book) -> Checked {
    answers(book)?;
    five(book)?;
    extent(book)?;
    corrections(book)
}

/// Changes of the worked report that come to each answer.
const TO_ANSWERS: [(&str, &str); 11] = [
    ("action 1", "sense 0 = 08 80 40"),
    ("action 2", "sense 0 = 80 00 00"),
    ("repeat", "sense 0 = 10 00 00; 15 = 09"),
    ("corrected only", "13 = 01"),
    ("finished", "ccw 0018 = 06 000000 00 00 0004"),
    ("restart", "csw = 00 000020 0E 00 0000"),
    (
        "restart",
        "sense 0 = 00 20 00; 14 = 000000000001; extent = 00000000019A0012",
    ),
    (
        "restart",
        "sense 0 = 00 21 00 06; sense 15 = 000003; csw = 00 000020 0E 00 0001; 14 = 000000000001; \
         extent = 00000000019A0012",
    ),
    (
        "restart",
        "sense 0 = 00 05 00 06; sense 15 = 000003; csw = 00 000020 0E 00 0001; 14 = 000000000001",
    ),
    ("action 2", "extent = 0000 0000 0000 0000"),
    (
        "action 2",
        "sense 0 = 00 21 00 06; sense 15 = 000003; csw = 00 000020 0E 00 0001; 14 = 000000000001",
    ),
];

fn answers(book: &Book) -> Checked {
    let table = book.page.table("Answers", &ANSWERS)?;
    for [number_of, answer, _, storage, restart, action, csw] in table.each() {
        let trials: Vec<&str> = TO_ANSWERS
            .iter()
            .filter(|(to, _)| *to == answer)
            .map(|(_, change)| *change)
            .collect();
        ensure!(!trials.is_empty(), "no trial of '{answer}'");
        for change in trials {
            let held = changed(book, change)?;
            let before = held.clone();
            let recovered = book.recover(held)?;
            ensure!(
                (recovered.number, usize::from(recovered.what)) == (0, number(number_of)?),
                "{answer}: {change} is answered by {}",
                recovered.what
            );
            let of_five = recovered.action & 0x0F == 5;
            let corrects = match storage {
                "as it was" => false,
                "corrected" => true,
                "corrected by 5 and 5A, else as it was" => of_five,
                _ => return Err(format!("{answer}: storage '{storage}'")),
            };
            ensure!(
                (recovered.held.storage != before.storage) == corrects,
                "{answer}: storage '{storage}'"
            );
            let after = (&recovered.held.program, &recovered.held.restart_arguments);
            let holds = match restart {
                "as they were" => after == (&before.program, &before.restart_arguments),
                "written" => !after.0.contains(&KEPT) && !after.1.contains(&KEPT),
                _ => false,
            };
            ensure!(holds, "{answer}: restart areas '{restart}'");
            let holds = match action {
                "the action's" => {
                    let codes = book.codes.iter().filter(|(name, _)| *name != "none");
                    codes
                        .map(|(_, &code)| code)
                        .any(|code| code == recovered.action)
                }
                _ => byte(action)? == recovered.action,
            };
            ensure!(holds, "{answer}: action byte {:02X}", recovered.action);
            csw_of(book, answer, csw, &before, &recovered)?;
        }
    }
    Ok(())
}

fn csw_of(
    book: &Book,
    answer: &str,
    csw: &str,
    before: &HeldRecovery,
    recovered: &Recovered,
) -> Checked {
    let expected = match csw {
        "zeros" => vec![0; 8],
        "the report's, unit check off" => {
            // Behind the 24 sense bytes and the head of its own field.
            let shown = &before.report[30..38];
            let part = |name: &str| book.csw.get(shown, name).map(value);
            let unit = part("unit status")? as u8 & !book.status("unit check")?;
            let channel = part("channel status")? as u8;
            book.csw_of(part("address")?, unit, channel, part("count left")?)?
        }
        _ => return Err(format!("{answer}: CSW '{csw}'")),
    };
    ensure!(
        recovered.csw == expected,
        "{answer}: CSW {:02X?}",
        recovered.csw
    );
    Ok(())
}

/// Each case, and each with those above it.
fn five(book: &Book) -> Checked {
    let table = book.page.table("Answers", &["case", "answer"])?;
    // A read of 4 bytes with a count of 5, a read without CC, an extent elsewhere.
    let cases = [
        ("mask bit 7 on", "13 = 01"),
        (
            "incorrect length",
            "ccw 0018 = 06 000000 40 00 0005; csw = 00 000020 0E 40 0001",
        ),
        ("current CCW without CC", "ccw 0018 = 06 000000 00 00 0004"),
        (
            "track of sense 8 to 11 not on the pack, or not in the extent",
            "extent = 0000 0000 0000 0000",
        ),
        ("otherwise", "csw = 00 000020 0E 00 0000"),
    ];
    let found: Vec<&str> = table.each().map(|[case, _]| case).collect();
    ensure!(
        found == cases.map(|(case, _)| case),
        "line {}: other cases, or in another order",
        table.line
    );
    for (at, [case, answer]) in table.each().enumerate() {
        // Alone, and with each case that stands below it.
        for below in at..cases.len() {
            if found[below] == "otherwise" && below != at {
                continue;
            }
            let change = match (found[at], found[below]) {
                // Both change the same CCW: a count left, and CC off.
                ("incorrect length", "current CCW without CC") => {
                    "ccw 0018 = 06 000000 00 00 0005; csw = 00 000020 0E 40 0001".to_string()
                }
                _ => format!("{}; {}", cases[below].1, cases[at].1),
            };
            let recovered = book.recover(changed(book, &change)?)?;
            let expected = book.answers.get(answer).copied();
            ensure!(
                recovered.number == 0 && Some(recovered.what) == expected,
                "{case}: {change} is answered by {}",
                recovered.what
            );
        }
    }
    let off = book.recover(changed(book, "sense 8 = 019B 0000")?)?;
    ensure!(
        book.answers.get("action 2") == Some(&off.what),
        "a track off the pack"
    );
    Ok(())
}

/// Tracks in an extent from 004/05 to 005/02, and beside it: the seek of action 10.
fn extent(book: &Book) -> Checked {
    for (cylinder, head, inside) in [
        (4, 4, false),
        (4, 5, true),
        (4, 18, true),
        (5, 0, true),
        (5, 2, true),
        (5, 3, false),
        (3, 10, false),
    ] {
        let change = format!(
            "sense 0 = 00 04 00; csw = 00 000008 0E 00 0006; 14 = 0000{cylinder:04X}{head:04X}; \
             extent = 0004 0005 0005 0002"
        );
        let recovered = book.recover(changed(book, &change)?)?;
        let answer = if inside { "restart" } else { "action 2" };
        ensure!(
            book.answers.get(answer) == Some(&recovered.what),
            "track {cylinder}/{head} in the extent: {}",
            recovered.what
        );
    }
    Ok(())
}

fn corrections(book: &Book) -> Checked {
    let columns = [
        "restart displacement",
        "error displacement",
        "CCWs",
        "pattern byte 0",
        "pattern byte 1",
        "pattern byte 2",
    ];
    let table = book.page.table("Correction", &columns)?;
    let mut fates = Vec::new();
    for [restart, error, ccws, pattern @ ..] in table.each::<6>() {
        let (restart, error) = (number(restart)?, number(error)?);
        let held = cut_of(book, restart, error, ccws)?;
        let before = held.storage.clone();
        let recovered = book.recover(held)?;
        ensure!(
            recovered.number == 0,
            "{ccws}: refused by {}",
            recovered.number
        );
        let mut expected = before;
        for (place, byte) in pattern.into_iter().zip([0x11, 0x22, 0x44]) {
            match number(place) {
                Ok(at) => expected[at] ^= byte,
                Err(_) => fates.push(place),
            }
        }
        ensure!(
            recovered.held.storage == expected,
            "{restart}, {error}, {ccws}: other bytes are corrected"
        );
    }
    ensure!(table.rows.len() == 5, "{} examples", table.rows.len());
    fates.sort_unstable();
    fates.dedup();
    ensure!(
        fates == ["behind the data", "past the counts", "replaced", "skipped"],
        "the cases without a place are {fates:?}"
    );
    Ok(())
}

/// The report of a cut of these CCWs, "78 at 100, 2 at 500", behind a run of such a chain.
fn cut_of(book: &Book, restart: usize, error: usize, ccws: &str) -> Result<HeldRecovery, String> {
    let ccws: Vec<&str> = ccws.split(", ").collect();
    let mut chain = Vec::new();
    let mut counts = 0;
    for (at, ccw) in ccws.iter().enumerate() {
        let mut flags = book.flag("SLI")?;
        if at + 1 < ccws.len() {
            flags = book.flag("CD")?;
        }
        let (count, address) = match ccw.split_once(" at ") {
            Some((count, address)) => (number(count)?, number(address)?),
            None => {
                let count = ccw.strip_suffix(" skipped");
                flags |= book.flag("skip")?;
                (number(count.ok_or(format!("'{ccw}' is no CCW"))?)?, 0)
            }
        };
        counts += count;
        chain.extend(book.ccw(0x06, address, flags, count)?);
    }
    ensure!(counts <= restart, "counts for {counts} of {restart} bytes");
    let mut held = changed(
        book,
        &format!("sense 15 = {restart:06X}; sense 18 = {error:04X}; sense 20 = 112244; 12 = 0000"),
    )?;
    let unit = book.status("channel end+device end+unit check")?;
    let csw = book.csw_of(chain.len(), unit, 0, 0)?;
    held.report[30..38].copy_from_slice(&csw);
    held.chain = chain;
    Ok(held)
}
