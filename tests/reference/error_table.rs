//! The error table, the actions and the tries, over every combination of the bits that rows have.

use super::book::{split, tagged, Book};
use super::bytes::{hex, number, range, source, Checked};
use super::questions::changed;
use crate::library;
use crate::simulator::held::HeldRecovery;
use std::collections::HashMap;

pub fn check(book: &Book) -> Checked {
    let rows = rows(book)?;
    same_as_source(&rows)?;
    let actions = actions(book)?;
    let mut bits = Vec::new();
    for byte in 0..3 {
        for bit in 0..8 {
            let mask = 0x80u8 >> bit;
            if rows.iter().any(|(row, _)| row[byte] & mask != 0) {
                bits.push((byte, mask));
            }
        }
    }
    ensure!(bits.len() == 15, "{} bits in the rows", bits.len());
    let mut reports = [report(book, false)?, report(book, true)?];
    for combination in 0..1usize << bits.len() {
        let mut sense = [0; 3];
        for (place, &(byte, mask)) in bits.iter().enumerate() {
            if combination >> place & 1 != 0 {
                sense[byte] |= mask;
            }
        }
        let is_in = |row: &[u8; 3]| (0..3).all(|byte| row[byte] & !sense[byte] == 0);
        let row = rows.iter().find(|(row, _)| is_in(row));
        for tries in [0, 1, 9, 10, 255] {
            for (is_seek, held) in [false, true].into_iter().zip(&mut reports) {
                let action = row.map(|(_, action)| &action[..]);
                // The report of an interrupted seek is no report of a cut.
                if is_seek && (action != Some("10") || tries != 0) {
                    continue;
                }
                let expected = expected(book, &actions, action, tries, is_seek)?;
                let found = answered(held, sense, tries);
                ensure!(
                    found == expected,
                    "sense {sense:02X?}, {tries} tries, action {}: {found:?}, where {expected:?} \
                     is expected",
                    action.unwrap_or("none")
                );
            }
        }
    }
    Ok(())
}

/// The bits of each row, and its action.
fn rows(book: &Book) -> Result<Vec<([u8; 3], String)>, String> {
    let table = book.page.table("Error table", &["row", "bits", "action"])?;
    let mut rows = Vec::new();
    for [row, bits, action] in table.each() {
        ensure!(number(row)? == rows.len() + 1, "row {row} is out of order");
        rows.push((book.sense_bits(bits)?, action.to_string()));
    }
    ensure!(rows.len() == 20, "{} rows", rows.len());
    Ok(rows)
}

/// The actions that are not built are all refused alike: only the source tells them apart.
fn same_as_source(rows: &[([u8; 3], String)]) -> Checked {
    const PATH: &str = "crates/error_table/src/lib.rt";
    let text = source(PATH)?;
    let codes = codes(PATH, &text)?;
    let mut found = Vec::new();
    for line in text.lines() {
        let Some(row) = line.strip_prefix("    row!(") else {
            continue;
        };
        let Some((bits, action)) = row.trim_end_matches("),").split_once(" => ") else {
            return Err(format!("{PATH}: '{line}'"));
        };
        let bits: Vec<u8> = bits
            .split(", ")
            .map(source_byte)
            .collect::<Result<_, _>>()?;
        let &[first, second, third] = &bits[..] else {
            return Err(format!("{PATH}: '{line}'"));
        };
        let action = match codes.get(action) {
            Some(0x16) => "6A".to_string(),
            Some(code) => code.to_string(),
            None => return Err(format!("{PATH}: '{line}'")),
        };
        found.push(([first, second, third], action));
    }
    ensure!(found == rows, "the rows are not those of {PATH}");
    Ok(())
}

/// The code of each action by its name.
fn codes(path: &str, text: &str) -> Result<HashMap<String, u8>, String> {
    let cases = text
        .split_once("pub enum Action {\n")
        .and_then(|(_, cases)| cases.split_once("\n}\n"));
    let Some((cases, _)) = cases else {
        return Err(format!("{path}: no enum `Action`"));
    };
    let mut codes = HashMap::new();
    for line in cases.lines() {
        let Some((name, code)) = line.trim().trim_end_matches(',').split_once(" = ") else {
            return Err(format!("{path}: '{line}'"));
        };
        codes.insert(name.to_string(), source_byte(code)?);
    }
    Ok(codes)
}

/// A byte as the source has it, in hexadecimal or decimal digits.
fn source_byte(number: &str) -> Result<u8, String> {
    let value = match number.strip_prefix("0x") {
        Some(digits) => hex(digits)?,
        None => self::number(number)?,
    };
    Ok(value as u8)
}

struct Actions {
    /// What is answered to each.
    answers: HashMap<String, String>,
    /// By action and tries.
    by_tries: Vec<(String, (usize, usize), String)>,
}

fn actions(book: &Book) -> Result<Actions, String> {
    let table = book
        .page
        .table("Actions", &["action", "what it means", "answer"])?;
    table.has(&[
        "1", "2", "3", "4", "5", "5A", "6", "6A", "7", "8", "9", "10", "10A", "11",
    ])?;
    let answers = table
        .each()
        .map(|[action, _, answer]| (action.to_string(), answer.to_string()))
        .collect();
    for [action, _, answer] in table.each() {
        let is_built = book.codes.contains_key(action);
        ensure!(
            is_built == (answer == "restart"),
            "action {action}: {answer}"
        );
    }
    let table = book.page.table("Actions", &["action", "tries", "answer"])?;
    let mut by_tries = Vec::new();
    let mut next: HashMap<&str, usize> = HashMap::new();
    for [action, tries, answer] in table.each() {
        let tries = range(tries)?;
        let first = next.entry(action).or_default();
        ensure!(tries.0 == *first, "action {action}: tries from {}", tries.0);
        *first = tries.1 + 1;
        by_tries.push((action.to_string(), tries, answer.to_string()));
    }
    ensure!(
        next == HashMap::from([("3", 256), ("4", 256)]),
        "tries of 3 and 4 up to 255"
    );
    Ok(Actions { answers, by_tries })
}

/// Number returned, number of the answer, action code.
type Answer = (u8, u8, u8);

fn expected(
    book: &Book,
    actions: &Actions,
    action: Option<&str>,
    tries: usize,
    is_seek: bool,
) -> Result<Answer, String> {
    let Some(action) = action else {
        return Ok((6, 0, 0));
    };
    // The next command of the report is a 06; without a seek 10 is 10A.
    let action = match (action, is_seek) {
        ("5", _) => "5A",
        ("10", false) => "10A",
        _ => action,
    };
    let known = actions.answers.get(action);
    let mut answer = &known.ok_or(format!("no action {action}"))?[..];
    if answer == "refused by 7" {
        return Ok((7, 0, 0));
    }
    if answer == "by tries" {
        let row = actions
            .by_tries
            .iter()
            .find(|(of, (first, last), _)| of == action && (*first..=*last).contains(&tries));
        answer = &row.ok_or(format!("no tries {tries} of action {action}"))?.2;
    }
    let number = *book.answers.get(answer).ok_or(format!("no '{answer}'"))?;
    let code = if answer == "restart" { action } else { "none" };
    let code = *book.codes.get(code).ok_or(format!("no code of {code}"))?;
    Ok((0, number, code))
}

/// The worked report with a seek argument and tries, in an extent that is the whole pack; of an
/// interrupted seek, with the CSW of the chain's first CCW. Else a byte of the read's CCW is left, as 9
/// and 11 need it; with SLI that is no incorrect length, which would end 5.
fn report(book: &Book, of_seek: bool) -> Result<HeldRecovery, String> {
    const ONE_LEFT: &str =
        "sense 3 = 06; ccw 0018 = 06 000000 60 00 0005; csw = 00 000020 0E 00 0001";
    let mut held = changed(book, ONE_LEFT)?;
    let mut report = Vec::new();
    for (tag, contents) in split(&held.report)? {
        let mut contents = contents.to_vec();
        if of_seek && tag == book.tag("CSW")? {
            contents = book.csw_of(8, contents[4], 0, 6)?;
        }
        report.extend(tagged(tag, &contents));
    }
    report.extend(book.field("seek argument", &[0, 0, 0, 0, 0, 1])?);
    report.extend(book.field("tries", &[0])?);
    held.report = report;
    held.extent = book.tracks((0, 0), (410, 18))?;
    Ok(held)
}

/// What the library answers; sense stands in front and tries last in the report.
fn answered(held: &mut HeldRecovery, sense: [u8; 3], tries: usize) -> Answer {
    held.report[3..6].copy_from_slice(&sense);
    *held.report.last_mut().expect("tries") = tries as u8;
    let mut answer = [0; 10];
    let number = library::recover_held(held, &mut answer);
    (number, answer[0], answer[1])
}
