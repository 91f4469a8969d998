//! C names: each in the page has the header's value, and each of the header stands in the page.

use super::book::Book;
use super::bytes::{hex, number, Checked};
use super::page::Table;
use std::collections::{BTreeMap, BTreeSet};

pub fn check(book: &Book) -> Checked {
    // Titles and what is taken from each stand nowhere else: there is nothing to hold them to.
    let manuals = book
        .page
        .table("Manuals", &["title", "number", "what it has"])?;
    let numbers: Vec<&str> = manuals.each().map(|[_, number, _]| number).collect();
    ensure!(
        numbers == ["GA26-1615-3", "GA26-1661-9", "GA26-1589-2"],
        "the manuals {numbers:?}"
    );
    book.page
        .table("Other names", &["C name", "value", "what it is"])?;
    let header = constants(&book.header)?;
    let mut in_tables = BTreeSet::new();
    for table in book.page.tables() {
        let Some(column) = table.column("C name") else {
            continue;
        };
        for row in &table.rows {
            for name in row[column].split(", ").filter(|name| !name.is_empty()) {
                let value = header.get(name);
                let value = value.ok_or(format!("the header has no {name}"))?;
                let shown = shown(table, row, name)?;
                ensure!(
                    &shown == value,
                    "line {}: {name} is {value} in the header, here {shown}",
                    table.line
                );
                in_tables.insert(name.to_string());
            }
        }
    }
    for name in header.keys() {
        ensure!(in_tables.contains(name), "no table has {name}");
    }
    let words = book
        .page
        .text
        .split(|c: char| !c.is_ascii_alphanumeric() && c != '_');
    for word in words.filter(|word| word.starts_with("GIRUVE_")) {
        ensure!(header.contains_key(word), "the header has no {word}");
    }
    list_and_report(book, &header)
}

/// What a row says that a name is.
fn shown(table: &Table, row: &[String], name: &str) -> Result<String, String> {
    let cell = |column: &str| {
        let place = table.column(column);
        place.map(|place| &row[place][..])
    };
    let is_hexadecimal = table.column("status").is_some();
    let value = if let (Some(smallest), Some(largest)) = (cell("smallest"), cell("largest")) {
        if name.ends_with("_MIN") {
            number(smallest)
        } else {
            number(largest)
        }
    } else if let (Some(tag), Some(length)) = (cell("tag"), cell("length")) {
        if name.starts_with("GIRUVE_TAG_") {
            hex(tag)
        } else {
            number(length)
        }
    } else if let Some(code) = cell("code").or(cell("begins at")) {
        hex(code)
    } else if let Some(value) = cell("value") {
        if value.contains('.') {
            return Ok(value.to_string());
        }
        if is_hexadecimal {
            hex(value)
        } else {
            number(value)
        }
    } else {
        let value = cell("number").or(cell("offset"));
        number(value.ok_or(format!("line {}: no value of {name}", table.line))?)
    };
    value.map(|value| value.to_string())
}

/// Enum constants and `#define` strings of the header: `NAME = value`, one on a line.
fn constants(header: &str) -> Result<BTreeMap<String, String>, String> {
    let mut constants = BTreeMap::new();
    for line in header.lines() {
        let line = line.trim();
        if let Some(define) = line.strip_prefix("#define GIRUVE_") {
            if let Some((name, value)) = define.split_once(" \"") {
                let value = value.trim_end_matches('"').to_string();
                constants.insert(format!("GIRUVE_{}", name.trim()), value);
            }
            continue;
        }
        let Some((name, rest)) = line.split_once(" = ") else {
            continue;
        };
        if !name.starts_with("GIRUVE_") || name.contains(' ') {
            continue;
        }
        let value = rest
            .split(|c: char| !c.is_ascii_alphanumeric())
            .next()
            .unwrap_or("");
        let value = match value.strip_prefix("0x") {
            Some(digits) => hex(digits)?,
            None => number(value)?,
        };
        let earlier = constants.insert(name.to_string(), value.to_string());
        ensure!(earlier.is_none(), "{name} stands twice in the header");
    }
    ensure!(!constants.is_empty(), "the header has no constants");
    Ok(constants)
}

/// Two names follow from other tables.
fn list_and_report(book: &Book, header: &BTreeMap<String, String>) -> Checked {
    let of = |name: &str| {
        let value = header.get(name).ok_or(format!("no {name}"));
        value.and_then(|value| number(value))
    };
    let list = of("GIRUVE_LIMIT_MAX")? * of("GIRUVE_ENTRY")?;
    ensure!(of("GIRUVE_LIST_MAX")? == list, "a list of {list} bytes");
    let columns = ["tag", "field", "length", "stands in", "C name"];
    let table = book.page.table("Fields", &columns)?;
    let mut report = 0;
    for [_, _, length, stands_in, _] in table.each() {
        if stands_in == "report" {
            report += 3 + number(length)?;
        }
    }
    ensure!(
        of("GIRUVE_REPORT_MAX")? == report,
        "a report of {report} bytes"
    );
    Ok(())
}
