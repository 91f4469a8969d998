//! Holds the tables of docs/REFERENCE.md to the library, to the sources and to the C header.
//!
//! `reference PAGE HEADER`, in the repository's root. Each check finds its tables by heading and
//! columns; a table that is missing, has no rows or is asked for by no check is a failure.

#[path = "differential/library.rs"]
mod library;
mod simulator;

/// Leaves a check with what is wrong.
macro_rules! ensure {
    ($holds:expr, $($what:tt)*) => {
        if !$holds {
            return Err(format!($($what)*));
        }
    };
}

mod reference {
    pub mod annotations;
    pub mod answers;
    pub mod book;
    pub mod bytes;
    pub mod channel;
    pub mod drive;
    pub mod error_table;
    pub mod fields;
    pub mod inputs;
    pub mod limits;
    pub mod models;
    pub mod names;
    pub mod pack_numbers;
    pub mod page;
    pub mod questions;
    pub mod reading;
    pub mod recovery;
    pub mod restart;
    pub mod sense;
    pub mod sentences;
}

use reference::book::Book;
use reference::page::Page;
use reference::*;
use std::fs;
use std::panic::{catch_unwind, set_hook, AssertUnwindSafe};
use std::process::ExitCode;

type Check = fn(&Book) -> Result<(), String>;

/// The longest ones last.
const CHECKS: [(&str, Check); 17] = [
    ("names", names::check),
    ("answer areas", answers::check),
    ("inputs", inputs::check),
    ("annotations", annotations::check),
    ("sense", sense::check),
    ("channel", channel::check),
    ("reading", reading::check),
    ("questions", questions::check),
    ("models", models::check),
    ("recovery", recovery::check),
    ("restart", restart::check),
    ("sentences", sentences::check),
    ("fields", fields::check),
    ("drive", drive::check),
    ("numbers on a pack", pack_numbers::check),
    ("numbers and limits", limits::check),
    ("error table", error_table::check),
];

fn main() -> ExitCode {
    let arguments: Vec<String> = std::env::args().skip(1).collect();
    let [page, header] = &arguments[..] else {
        eprintln!("usage: reference PAGE HEADER");
        return ExitCode::from(2);
    };
    match held(page, header) {
        Ok(()) => ExitCode::SUCCESS,
        Err(failure) => {
            eprintln!("{page}: {failure}");
            ExitCode::FAILURE
        }
    }
}

fn held(page: &str, header: &str) -> Result<(), String> {
    let read = |path: &str| fs::read_to_string(path).map_err(|error| format!("{path}: {error}"));
    let (text, header) = (read(page)?, read(header)?);
    let (tables, rows) = checked(&text, &header)?;
    println!("reference: {tables} tables, {rows} rows");
    without_each_row(&text, &header)
}

/// Tables and rows of a page that holds, or the first thing that does not.
fn checked(text: &str, header: &str) -> Result<(usize, usize), String> {
    let book = Book::of(Page::of(text)?, header.to_string())?;
    for (name, check) in CHECKS {
        check(&book).map_err(|failure| format!("{name}: {failure}"))?;
    }
    if let Some(table) = book.page.unasked().first() {
        return Err(table.clone());
    }
    Ok(book.page.size())
}

/// The test's own: no row can be left out unnoticed.
fn without_each_row(text: &str, header: &str) -> Result<(), String> {
    // A table that lacks a row can lead a check outside an array: that is noticed too.
    set_hook(Box::new(|_| ()));
    let lines: Vec<&str> = text.lines().collect();
    for row in Page::of(text)?.row_lines() {
        let without = [&lines[..row - 1], &lines[row..]].concat().join("\n");
        let outcome = catch_unwind(AssertUnwindSafe(|| checked(&without, header)));
        ensure!(
            !matches!(outcome, Ok(Ok(_))),
            "line {row} can be left out, and no check notices"
        );
    }
    Ok(())
}
