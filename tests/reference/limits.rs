//! Bits, sizes of areas, command limits, the programs' own sizes.

use super::book::{Book, KEPT};
use super::bytes::{bounds, number, range, source, Checked};
use crate::library::{self, LIMIT};
use crate::simulator::areas::RunSizes;
use crate::simulator::held::{HeldRestart, HeldRun};
use crate::simulator::large::{image_of, TracksOf};
use crate::simulator::sample;

/// No size goes by the model.
const MODEL: u8 = 1;

const AREAS: [&str; 4] = ["area", "smallest", "largest", "C name"];

pub fn check(book: &Book) -> Checked {
    for bit in 0..8 {
        ensure!(book.bit(bit)? == 0x80 >> bit, "bit {bit} has another value");
    }
    ensure!(book.bit(8).is_err(), "more than 8 bits");
    areas(book)?;
    image_of_each_size()?;
    commands(book)?;
    programs(book)
}

/// Smallest and largest of an area.
pub fn area(book: &Book, name: &str) -> Result<(usize, usize), String> {
    let table = book.page.table("Limits", &AREAS)?;
    let row = table.each::<4>().find(|&[area, ..]| area == name);
    let [_, smallest, largest, _] = row.ok_or(format!("no area '{name}'"))?;
    Ok((number(smallest)?, number(largest)?))
}

/// Least areas of a run.
const LEAST: RunSizes = RunSizes {
    chain: 8,
    arguments: 0,
    storage: 0,
    image: 0,
    faults: 0,
    limit: 1,
};

fn areas(book: &Book) -> Checked {
    let table = book.page.table("Limits", &AREAS)?;
    table.has(&[
        "chain",
        "arguments",
        "storage",
        "image",
        "fault list",
        "extent",
        "restart program",
        "restart arguments",
        "answer of a run",
        "answer of a recovery",
        "answer of a reading",
        "one entry of a reading's list",
    ])?;
    let of = |sizes: RunSizes| Ok(library::check_areas(sizes));
    let program = area(book, "restart program")?.0;
    let arguments = area(book, "restart arguments")?.0;
    for [name, ..] in table.each::<4>() {
        let (smallest, largest) = area(book, name)?;
        let trial = |size: usize| match name {
            "chain" => of(RunSizes {
                chain: size,
                ..LEAST
            }),
            "arguments" => of(RunSizes {
                arguments: size,
                ..LEAST
            }),
            "storage" => of(RunSizes {
                storage: size,
                ..LEAST
            }),
            "image" => of(RunSizes {
                image: size,
                ..LEAST
            }),
            "fault list" => of(RunSizes {
                faults: size,
                ..LEAST
            }),
            "extent" => Ok(library::check_extent(MODEL, &mut vec![0; size])),
            "restart program" => Ok(library::check_restart_areas(size, arguments)),
            "restart arguments" => Ok(library::check_restart_areas(program, size)),
            "answer of a run" => Ok(library::run_held(&mut sample::run(), &mut vec![0; size])),
            "answer of a recovery" => {
                let mut held = super::inputs::worked(book)?;
                Ok(library::recover_held(&mut held, &mut vec![0; size]))
            }
            "answer of a reading" => read_with(usize::MAX, size),
            _ => Err(format!("no trial of '{name}'")),
        };
        if name == "one entry of a reading's list" {
            entries(book, smallest)?;
            continue;
        }
        bounds(name, (smallest, largest), 1, trial)?;
        if name == "chain" {
            for size in smallest..=largest + 8 {
                let fits = size <= largest && size % 8 == 0;
                let answer = trial(size)?;
                ensure!((answer == 0) == fits, "a chain of {size}: {answer}");
            }
        }
    }
    Ok(())
}

/// The sample's reading, with a list of so many bytes at most and an answer area of this length.
fn read_with(list: usize, answer: usize) -> Result<u8, String> {
    let mut held = sample::reading();
    let mut list = vec![0; list.min(held.list_length)];
    Ok(library::read_held(
        &mut held,
        &mut list,
        &mut vec![0; answer],
    ))
}

fn entries(book: &Book, entry: usize) -> Checked {
    ensure!(
        entry == book.entry.length(),
        "an entry has {} bytes in its table",
        book.entry.length()
    );
    let answer = book.reading_answer.length();
    let least = entry * sample::reading().limit;
    for (list, expected) in [(least - 1, 1), (least, 0)] {
        let number = read_with(list, answer)?;
        ensure!(number == expected, "a list of {list} bytes: {number}");
    }
    let mut held = sample::reading();
    let number = library::read_held(&mut held, &mut vec![0; least + 1], &mut vec![0; answer]);
    ensure!(number == 0, "a longer list: {number}");
    Ok(())
}

/// Images that are well formed and exactly so long.
fn image_of_each_size() -> Checked {
    for (size, expected) in [(1_048_576, 0), (1_048_577, 1)] {
        let answer = library::check_image(MODEL, &mut image_of(size, TracksOf::TWO_RECORDS));
        ensure!(answer == expected, "an image of {size} bytes: {answer}");
    }
    Ok(())
}

fn commands(book: &Book) -> Checked {
    let table = book
        .page
        .table("Limits", &["limit", "smallest", "largest", "C name"])?;
    const OF_A_RUN: &str = "of a run or a reading's first run";
    table.has(&[OF_A_RUN, "of a restarted run"])?;
    for [name, smallest, largest, _] in table.each() {
        let allowed = (number(smallest)?, number(largest)?);
        if name == OF_A_RUN {
            bounds("command limit", allowed, 1, |limit| {
                Ok(library::check_areas(RunSizes { limit, ..LEAST }))
            })?;
            for (limit, expected) in [(1, LIMIT), (2, LIMIT), (3, 0)] {
                let answer = book.run(three(book, limit)?)?.number;
                ensure!(answer == expected, "3 commands of {limit}: {answer}");
            }
        } else {
            ensure!(allowed.0 == allowed.1, "a restarted run has one limit");
            for (commands, expected) in [(allowed.0, 0), (allowed.0 + 1, LIMIT)] {
                let answer = book.run(restarted(book, commands)?)?.number;
                ensure!(
                    answer == expected,
                    "a restarted run of {commands} commands: {answer}"
                );
            }
        }
    }
    Ok(())
}

/// Three commands, with TICs between them.
fn three(book: &Book, limit: usize) -> Result<HeldRun, String> {
    let cc = book.flag("CC")?;
    let ccws = [
        book.ccw(0x03, 0, cc, 1)?,
        book.ccw(0x08, 16, 0, 0)?,
        book.ccw(0x03, 0, cc, 1)?,
        book.ccw(0x08, 32, 0, 0)?,
        book.ccw(0x03, 0, 0, 1)?,
    ];
    Ok(HeldRun {
        chain: ccws.concat(),
        limit,
        ..HeldRun::default()
    })
}

/// A restarted run of exactly so many commands: a no-operation of the restart program, then searches
/// through a track of 256 records, each group with a no-operation behind it.
fn restarted(book: &Book, commands: usize) -> Result<HeldRun, String> {
    let cc = book.flag("CC")?;
    let numbers: Vec<(usize, &[u8])> = (1..=255).map(|number| (number, &[][..])).collect();
    let mut left = commands - 1;
    let mut chain = Vec::new();
    let mut arguments = Vec::new();
    while left > 0 {
        let searches = (left - 1).min(256);
        let at = chain.len();
        if searches > 0 {
            chain.extend(book.ccw(0x31, arguments.len(), cc, 5)?);
            chain.extend(book.ccw(0x08, at, 0, 0)?);
            arguments.extend([0, 0, 0, 0, (searches - 1) as u8]);
        }
        left -= searches + 1;
        chain.extend(book.ccw(0x03, 0, if left > 0 { cc } else { 0 }, 1)?);
    }
    let mut program = [book.ccw(0x03, 0, cc, 1)?, book.ccw(0x08, 0, 0, 0)?].concat();
    program.resize(area(book, "restart program")?.0, 0);
    Ok(HeldRun {
        chain,
        arguments,
        image: book.track((0, 0), &numbers)?,
        restart: Some(HeldRestart {
            program,
            arguments: vec![KEPT; area(book, "restart arguments")?.0],
        }),
        ..HeldRun::default()
    })
}

/// The programs' sizes stand in their sources alone.
fn programs(book: &Book) -> Checked {
    let columns = ["program", "longest input", "storage", "limit"];
    let table = book.page.table("Limits", &columns)?;
    table.has(&["reading", "explain"])?;
    for [program, input, storage, limit] in table.each() {
        let (storage_in, limit_in) = match program {
            "reading" => ("reading", Some("reading_session")),
            _ => ("explain_session", None),
        };
        let input_in = format!("crates/{program}_input/src/lib.rt");
        let longest = format!("if {} < input.len()", number(input)?);
        ensure!(
            source(&input_in)?.contains(&longest),
            "{input_in} has no '{longest}'"
        );
        let file = if storage_in == "reading" {
            "main"
        } else {
            "lib"
        };
        let storage_in = format!("crates/{storage_in}/src/{file}.rt");
        let lent = format!("let mut storage = [0u8; {}];", number(storage)?);
        ensure!(
            source(&storage_in)?.contains(&lent),
            "{storage_in} has no '{lent}'"
        );
        match limit_in {
            None => ensure!(limit == "none", "explain has no limit"),
            Some(session) => {
                let path = format!("crates/{session}/src/lib.rt");
                let lent = format!("\n        {},\n", number(limit)?);
                ensure!(source(&path)?.contains(&lent), "{path} lends no {limit}");
            }
        }
    }
    let (chain, arguments) = (area(book, "chain")?, area(book, "arguments")?);
    let columns = ["tag", "field", "length", "stands in", "C name"];
    for [_, field, length, ..] in book.page.table("Fields", &columns)?.each::<5>() {
        let asked = match field {
            "chain" => chain,
            "arguments" => arguments,
            "extent" => area(book, "extent")?,
            _ => continue,
        };
        ensure!(range(length)? == asked, "field {field} has another length");
    }
    Ok(())
}
