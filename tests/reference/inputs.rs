//! The annotated inputs: bytes, order of fields, what the library makes of them.

use super::book::{split, Book, KEPT};
use super::bytes::{byte, source, value, Checked};
use crate::simulator::held::{HeldReading, HeldRecovery, HeldRun};

/// The headings of the annotated inputs of `explain`.
pub const OF_FIVE_A: &str = "Worked restart";
pub const OF_NINE: &str = "Worked restart of 9";

pub fn check(book: &Book) -> Checked {
    let table = book.page.table("Inputs", &["program", "fields in order"])?;
    table.has(&["reading", "explain"])?;
    for [program, fields] in table.each() {
        let inputs = match program {
            "reading" => vec![reading_input(book)?],
            _ => vec![
                explain_input(book, OF_FIVE_A)?,
                explain_input(book, OF_NINE)?,
            ],
        };
        for input in inputs {
            in_order(fields, &input)?;
        }
    }
    for (heading, printed) in [
        ("An input", "samples/worked.out"),
        (OF_FIVE_A, "samples/explain/worked.out"),
        (OF_NINE, "samples/explain/nine.out"),
    ] {
        ensure!(
            book.page.printed(heading)? == source(printed)?,
            "{heading}: the text is not that of {printed}"
        );
    }
    let read = book.read(worked_reading(book)?)?;
    let printed = book.page.printed("An input")?;
    ensure!(
        lines(book, &read)? == printed,
        "the library reads another answer than '{printed}'"
    );
    Ok(())
}

fn reading_input(book: &Book) -> Result<Vec<u8>, String> {
    book.input("An input", "samples/worked.hex")
}

fn explain_input(book: &Book, heading: &str) -> Result<Vec<u8>, String> {
    let sample = match heading {
        OF_NINE => "samples/explain/nine.hex",
        _ => "samples/explain/worked.hex",
    };
    book.input(heading, sample)
}

/// Asks that the input has the fields that a row names, in that order; those between "13, 14, 15" may
/// be absent.
fn in_order(fields: &str, input: &[u8]) -> Checked {
    let mut tags: Vec<u8> = split(input)?.into_iter().map(|(tag, _)| tag).collect();
    tags.dedup();
    let words = fields.split(|c: char| !c.is_ascii_alphanumeric());
    let mut named: Vec<u8> = Vec::new();
    for word in words.filter(|word| word.len() == 2) {
        if let Ok(tag) = byte(word) {
            named.push(tag);
        }
    }
    let is_optional = |tag: &u8| (0x13..=0x15).contains(tag);
    ensure!(
        !fields.contains("as far as they are there") || named.iter().any(is_optional),
        "no field that may be absent in '{fields}'"
    );
    named.retain(|tag| tags.contains(tag) || !is_optional(tag));
    ensure!(
        named == tags,
        "the fields {named:02X?} of '{fields}', where the input has {tags:02X?}"
    );
    Ok(())
}

/// The fields of an input by their names in the table of fields.
fn contents<'a>(book: &Book, input: &'a [u8], field: &str) -> Result<&'a [u8], String> {
    let tag = book.tag(field)?;
    let fields = split(input)?;
    let found = fields.iter().find(|(of, _)| *of == tag);
    found
        .map(|(_, contents)| *contents)
        .ok_or(format!("no field '{field}'"))
}

/// The fields with these names, whole.
fn fields(book: &Book, input: &[u8], names: &[&str]) -> Result<Vec<u8>, String> {
    let tags: Vec<u8> = names
        .iter()
        .map(|name| book.tag(name))
        .collect::<Result<_, _>>()?;
    let mut whole = Vec::new();
    for (tag, contents) in split(input)? {
        if tags.contains(&tag) {
            whole.extend(super::book::tagged(tag, contents));
        }
    }
    Ok(whole)
}

/// The reading of the first annotated input, with a small storage and limit.
pub fn worked_reading(book: &Book) -> Result<HeldReading, String> {
    let input = reading_input(book)?;
    let run = HeldRun {
        chain: contents(book, &input, "chain")?.to_vec(),
        arguments: contents(book, &input, "arguments")?.to_vec(),
        storage: vec![0; 64],
        image: fields(book, &input, &["home address", "record"])?,
        faults: fields(book, &input, &["fault"])?,
        limit: 64,
        ..HeldRun::default()
    };
    let extent = contents(book, &input, "extent")?.to_vec();
    Ok(HeldReading::of_run(run, extent))
}

/// The recovery of the second one.
pub fn worked(book: &Book) -> Result<HeldRecovery, String> {
    worked_under(book, OF_FIVE_A)
}

/// The recovery of the annotated input under this heading.
pub fn worked_under(book: &Book, heading: &str) -> Result<HeldRecovery, String> {
    const REPORT: [&str; 6] = [
        "sense",
        "CSW",
        "address of the cut read's first CCW",
        "file mask",
        "seek argument",
        "tries",
    ];
    let input = explain_input(book, heading)?;
    Ok(HeldRecovery {
        chain: contents(book, &input, "chain")?.to_vec(),
        report: fields(book, &input, &REPORT)?,
        extent: contents(book, &input, "extent")?.to_vec(),
        storage: vec![KEPT; 1024],
        ..HeldRecovery::default()
    })
}

/// What `reading` prints of an answer.
fn lines(book: &Book, read: &super::book::Read) -> Result<String, String> {
    let mut text = String::new();
    let entries = read.list.chunks(book.entry.length());
    for entry in entries.take(read.recoveries) {
        let part = |name: &str| book.entry.get(entry, name).map(value);
        let code = part("GIRUVE_AT_ENTRY_ACTION")? as u8;
        let action = book.codes.iter().find(|(_, &of)| of == code);
        let (action, _) = action.ok_or(format!("no action {code:02X}"))?;
        text += &format!(
            "action {action} {:03} {:02} {:03}\n",
            part("GIRUVE_AT_ENTRY_CYLINDER")?,
            part("GIRUVE_AT_ENTRY_HEAD")?,
            part("GIRUVE_AT_ENTRY_RECORD")?
        );
    }
    let part = |name: &str| book.csw.get(&read.csw, name).map(value);
    text += &format!(
        "end {:06X} {:02X} {:02X} {:04X}\n",
        part("address")?,
        part("unit status")?,
        part("channel status")?,
        part("count left")?
    );
    let stored = read.held.storage[..16].iter();
    text += &stored.map(|byte| format!("{byte:02X}")).collect::<String>();
    text.push('\n');
    Ok(text)
}
