//! The page with what its tables say of bytes: layouts, tags, bits, the pack of its examples.

use super::bytes::{big_endian, byte, bytes, hex, number, sample, value};
use super::page::{Page, Table};
use crate::library;
use crate::simulator::held::{HeldReading, HeldRecovery, HeldRun};
use std::collections::HashMap;

/// What the areas that a call writes hold before it.
pub const KEPT: u8 = 0xA5;

/// Columns of tables that several checks read.
pub const COMMANDS: [&str; 5] = [
    "code",
    "command",
    "count",
    "argument, or what is stored",
    "drive then stands",
];
pub const ANSWERS: [&str; 7] = [
    "number",
    "answer",
    "C name",
    "storage",
    "restart areas",
    "action byte",
    "CSW",
];

/// Offset, length and name of each part, one behind the other from 0 on.
pub struct Layout {
    parts: Vec<(usize, usize, String)>,
}

impl Layout {
    /// Named by this column.
    pub fn of(table: &Table, name: &str) -> Result<Layout, String> {
        let column = |name: &str| {
            let missing = || format!("line {}: no column '{name}'", table.line);
            table.column(name).ok_or_else(missing)
        };
        let (offset, length, name) = (column("offset")?, column("length")?, column(name)?);
        let mut behind = 0;
        let mut parts = Vec::new();
        for row in &table.rows {
            let (offset, length) = (number(&row[offset])?, number(&row[length])?);
            ensure!(
                offset == behind,
                "line {}: offset {offset}, where the part before ends at {behind}",
                table.line
            );
            behind = offset + length;
            parts.push((offset, length, row[name].clone()));
        }
        Ok(Layout { parts })
    }

    pub fn length(&self) -> usize {
        self.parts.iter().map(|part| part.1).sum()
    }

    fn part(&self, name: &str) -> Result<(usize, usize), String> {
        let part = self.parts.iter().find(|part| part.2 == name);
        part.map(|part| (part.0, part.1))
            .ok_or(format!("no part '{name}' in a layout"))
    }

    /// The bytes with these numbers in their parts, and 0 in all others.
    pub fn put(&self, values: &[(&str, usize)]) -> Result<Vec<u8>, String> {
        let mut put = vec![0; self.length()];
        for &(name, value) in values {
            let (offset, length) = self.part(name)?;
            put[offset..offset + length].copy_from_slice(&big_endian(value, length));
        }
        Ok(put)
    }

    pub fn get<'a>(&self, bytes: &'a [u8], name: &str) -> Result<&'a [u8], String> {
        let (offset, length) = self.part(name)?;
        bytes
            .get(offset..offset + length)
            .ok_or(format!("'{name}' lies behind the bytes"))
    }
}

pub struct Book {
    pub page: Page,
    pub header: String,
    pub home: Layout,
    pub count: Layout,
    pub fault: Layout,
    pub extent: Layout,
    pub ccw: Layout,
    pub csw: Layout,
    pub run_answer: Layout,
    pub recovery_answer: Layout,
    pub reading_answer: Layout,
    pub entry: Layout,
    /// Of fields, by their names.
    tags: HashMap<String, u8>,
    /// Values of bits 0 to 7.
    bits: Vec<u8>,
    /// Status bits by their names.
    status: HashMap<String, u8>,
    /// Flags of a CCW by their names.
    flags: HashMap<String, u8>,
    /// Codes of actions by their names.
    pub codes: HashMap<String, u8>,
    /// Numbers of a recovery's answers by their names.
    pub answers: HashMap<String, u8>,
}

/// The last CSW, sense and file mask of a run, and what it has stored.
pub struct Ran {
    pub number: u8,
    pub csw: Vec<u8>,
    pub sense: Vec<u8>,
    pub mask_set: u8,
    pub mask: u8,
    pub first: usize,
    pub storage: Vec<u8>,
}

/// What a recovery answers and leaves.
pub struct Recovered {
    pub number: u8,
    pub what: u8,
    pub action: u8,
    pub csw: Vec<u8>,
    pub held: HeldRecovery,
}

/// What a reading answers and leaves.
pub struct Read {
    pub number: u8,
    pub csw: Vec<u8>,
    pub recoveries: usize,
    pub stopped_by: u8,
    pub list: Vec<u8>,
    pub held: HeldReading,
}

impl Book {
    pub fn of(page: Page, header: String) -> Result<Book, String> {
        const ALLOWED: [&str; 4] = ["offset", "length", "contents", "allowed"];
        const NAMED: [&str; 4] = ["offset", "length", "contents", "C name"];
        let layout = |heading: &str, columns: &[&str], name: &str| {
            let table = page.table(heading, columns)?;
            Layout::of(table, name)
        };
        let [home, record] = page.alike("Image", &ALLOWED)?;
        let book = Book {
            home: Layout::of(home, "contents")?,
            count: count_area(record)?,
            fault: layout("Fault list", &ALLOWED, "contents")?,
            extent: layout("Extent", &ALLOWED, "contents")?,
            ccw: layout("CCW", &["offset", "length", "contents"], "contents")?,
            csw: layout("CSW", &NAMED, "contents")?,
            run_answer: layout("Answer of a run", &NAMED, "C name")?,
            recovery_answer: layout("Answer of a recovery", &NAMED, "C name")?,
            reading_answer: layout("Answer of a reading", &NAMED, "C name")?,
            entry: layout("List", &NAMED, "C name")?,
            tags: tags(&page)?,
            bits: bits(&page)?,
            status: status(&page)?,
            flags: flags(&page)?,
            codes: codes(&page)?,
            answers: answers(&page)?,
            page,
            header,
        };
        Ok(book)
    }

    // ---- bytes as the tables lay them out

    pub fn tag(&self, field: &str) -> Result<u8, String> {
        let tag = self.tags.get(field);
        tag.copied().ok_or(format!("no tag of '{field}'"))
    }

    pub fn field(&self, name: &str, contents: &[u8]) -> Result<Vec<u8>, String> {
        Ok(tagged(self.tag(name)?, contents))
    }

    pub fn home_address(&self, cylinder: usize, head: usize) -> Result<Vec<u8>, String> {
        let values = [("cylinder", cylinder), ("head", head)];
        self.field("home address", &self.home.put(&values)?)
    }

    /// The contents of a record's field.
    pub fn record_contents(
        &self,
        (cylinder, head): (usize, usize),
        number: usize,
        key: &[u8],
        data: &[u8],
    ) -> Result<Vec<u8>, String> {
        let mut contents = self.count.put(&[
            ("cylinder", cylinder),
            ("head", head),
            ("R", number),
            ("key length", key.len()),
            ("data length", data.len()),
        ])?;
        contents.extend(key);
        contents.extend(data);
        Ok(contents)
    }

    pub fn record(
        &self,
        track: (usize, usize),
        number: usize,
        key: &[u8],
        data: &[u8],
    ) -> Result<Vec<u8>, String> {
        let contents = self.record_contents(track, number, key, data)?;
        self.field("record", &contents)
    }

    /// A track with R0 of 8 bytes and these records without keys.
    pub fn track(
        &self,
        track: (usize, usize),
        records: &[(usize, &[u8])],
    ) -> Result<Vec<u8>, String> {
        let mut image = self.home_address(track.0, track.1)?;
        image.extend(self.record(track, 0, &[], &[0; 8])?);
        for &(number, data) in records {
            image.extend(self.record(track, number, &[], data)?);
        }
        Ok(image)
    }

    pub fn fault(
        &self,
        (cylinder, head): (usize, usize),
        number: usize,
        displacement: usize,
        pattern: usize,
    ) -> Result<Vec<u8>, String> {
        let contents = self.fault.put(&[
            ("cylinder", cylinder),
            ("head", head),
            ("R", number),
            ("error displacement", displacement),
            ("pattern", pattern),
        ])?;
        self.field("fault", &contents)
    }

    pub fn tracks(&self, first: (usize, usize), last: (usize, usize)) -> Result<Vec<u8>, String> {
        self.extent.put(&[
            ("first cylinder", first.0),
            ("first head", first.1),
            ("last cylinder", last.0),
            ("last head", last.1),
        ])
    }

    pub fn ccw(
        &self,
        code: u8,
        address: usize,
        flags: u8,
        count: usize,
    ) -> Result<Vec<u8>, String> {
        self.ccw.put(&[
            ("command code", code.into()),
            ("address", address),
            ("flags", flags.into()),
            ("count", count),
        ])
    }

    /// Of a status by the names of its bits, joined with "+".
    pub fn status(&self, names: &str) -> Result<u8, String> {
        let mut status = 0;
        for name in names.split('+') {
            status |= self.status.get(name).ok_or(format!("no status '{name}'"))?;
        }
        Ok(status)
    }

    pub fn flag(&self, name: &str) -> Result<u8, String> {
        let flag = self.flags.get(name);
        flag.copied().ok_or(format!("no flag '{name}'"))
    }

    pub fn bit(&self, bit: usize) -> Result<u8, String> {
        let value = self.bits.get(bit);
        value.copied().ok_or(format!("no bit {bit}"))
    }

    /// Sense bytes 0 to 2 with these bits on: "0.4 2.1".
    pub fn sense_bits(&self, bits: &str) -> Result<[u8; 3], String> {
        let mut sense = [0; 3];
        for bit in bits.split(' ') {
            let parts = bit.split_once('.').ok_or(format!("'{bit}' is no bit"))?;
            let byte = sense
                .get_mut(number(parts.0)?)
                .ok_or(format!("{bit} is behind sense byte 2"))?;
            *byte |= self.bit(number(parts.1)?)?;
        }
        Ok(sense)
    }

    pub fn csw_of(
        &self,
        address: usize,
        unit: u8,
        channel: u8,
        left: usize,
    ) -> Result<Vec<u8>, String> {
        self.csw.put(&[
            ("address", address),
            ("unit status", unit.into()),
            ("channel status", channel.into()),
            ("count left", left),
        ])
    }

    /// The pack of the examples.
    pub fn pack(&self) -> Result<Vec<u8>, String> {
        let table = self
            .page
            .table("Pack of the examples", &["track", "R", "key", "data"])?;
        let mut image = Vec::new();
        let mut last = None;
        for [track, record, key, data] in table.each() {
            let track = parsed_track(track)?;
            if last != Some(track) {
                image.extend(self.home_address(track.0, track.1)?);
                last = Some(track);
            }
            image.extend(self.record(track, number(record)?, &bytes(key)?, &bytes(data)?)?);
        }
        Ok(image)
    }

    // ---- calls, answered as the tables lay them out

    /// A run on the pack of the examples, with these arguments and 64 bytes of storage.
    pub fn run_example(&self, chain: Vec<u8>, arguments: Vec<u8>) -> Result<Ran, String> {
        self.run(HeldRun {
            chain,
            arguments,
            storage: vec![KEPT; 64],
            image: self.pack()?,
            ..HeldRun::default()
        })
    }

    pub fn run(&self, mut held: HeldRun) -> Result<Ran, String> {
        let mut answer = vec![KEPT; self.run_answer.length()];
        let number = library::run_held(&mut held, &mut answer);
        ensure!(
            matches!(number, library::ENDED | library::LIMIT),
            "a run is refused by {number}"
        );
        let part = |name: &str| self.run_answer.get(&answer, name);
        Ok(Ran {
            number,
            csw: part("GIRUVE_AT_RUN_CSW")?.to_vec(),
            sense: part("GIRUVE_AT_RUN_SENSE")?.to_vec(),
            mask_set: value(part("GIRUVE_AT_RUN_MASK_SET")?) as u8,
            mask: value(part("GIRUVE_AT_RUN_MASK")?) as u8,
            first: value(part("GIRUVE_AT_RUN_FIRST_CCW")?),
            storage: held.storage,
        })
    }

    pub fn recover(&self, mut held: HeldRecovery) -> Result<Recovered, String> {
        let mut answer = vec![KEPT; self.recovery_answer.length()];
        let before = held.clone();
        let number = library::recover_held(&mut held, &mut answer);
        if number != 0 {
            ensure!(held == before, "a refusal by {number} changes an area");
            ensure!(
                answer.iter().all(|&byte| byte == KEPT),
                "a refusal by {number} writes an answer"
            );
        }
        let part = |name: &str| self.recovery_answer.get(&answer, name);
        Ok(Recovered {
            number,
            what: value(part("GIRUVE_AT_RECOVERY_WHAT")?) as u8,
            action: value(part("GIRUVE_AT_RECOVERY_ACTION")?) as u8,
            csw: part("GIRUVE_AT_RECOVERY_CSW")?.to_vec(),
            held,
        })
    }

    pub fn read(&self, mut held: HeldReading) -> Result<Read, String> {
        let mut answer = vec![KEPT; self.reading_answer.length()];
        let mut list = vec![KEPT; held.list_length];
        let number = library::read_held(&mut held, &mut list, &mut answer);
        let part = |name: &str| self.reading_answer.get(&answer, name);
        Ok(Read {
            number,
            csw: part("GIRUVE_AT_READING_CSW")?.to_vec(),
            recoveries: value(part("GIRUVE_AT_READING_RECOVERIES")?),
            stopped_by: value(part("GIRUVE_AT_READING_STOPPED_BY")?) as u8,
            list,
            held,
        })
    }

    /// The input that a table of bytes shows: offsets and bytes agree, and the sample is the same.
    pub fn input(&self, heading: &str, path: &str) -> Result<Vec<u8>, String> {
        let table = self
            .page
            .table(heading, &["offset", "bytes", "what it is"])?;
        let mut input = Vec::new();
        for [offset, shown, _] in table.each() {
            ensure!(
                number(offset)? == input.len(),
                "{heading}: offset {offset} is {}",
                input.len()
            );
            input.extend(bytes(shown)?);
        }
        ensure!(
            input == sample(path)?,
            "{heading}: the bytes are not those of {path}"
        );
        Ok(input)
    }
}

/// Tag, length, contents.
pub fn tagged(tag: u8, contents: &[u8]) -> Vec<u8> {
    let mut field = vec![tag];
    field.extend(big_endian(contents.len(), 2));
    field.extend(contents);
    field
}

/// The fields of bytes that are made of whole fields.
pub fn split(bytes: &[u8]) -> Result<Vec<(u8, &[u8])>, String> {
    let mut fields = Vec::new();
    let mut rest = bytes;
    while !rest.is_empty() {
        let Some((&[tag, high, low], behind)) = rest.split_first_chunk() else {
            return Err("a torn field".to_string());
        };
        let length = value(&[high, low]);
        let (contents, next) = behind.split_at_checked(length).ok_or("a torn field")?;
        fields.push((tag, contents));
        rest = next;
    }
    Ok(fields)
}

/// "004/18".
fn parsed_track(text: &str) -> Result<(usize, usize), String> {
    let parts = text
        .split_once('/')
        .ok_or(format!("'{text}' is no track"))?;
    Ok((number(parts.0)?, number(parts.1)?))
}

/// A record's first 8 bytes; key and data stand behind them.
fn count_area(record: &Table) -> Result<Layout, String> {
    let front = record.rows.len().saturating_sub(2);
    let key_and_data = [
        ["8", "key length", "key", "any"],
        ["8 + key length", "data length", "data", "any"],
    ];
    ensure!(
        record.rows[front..] == key_and_data,
        "line {}: key and data are not the last rows",
        record.line
    );
    let table = record.front(front);
    let layout = Layout::of(&table, "contents")?;
    ensure!(
        layout.length() == 8,
        "line {}: a count area has {} bytes",
        record.line,
        layout.length()
    );
    Ok(layout)
}

fn tags(page: &Page) -> Result<HashMap<String, u8>, String> {
    let table = page.table("Fields", &["tag", "field", "length", "stands in", "C name"])?;
    let rows = table.each::<5>();
    rows.map(|[tag, field, ..]| Ok((field.to_string(), byte(tag)?)))
        .collect()
}

fn bits(page: &Page) -> Result<Vec<u8>, String> {
    let table = page.table("Numbers", &["bit", "value"])?;
    let mut bits = Vec::new();
    for [bit, value] in table.each() {
        ensure!(number(bit)? == bits.len(), "bit {bit} is out of order");
        bits.push(byte(value)?);
    }
    Ok(bits)
}

fn status(page: &Page) -> Result<HashMap<String, u8>, String> {
    let table = page.table("CSW", &["status", "value", "name", "C name"])?;
    let rows = table.each();
    rows.map(|[_, value, name, _]| Ok((name.to_string(), byte(value)?)))
        .collect()
}

fn flags(page: &Page) -> Result<HashMap<String, u8>, String> {
    let table = page.table("CCW", &["flag", "value", "name", "effect"])?;
    let rows = table.each();
    rows.map(|[_, value, name, _]| Ok((name.to_string(), byte(value)?)))
        .collect()
}

fn codes(page: &Page) -> Result<HashMap<String, u8>, String> {
    let table = page.table("Answers", &["action", "code", "C name"])?;
    table.has(&["none", "5", "5A", "8", "9", "10", "10A", "11"])?;
    let rows = table.each();
    rows.map(|[action, code, _]| Ok((action.to_string(), hex(code)? as u8)))
        .collect()
}

fn answers(page: &Page) -> Result<HashMap<String, u8>, String> {
    let table = page.table("Answers", &ANSWERS)?;
    table.has(&["1", "2", "3", "4", "5", "6"])?;
    let rows = table.rows.iter();
    rows.map(|row| Ok((row[1].clone(), number(&row[0])? as u8)))
        .collect()
}
