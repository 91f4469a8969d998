//! What stands beside the bytes of the annotated inputs: names, lengths, places and numbers.

use super::book::Book;
use super::bytes::{bytes, hex, number, value, Checked};
use super::inputs::{OF_FIVE_A, OF_NINE};

pub fn check(book: &Book) -> Checked {
    for heading in ["An input", OF_FIVE_A, OF_NINE] {
        let table = book
            .page
            .table(heading, &["offset", "bytes", "what it is"])?;
        for [offset, shown, what] in table.each() {
            one(book, number(offset)?, &bytes(shown)?, what)
                .map_err(|failure| format!("{heading}, offset {offset}: '{what}': {failure}"))?;
        }
    }
    for heading in [OF_FIVE_A, OF_NINE] {
        restart(book, heading)?;
    }
    Ok(())
}

fn one(book: &Book, offset: usize, shown: &[u8], what: &str) -> Checked {
    if let &[tag, high, low] = shown {
        let length = value(&[high, low]);
        let (name, said) = what.split_once(", ").unwrap_or((what, ""));
        if book.tag(name) == Ok(tag) {
            ensure!(
                said.is_empty() || said == format!("{length} bytes"),
                "the field has {length} bytes"
            );
            return Ok(());
        }
    }
    // The chain begins behind its field's head, so a CCW's address is its offset less 3.
    let address = what.strip_prefix("CCW ").and_then(|rest| rest.get(..4));
    if let (Some(address), 8) = (address, shown.len()) {
        ensure!(
            hex(address)? + 3 == offset,
            "it stands at {:04X}",
            offset - 3
        );
        return ccw(book, shown, what);
    }
    if let (Some(at), 2) = (address, shown.len()) {
        ensure!(hex(at)? == value(shown), "the bytes are {shown:02X?}");
    }
    if let Some((_, behind)) = what.split_once("displacement ") {
        ensure!(
            leading(behind) == Ok(value(shown)),
            "the bytes are {}",
            value(shown)
        );
    }
    numbers(shown, what)
}

/// What is said of a CCW's address, count and CC.
fn ccw(book: &Book, shown: &[u8], what: &str) -> Checked {
    let part = |name: &str| book.ccw.get(shown, name).map(value);
    let words: Vec<&str> = what.split([' ', ';', ',']).collect();
    for pair in words.windows(2) {
        match pair {
            &["at" | "to", at] => {
                if let Ok(at) = hex(at) {
                    ensure!(at == part("address")?, "the address is another");
                }
            }
            &[count, "bytes"] => {
                ensure!(number(count)? == part("count")?, "the count is another");
            }
            _ => (),
        }
    }
    let flags = part("flags")? as u8;
    let cc = flags & book.flag("CC")? != 0;
    ensure!(!what.ends_with("; CC") || cc, "CC is off");
    ensure!(!what.contains("no CC") || !cc, "CC is on");
    Ok(())
}

/// Cylinders, heads, records and lengths, in the order of their bytes.
fn numbers(shown: &[u8], what: &str) -> Checked {
    let mut said = Vec::new();
    if let Some((front, behind)) = what.split_once('/') {
        let cylinder = &front[front.len() - 3..];
        said.extend([number(cylinder)?, number(&behind[..2])?]);
    }
    let names = ["cylinder ", "head ", "R ", "key length ", "data length "];
    for name in names {
        if let Some((_, behind)) = what.split_once(name) {
            said.extend(leading(behind));
        }
    }
    let parts: &[&[u8]] = match shown {
        [c0, c1, h0, h1] => &[&[*c0, *c1], &[*h0, *h1]],
        [c0, c1, h0, h1, r] if !what.starts_with("flag") => &[&[*c0, *c1], &[*h0, *h1], &[*r]],
        [_, c0, c1, _, head] => &[&[*c0, *c1], &[*head]],
        [_, _, c0, c1, h0, h1] => &[&[*c0, *c1], &[*h0, *h1]],
        [c0, c1, h0, h1, r, key, d0, d1] if said.len() == 5 => {
            &[&[*c0, *c1], &[*h0, *h1], &[*r], &[*key], &[*d0, *d1]]
        }
        _ => return Ok(()),
    };
    let read: Vec<usize> = parts.iter().map(|part| value(part)).collect();
    ensure!(said.is_empty() || said == read, "the bytes are {read:?}");
    Ok(())
}

/// The number that a text begins with.
fn leading(text: &str) -> Result<usize, String> {
    let digits: String = text
        .chars()
        .take_while(|digit| digit.is_ascii_digit())
        .collect();
    number(&digits)
}

/// The built restart: the names of its commands, where its TICs lead.
fn restart(book: &Book, heading: &str) -> Checked {
    let table = book
        .page
        .table(heading, &["address", "bytes", "what it is"])?;
    for [address, shown, what] in table.each() {
        let shown = bytes(shown)?;
        if shown.len() != 8 {
            continue;
        }
        let to = book.ccw.get(&shown, "address").map(value)?;
        let holds = match shown[0] {
            0x07 => what.starts_with("seek"),
            0x23 => what.starts_with("set sector"),
            0x31 => what.starts_with("search"),
            0x12 => what.starts_with("read count"),
            0x1A => what.starts_with("read home address"),
            0x06 => what.starts_with("restart CCW 1"),
            0x08 if to >= 0x1000 => what == "TIC back to the search",
            0x08 => what == format!("TIC on to CCW {to:04X}"),
            _ => false,
        };
        ensure!(holds, "{address}: '{what}'");
    }
    Ok(())
}
