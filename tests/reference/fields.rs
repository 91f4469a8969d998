//! Fields: tags and lengths, what each part allows, what is not well formed.

use super::book::{split, tagged, Book};
use super::bytes::{bounds, byte, number, range, range_on, Checked};
use super::inputs::worked;
use super::models::models;
use crate::library;

pub fn check(book: &Book) -> Checked {
    for (model, last_cylinder) in models(book)? {
        tags(book, model)?;
        home_and_record(book, model)?;
        fault(book, model)?;
        extent(book, model, last_cylinder)?;
        image_rules(book, model, last_cylinder)?;
        fault_rules(book, model)?;
    }
    report(book)?;
    report_rules(book)
}

/// Each tag with its length, and with lengths beside it.
fn tags(book: &Book, model: u8) -> Checked {
    let columns = ["tag", "field", "length", "stands in", "C name"];
    let table = book.page.table("Fields", &columns)?;
    table.has(&[
        "01", "02", "10", "11", "12", "13", "14", "15", "20", "30", "31", "32",
    ])?;
    for [tag, field, length, stands_in, _] in table.each() {
        let lengths = range(length)?;
        let expected = match (tag, stands_in) {
            ("01", "image") => {
                let mut sized = |n: usize| {
                    let home = sized(&book.home.put(&[])?, n);
                    let record = book.record((0, 0), 0, &[], &[])?;
                    let mut image = [tagged(0x01, &home), record].concat();
                    Ok(library::check_image(model, &mut image))
                };
                bounds(field, lengths, 2, &mut sized)
            }
            ("02", "image") => bounds(field, lengths, 2, |n| {
                let data = vec![0; n.saturating_sub(8)];
                let whole = book.record_contents((0, 0), 0, &[], &data)?;
                let home = book.home_address(0, 0)?;
                let mut image = [home, tagged(0x02, &sized(&whole, n))].concat();
                Ok(library::check_image(model, &mut image))
            }),
            ("20", "fault list") => bounds(field, lengths, 3, |n| {
                let mut image = book.track((0, 0), &[(1, &[5])])?;
                let whole = book.fault((0, 0), 1, 1, 0)?;
                let mut faults = tagged(0x20, &sized(&whole[3..], n));
                Ok(library::check_faults(model, &mut image, &mut faults))
            }),
            ("10" | "11" | "12" | "13" | "14" | "15", "report") => bounds(field, lengths, 4, |n| {
                recovered(book, |fields| set(fields, tag, |old| sized(old, n)))
            }),
            ("30" | "32", "reading, explain") | ("31", "reading") => Ok(()),
            _ => Err(format!("field {tag} stands in '{stands_in}'")),
        };
        expected?;
    }
    Ok(())
}

/// Bytes with this length, cut off or with zeros behind them.
fn sized(bytes: &[u8], length: usize) -> Vec<u8> {
    let mut bytes = bytes.to_vec();
    bytes.resize(length, 0);
    bytes
}

type Fields = Vec<(u8, Vec<u8>)>;

/// Gives a field other contents; one that is not there is added, of zeros, in its place.
fn set(fields: &mut Fields, tag: &str, change: impl Fn(&[u8]) -> Vec<u8>) -> Checked {
    let tag = byte(tag)?;
    let place = fields.iter().position(|(of, _)| *of >= tag);
    let place = place.unwrap_or(fields.len());
    if fields.get(place).map(|field| field.0) != Some(tag) {
        fields.insert(place, (tag, vec![0; 6]));
    }
    fields[place].1 = change(&fields[place].1);
    Ok(())
}

fn bytes_of(fields: &Fields) -> Vec<u8> {
    let fields = fields.iter();
    fields
        .flat_map(|(tag, contents)| tagged(*tag, contents))
        .collect()
}

/// What recovery from the worked report answers, with its fields changed.
fn recovered(book: &Book, change: impl Fn(&mut Fields) -> Checked) -> Result<u8, String> {
    let mut held = worked(book)?;
    let mut fields: Fields = split(&held.report)?
        .into_iter()
        .map(|(tag, contents)| (tag, contents.to_vec()))
        .collect();
    change(&mut fields)?;
    held.report = bytes_of(&fields);
    Ok(book.recover(held)?.number)
}

// ---- what each part allows

/// Asks a part that is one value or a range at its bounds.
fn part(
    model: u8,
    name: &str,
    allowed: &str,
    refusal: u8,
    trial: impl Fn(usize) -> Result<u8, String>,
) -> Checked {
    if allowed == "00" {
        let answers = (trial(0)?, trial(1)?);
        ensure!(
            answers == (0, refusal),
            "{name}: 00 and 01 give {answers:?}"
        );
        return Ok(());
    }
    bounds(name, range_on(model, allowed)?, refusal, trial)
}

fn home_and_record(book: &Book, model: u8) -> Checked {
    let columns = ["offset", "length", "contents", "allowed"];
    let [home, record] = book.page.alike("Image", &columns)?;
    for [_, _, contents, allowed] in home.each() {
        part(model, contents, allowed, 2, |n| {
            let home = book.field("home address", &book.home.put(&[(contents, n)])?)?;
            let track = match contents {
                "cylinder" => (n, 0),
                "head" => (0, n),
                _ => (0, 0),
            };
            let mut image = [home, book.record(track, 0, &[], &[])?].concat();
            Ok(library::check_image(model, &mut image))
        })?;
    }
    for [_, _, contents, allowed] in record.each() {
        let image = |track, number, key: &[u8], data: &[u8]| {
            let mut image = book.track((1, 1), &[])?;
            image.extend(book.record(track, number, key, data)?);
            Ok(library::check_image(model, &mut image))
        };
        let holds = match (contents, allowed) {
            ("cylinder", "the home address's") => image((2, 1), 1, &[], &[])? == 2,
            ("head", "the home address's") => image((1, 2), 1, &[], &[])? == 2,
            ("R", "0 to 255") => image((1, 1), 255, &[], &[])? == 0,
            ("key length", "0 to 255") => image((1, 1), 1, &[0; 255], &[])? == 0,
            ("data length", _) => {
                part(model, contents, allowed, 2, |n| {
                    image((1, 1), 1, &[], &vec![0; n])
                })?;
                true
            }
            ("key" | "data", "any") => image((1, 1), 1, &[0xFF; 9], &[0xFF; 9])? == 0,
            _ => false,
        };
        ensure!(holds, "record: {contents} is not '{allowed}'");
    }
    Ok(())
}

fn fault(book: &Book, model: u8) -> Checked {
    let columns = ["offset", "length", "contents", "allowed"];
    let table = book.page.table("Fault list", &columns)?;
    const DATA: [u8; 5] = [1; 5];
    for [_, _, contents, allowed] in table.each() {
        let (first, last) = match contents {
            "cylinder" | "head" | "R" => range_on(model, allowed)?,
            "error displacement" => {
                let first = allowed.strip_suffix(" to the data length");
                let first = number(first.ok_or(format!("displacement {allowed}"))?)?;
                bounds(contents, (first, DATA.len()), 3, |n| {
                    let mut image = book.track((0, 0), &[(1, &DATA)])?;
                    let mut faults = book.fault((0, 0), 1, n, 0)?;
                    Ok(library::check_faults(model, &mut image, &mut faults))
                })?;
                continue;
            }
            "pattern" => {
                ensure!(allowed == "any", "pattern {allowed}");
                for pattern in [0, 0xFF_FFFF] {
                    let mut image = book.track((0, 0), &[(1, &DATA)])?;
                    let mut faults = book.fault((0, 0), 1, 1, pattern)?;
                    let answer = library::check_faults(model, &mut image, &mut faults);
                    ensure!(answer == 0, "pattern {pattern:06X}: {answer}");
                }
                continue;
            }
            _ => return Err(format!("no trial of '{contents}'")),
        };
        // Smallest and largest are those of the image, where one such track and record can stand; R0 stands there too.
        let answer = |track, record| {
            let mut image = book.track(track, &[(record, &DATA)])?;
            let mut faults = book.fault(track, record, 1, 0)?;
            Ok::<u8, String>(library::check_faults(model, &mut image, &mut faults))
        };
        for one in [first, last] {
            let answered = match contents {
                "cylinder" => answer((one, 0), 1)?,
                "head" => answer((0, one), 1)?,
                _ => answer((0, 0), one)?,
            };
            ensure!(answered == 0, "fault: {contents} {one}");
        }
        if contents == "R" {
            let mut image = book.track((0, 0), &[(first, &DATA)])?;
            let mut faults = book.fault((0, 0), first - 1, 1, 0)?;
            let answered = library::check_faults(model, &mut image, &mut faults);
            ensure!(first == 1 && answered == 3, "fault: R {}", first - 1);
        } else {
            ensure!(first == 0, "fault: {contents} from {first}");
        }
        let past = match contents {
            "cylinder" => answer((last + 1, 0), 1)?,
            "head" => answer((0, last + 1), 1)?,
            _ => {
                ensure!(last == 255, "fault: R {last}");
                2
            }
        };
        ensure!(past == 2, "fault: {contents} {}", last + 1);
    }
    Ok(())
}

fn extent(book: &Book, model: u8, last_cylinder: usize) -> Checked {
    let columns = ["offset", "length", "contents", "allowed"];
    let table = book.page.table("Extent", &columns)?;
    ensure!(book.extent.length() == 8, "an extent of another length");
    for [_, _, contents, allowed] in table.each() {
        bounds(contents, range_on(model, allowed)?, 5, |n| {
            let mut values = vec![("last cylinder", last_cylinder), ("last head", 18)];
            if contents == "last cylinder" {
                values = vec![("last head", 18)];
            }
            values.retain(|(name, _)| *name != contents);
            values.push((contents, n));
            Ok(library::check_extent(model, &mut book.extent.put(&values)?))
        })?;
    }
    let mut after = book.tracks((1, 0), (0, 18))?;
    ensure!(
        library::check_extent(model, &mut after) == 5,
        "first after last"
    );
    let mut same = book.tracks((1, 4), (1, 4))?;
    ensure!(
        library::check_extent(model, &mut same) == 0,
        "one track alone"
    );
    Ok(())
}

fn report(book: &Book) -> Checked {
    let table = book
        .page
        .table("Report", &["tag", "may be absent", "allowed"])?;
    table.has(&["10", "11", "12", "13", "14", "15"])?;
    let mut sizes = (0, 0);
    for [tag, absent, allowed] in table.each() {
        let may = absent.starts_with("yes");
        ensure!(may || absent == "no", "field {tag}: absent '{absent}'");
        let without = recovered(book, |fields| {
            fields.retain(|(of, _)| byte(tag) != Ok(*of));
            Ok(())
        })?;
        ensure!((without == 0) == may, "without field {tag}: {without}");
        let length = length(book, tag)?;
        sizes = (
            sizes.0 + if may { 0 } else { 3 + length },
            sizes.1 + 3 + length,
        );
        let holds = match tag {
            "11" => {
                let answer = |first: u8| {
                    recovered(book, |fields| {
                        set(fields, tag, |old| [&[first], &old[1..]].concat())
                    })
                };
                (answer(0)?, answer(1)?) == (0, 4)
            }
            "13" => {
                let answer = |mask: u8| recovered(book, |fields| set(fields, tag, |_| vec![mask]));
                let off = [book.bit(2)?, book.bit(5)?, book.bit(6)?];
                let on = off
                    .iter()
                    .try_fold(true, |all, &bit| Ok(all && answer(bit)? == 4));
                let others = !off.iter().fold(0, |all, bit| all | bit);
                on == Ok::<bool, String>(true) && answer(others)? == 0
            }
            // Whatever they hold, question 4 does not refuse them.
            _ => {
                let full = recovered(book, |fields| set(fields, tag, |_| vec![0xFF; length]))?;
                full != 4
            }
        };
        let texts = match tag {
            "10" => ("no", "any 24 bytes; see [Sense](#sense)"),
            "11" => ("no", "first byte 00; see [CSW](#csw)"),
            "12" => ("no", "any; question 9 asks more for actions 5, 9 and 11"),
            "13" => ("yes: no mask was set", "bits 2, 5 and 6 off"),
            "14" => (
                "yes",
                "any; question 9 asks more for actions 8, 9, 10, 10A and 11",
            ),
            _ => ("yes: 0 tries", "any"),
        };
        ensure!(
            holds && (absent, allowed) == texts,
            "field {tag}: '{absent}', '{allowed}'"
        );
    }
    let said = format!("has {} to {} bytes", sizes.0, sizes.1);
    ensure!(book.page.says(&said), "a report {said}");
    Ok(())
}

fn length(book: &Book, tag: &str) -> Result<usize, String> {
    let columns = ["tag", "field", "length", "stands in", "C name"];
    let table = book.page.table("Fields", &columns)?;
    let row = table.each::<5>().find(|row| row[0] == tag);
    number(row.ok_or(format!("no field {tag}"))?[2])
}

// ---- what is not well formed, a trial for each row

fn image_rules(book: &Book, model: u8, last_cylinder: usize) -> Checked {
    let home = book.home_address(1, 1)?;
    let other = book.home_address(0, 18)?;
    let zero = book.record((1, 1), 0, &[], &[0; 8])?;
    let one = book.record((1, 1), 1, &[], &[5])?;
    let good = [&home[..], &zero, &one].concat();
    let flag = book.field("home address", &book.home.put(&[("flag", 1)])?)?;
    let fourth = book.field("home address", &book.home.put(&[("zero", 1)])?)?;
    let zero_here = book.record((0, 0), 0, &[], &[])?;
    let long = book.record((1, 1), 1, &[1], &[0; 13_030])?;
    let contents = book.record_contents((1, 1), 1, &[], &[5])?;
    let at = |track| book.track(track, &[]);
    let longer = book.field("record", &[&contents[..], &[0]].concat())?;
    let shorter = book.field("record", &contents[..8])?;
    let wrong: [(&str, Vec<Vec<u8>>); 13] = [
        (
            "a field that runs past the end",
            vec![good[..good.len() - 1].to_vec(), [&good[..], &[2]].concat()],
        ),
        (
            "a tag that is neither 01 nor 02",
            vec![[&good[..], &tagged(3, &[])].concat()],
        ),
        (
            "a home address that is not 5 bytes long",
            vec![[&tagged(1, &home[3..7]), &zero[..]].concat()],
        ),
        (
            "a flag or a fourth byte that is not 00",
            vec![
                [&flag[..], &zero_here].concat(),
                [&fourth[..], &zero_here].concat(),
            ],
        ),
        (
            "a cylinder above 410, or on model 11 above 814; a head above 18",
            vec![at((last_cylinder + 1, 0))?, at((0, 19))?],
        ),
        (
            "a track that does not come after the track before it",
            vec![
                [at((1, 1))?, at((1, 1))?].concat(),
                [at((1, 1))?, at((0, 2))?].concat(),
            ],
        ),
        ("a record before any home address", vec![zero.clone()]),
        (
            "a track without a record",
            vec![home.clone(), [&other[..], &good].concat()],
        ),
        (
            "a track whose first record is not R0",
            vec![[&home[..], &one, &zero].concat()],
        ),
        (
            "an R that stands twice on one track",
            vec![[&good[..], &one].concat(), [&good[..], &zero].concat()],
        ),
        (
            "a record with a cylinder or head of another track",
            vec![
                [good.clone(), book.record((1, 2), 2, &[], &[])?].concat(),
                [good.clone(), book.record((2, 1), 2, &[], &[])?].concat(),
            ],
        ),
        (
            "a record field that is not 8 bytes plus key length plus data length",
            vec![
                [&home[..], &zero, &longer].concat(),
                [&home[..], &zero, &shorter].concat(),
            ],
        ),
        (
            "a key and data of more than 13,030 bytes",
            vec![[&home[..], &zero, &long].concat()],
        ),
    ];
    let table = book.page.table("Image", &["in an image"])?;
    table.has(&wrong.each_ref().map(|(rule, _)| *rule))?;
    ensure!(
        library::check_image(model, &mut good.clone()) == 0,
        "a good image"
    );
    for (rule, images) in wrong {
        for mut image in images {
            let answer = library::check_image(model, &mut image);
            ensure!(answer == 2, "{rule}: {answer}");
        }
    }
    Ok(())
}

fn fault_rules(book: &Book, model: u8) -> Checked {
    let mut image = book.track((0, 0), &[(1, &[1, 2, 3]), (2, &[])])?;
    let good = book.fault((0, 0), 1, 3, 0)?;
    let of = |track, record, displacement| book.fault(track, record, displacement, 0);
    let wrong: [(&str, Vec<Vec<u8>>); 8] = [
        (
            "a field that runs past the end",
            vec![
                good[..good.len() - 1].to_vec(),
                [&good[..], &[0x20]].concat(),
            ],
        ),
        ("a tag that is not 20", vec![tagged(0x21, &good[3..])]),
        (
            "a field that is not 10 bytes long",
            vec![
                tagged(0x20, &good[3..12]),
                tagged(0x20, &[&good[3..], &[0]].concat()),
            ],
        ),
        ("an R of 0", vec![of((0, 0), 0, 1)?]),
        (
            "a record that the image does not have",
            vec![of((0, 0), 3, 1)?, of((0, 1), 1, 1)?],
        ),
        ("an error displacement of 0", vec![of((0, 0), 1, 0)?]),
        (
            "an error displacement above the record's data length",
            vec![of((0, 0), 1, 4)?, of((0, 0), 2, 1)?],
        ),
        (
            "a record that an earlier fault names",
            vec![[&good[..], &of((0, 0), 1, 1)?].concat()],
        ),
    ];
    let table = book.page.table("Fault list", &["in a fault list"])?;
    table.has(&wrong.each_ref().map(|(rule, _)| *rule))?;
    let answer = library::check_faults(model, &mut image, &mut good.clone());
    ensure!(answer == 0, "a good fault list: {answer}");
    for (rule, lists) in wrong {
        for mut list in lists {
            let answer = library::check_faults(model, &mut image, &mut list);
            ensure!(answer == 3, "{rule}: {answer}");
        }
    }
    Ok(())
}

fn report_rules(book: &Book) -> Checked {
    let good = worked(book)?.report;
    let fields = split(&good)?;
    let [sense, csw, first] = [0, 1, 2].map(|at| tagged(fields[at].0, fields[at].1));
    let mask = book.field("file mask", &[0])?;
    let tries = book.field("tries", &[1])?;
    let masks = [2, 5, 6].map(|bit| book.bit(bit));
    let mut with_masks = Vec::new();
    for bit in masks {
        with_masks.push([good.clone(), book.field("file mask", &[bit?])?].concat());
    }
    let mut with_one = fields[1].1.to_vec();
    with_one[0] = 1;
    let with_one = book.field("CSW", &with_one)?;
    let wrong: [(&str, Vec<Vec<u8>>); 7] = [
        (
            "a field that runs past the end",
            vec![
                good[..good.len() - 1].to_vec(),
                [&good[..], &[0x13, 0]].concat(),
            ],
        ),
        (
            "a field 10, 11 or 12 that is missing",
            vec![
                [&csw[..], &first].concat(),
                [&sense[..], &first].concat(),
                [&sense[..], &csw].concat(),
            ],
        ),
        (
            "a tag outside 10 to 15",
            vec![
                [&good[..], &tagged(0x16, &[0])].concat(),
                [&tagged(0x0F, &[])[..], &good].concat(),
            ],
        ),
        (
            "a tag that stands twice, or behind a higher one",
            vec![
                [&good[..], &mask, &mask].concat(),
                [&good[..], &tries, &mask].concat(),
                [&csw[..], &sense, &first].concat(),
            ],
        ),
        (
            "a field with another length than its tag has",
            vec![[&good[..], &tagged(0x13, &[0, 0])].concat()],
        ),
        (
            "a CSW whose first byte is not 00",
            vec![[&sense[..], &with_one, &first].concat()],
        ),
        ("a mask with bit 2, 5 or 6 on", with_masks),
    ];
    let table = book.page.table("Report", &["in a report"])?;
    table.has(&wrong.each_ref().map(|(rule, _)| *rule))?;
    for (rule, reports) in wrong {
        for report in reports {
            let mut held = worked(book)?;
            held.report = report;
            let answer = book.recover(held)?.number;
            ensure!(answer == 4, "{rule}: {answer}");
        }
    }
    Ok(())
}
