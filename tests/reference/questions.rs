//! Questions: who asks which, the examples of a no, question 9 point by point.

use super::book::{split, tagged, Book};
use super::bytes::{byte, bytes, hex, number, Checked};
use super::inputs::{worked, worked_reading};
use super::page::Table;
use crate::library::{self, RestartAreas, RunAreas};
use crate::simulator::areas::RunSizes;
use crate::simulator::cut::CutRule;
use crate::simulator::held::{HeldReading, HeldRecovery};
use crate::simulator::interrupted::InterruptedRule;
use crate::simulator::overflow::OverflowRule;
use crate::simulator::{channel::ProgramCheck, Refusal};

pub fn check(book: &Book) -> Checked {
    numbers(book)?;
    calls(book)?;
    examples(book)?;
    nine_of_five(book)?;
    nine_of_eight_and_ten(book)?;
    nine_of_nine_and_eleven(book)
}

// ---- changes of the worked report

/// The worked report, changed: "sense 18 = 0000; csw = ..".
pub fn changed(book: &Book, changes: &str) -> Result<HeldRecovery, String> {
    changed_on(book, worked(book)?, changes)
}

pub fn changed_on(
    book: &Book,
    mut held: HeldRecovery,
    changes: &str,
) -> Result<HeldRecovery, String> {
    let mut fields: Vec<(u8, Vec<u8>)> = split(&held.report)?
        .into_iter()
        .map(|(tag, contents)| (tag, contents.to_vec()))
        .collect();
    for change in changes.split("; ") {
        let no_change = || format!("'{change}' is no change");
        let (place, to) = change.split_once(" = ").ok_or_else(no_change)?;
        if place == "model" {
            held.model = number(to)? as u8;
            continue;
        }
        let absent = to == "absent";
        let to = if absent { vec![] } else { bytes(to)? };
        let mut of_field = |tag: u8| {
            fields.retain(|(of, _)| *of != tag);
            if !absent {
                let place = fields.iter().position(|(of, _)| *of > tag);
                fields.insert(place.unwrap_or(fields.len()), (tag, to.clone()));
            }
        };
        match place.split_once(' ') {
            Some(("sense", at)) => {
                let (_, sense) = fields.first_mut().ok_or_else(no_change)?;
                put(sense, number(at)?, &to).ok_or_else(no_change)?;
            }
            Some(("ccw", at)) => put(&mut held.chain, hex(at)?, &to).ok_or_else(no_change)?,
            None if place == "csw" => of_field(book.tag("CSW")?),
            None if place == "extent" => held.extent = to,
            None => of_field(byte(place)?),
            _ => return Err(no_change()),
        }
    }
    held.report = fields
        .iter()
        .flat_map(|(tag, contents)| tagged(*tag, contents))
        .collect();
    Ok(held)
}

/// Puts bytes at a place where they fit.
fn put(to: &mut [u8], at: usize, bytes: &[u8]) -> Option<()> {
    to.get_mut(at..at + bytes.len())?.copy_from_slice(bytes);
    Some(())
}

// ---- numbers and calls

fn numbers(book: &Book) -> Checked {
    let table = book
        .page
        .table("Questions", &["number", "asks", "C name"])?;
    table.has(&["1", "2", "3", "4", "5", "6", "7", "8", "9"])?;
    const SAID: &str =
        "a question's number, from 1 to 63; runs and readings also 64, readings also 65.";
    ensure!(book.page.says(SAID), "the page lacks '{SAID}'");
    Ok(())
}

fn calls(book: &Book) -> Checked {
    let columns = ["call", "takes the model", "questions"];
    let table = book.page.table("Questions", &columns)?;
    let calls: [(&str, &[u8]); 9] = [
        ("giruve_check_areas", &[1]),
        ("giruve_check_restart_areas", &[1]),
        ("giruve_check_image", &[1, 2]),
        ("giruve_check_faults", &[1, 2, 3]),
        ("giruve_check_extent", &[1, 5]),
        ("giruve_run", &[1, 2, 3]),
        ("giruve_run_restart", &[1, 2, 3]),
        ("giruve_recover", &[1, 4, 5, 6, 7, 8, 9]),
        ("giruve_reading", &[1, 2, 3, 5]),
    ];
    table.has(&calls.map(|(call, _)| call))?;
    for [call, takes, questions] in table.each() {
        let mut asked = Vec::new();
        for question in questions.split(", ") {
            asked.push(number(question)? as u8);
        }
        let known = calls.iter().find(|(of, _)| *of == call);
        ensure!(
            known.map(|(_, known)| *known) == Some(&asked[..]),
            "{call}: the trials are of {known:?}"
        );
        // Each alone, and each with one of a higher number.
        for (at, &first) in asked.iter().enumerate() {
            for &second in &asked[at..] {
                let answer = refused(book, call, MODEL, &[first, second])?;
                ensure!(
                    answer == first,
                    "{call}: questions {first} and {second} are answered by {answer}"
                );
            }
        }
        ensure!(
            refused(book, call, MODEL, &[])? == 0,
            "{call} refuses good areas"
        );
        let prototype = format!("uint8_t {call}(");
        let parameters = book.header.split_once(&prototype).map(|parts| parts.1);
        let first = parameters.ok_or(format!("the header has no {call}"))?;
        ensure!(
            first.starts_with("uint8_t model, ") == (takes == "yes")
                && ["yes", "no"].contains(&takes),
            "{call}: takes the model '{takes}'"
        );
        // Whatever else is wrong besides.
        for model in [0, 2, 10, 12, 255] {
            for &question in &asked {
                let answer = refused(book, call, model, &[question])?;
                let expected = if takes == "yes" { 1 } else { question };
                ensure!(
                    answer == expected,
                    "{call}: model {model} and question {question} are answered by {answer}"
                );
            }
        }
    }
    Ok(())
}

const MODEL: u8 = 1;

/// What a call answers with this model, where it takes one, and these questions answered no.
fn refused(book: &Book, call: &str, model: u8, no: &[u8]) -> Result<u8, String> {
    if call == "giruve_recover" {
        let mut held = worked(book)?;
        held.model = model;
        for question in no.iter().rev() {
            held = changed_on(book, held, example(book, *question)?)?;
        }
        return Ok(book.recover(held)?.number);
    }
    let mut held = worked_reading(book)?;
    held.model = model;
    spoil(&mut held, no);
    let is = |question| no.contains(&question);
    let areas = RunAreas {
        chain: &mut held.chain,
        arguments: &mut held.arguments,
        storage: &mut held.storage,
        image: &mut held.image,
        faults: &mut held.faults,
    };
    let mut restart = (vec![0; 64], vec![0; 16]);
    restart.0[..8].copy_from_slice(&book.ccw(0x03, 0, 0, 1)?);
    if is(1) {
        restart.1.push(0);
    }
    let sizes = RunSizes {
        chain: areas.chain.len(),
        arguments: areas.arguments.len(),
        storage: areas.storage.len(),
        image: areas.image.len(),
        faults: areas.faults.len(),
        limit: held.limit,
    };
    let mut answer = vec![0; 36];
    let mut long = vec![0; 1_048_577];
    Ok(match call {
        "giruve_check_areas" => library::check_areas(sizes),
        "giruve_check_restart_areas" => library::check_restart_areas(64, restart.1.len()),
        "giruve_check_image" if is(1) => library::check_image(model, &mut long),
        "giruve_check_image" => library::check_image(model, areas.image),
        "giruve_check_faults" if is(1) => library::check_faults(model, areas.image, &mut long),
        "giruve_check_faults" => library::check_faults(model, areas.image, areas.faults),
        "giruve_check_extent" if is(1) => library::check_extent(model, &mut held.extent[..7]),
        "giruve_check_extent" => library::check_extent(model, &mut held.extent),
        "giruve_run" => library::run(model, areas, held.limit, &mut answer),
        "giruve_run_restart" => {
            let restart = RestartAreas {
                program: &mut restart.0,
                arguments: &mut restart.1,
            };
            library::run_restart(model, areas, restart, &mut answer)
        }
        _ => book.read(held)?.number,
    })
}

/// Answers these questions of a reading with no.
fn spoil(held: &mut HeldReading, no: &[u8]) {
    for question in no {
        match question {
            1 => held.limit = 0,
            2 => held.image[0] = 0xFF,
            3 => held.faults[0] = 0xFF,
            _ => held.extent[4..6].copy_from_slice(&[0xFF, 0xFF]),
        }
    }
}

// ---- examples

fn example<'a>(book: &'a Book, question: u8) -> Result<&'a str, String> {
    let table = book.page.table("Questions", &["number", "change"])?;
    let row = table
        .each()
        .find(|[of, _]| number(of) == Ok(question.into()));
    let [_, change] = row.ok_or(format!("no example of question {question}"))?;
    Ok(change)
}

fn examples(book: &Book) -> Checked {
    let table = book.page.table("Questions", &["number", "change"])?;
    table.has(&["1", "1", "1", "4", "4", "5", "5", "5", "6", "7", "8", "9"])?;
    for [question, change] in table.each() {
        let answer = book.recover(changed(book, change)?)?.number;
        ensure!(
            usize::from(answer) == number(question)?,
            "{change}: {answer}, not {question}"
        );
    }
    Ok(())
}

/// Asks that a change is refused by 9, and by the point that the row is about.
fn refused_by_nine(book: &Book, held: HeldRecovery, point: Refusal) -> Checked {
    let simulated = held.clone().simulated().map(|_| ());
    ensure!(
        simulated == Err(point),
        "the example shows {simulated:?}, not {point:?}"
    );
    let answer = book.recover(held)?.number;
    ensure!(answer == 9, "answered by {answer}");
    Ok(())
}

fn nine_of_five(book: &Book) -> Checked {
    use Refusal::{Cut, Next, Walk};
    let points = [
        (
            "field 12 is the address of a CCW of the chain",
            Cut(CutRule::NotInTheChain),
        ),
        ("field 12 is a multiple of 8", Cut(CutRule::NotInTheChain)),
        (
            "that CCW is a 06, 0E, 1E, 86, 8E or 9E",
            Cut(CutRule::OtherCommand),
        ),
        (
            "the error displacement is not 0",
            Cut(CutRule::NoErrorDisplacement),
        ),
        (
            "the restart displacement is not below the error displacement",
            Cut(CutRule::RestartBelowError),
        ),
        (
            "the restart displacement is 13,038 or less",
            Cut(CutRule::RestartTooFar),
        ),
        ("the sector, sense 13, is 7F or less", Cut(CutRule::Sector)),
        (
            "the data chain, walked for the restart displacement, meets no program check",
            Walk(ProgramCheck::CountZero),
        ),
        (
            "the walk ends at the CCW of the CSW's address less 8",
            Cut(CutRule::OtherCcw),
        ),
        ("the walk leaves the CSW's count", Cut(CutRule::OtherCount)),
        (
            "the walk shows incorrect length where the CSW does",
            Cut(CutRule::OtherLengthStatus),
        ),
        (
            "for a restart: the CCW to go on with is in the chain",
            Next(ProgramCheck::PastTheChain),
        ),
        (
            "for a restart: it is not a TIC that a TIC names",
            Next(ProgramCheck::TicToTic),
        ),
    ];
    let table = book
        .page
        .table("Question 9, action 5", &["asked", "a no"])?;
    table.has(&points.map(|(asked, _)| asked))?;
    ensure!(
        book.recover(worked(book)?)?.number == 0,
        "the worked report"
    );
    for [asked, no] in table.each() {
        let point = points.iter().find(|(of, _)| *of == asked);
        let (_, point) = point.ok_or("no such point")?;
        refused_by_nine(book, changed(book, no)?, *point)
            .map_err(|failure| format!("{asked}: {no}: {failure}"))?;
    }
    not_asked(book)
}

/// What question 9 leaves unasked, as the page says, and each command that it takes.
fn not_asked(book: &Book) -> Checked {
    for change in [
        "ccw 0018 = 0E",
        "ccw 0018 = 1E",
        "ccw 0018 = 86",
        "ccw 0018 = 8E",
        "ccw 0018 = 9E",
        "sense 12 = 99",
        "sense 23 = 01",
        "csw = 00 000020 F1 9F 0000",
        "ccw 0020 = 06 FFFFFF 07 00 0000",
    ] {
        let answer = book.recover(changed(book, change)?)?.number;
        ensure!(answer == 0, "{change}: {answer}");
    }
    Ok(())
}

fn nine_of_eight_and_ten(book: &Book) -> Checked {
    use InterruptedRule::*;
    use Refusal::{Interrupted, Next};
    let points = [
        ("field 14 is there", Interrupted(NoSeekArgument)),
        ("it begins 00 00", Interrupted(SeekNotZero)),
        ("its cylinder is 410 or less", Interrupted(SeekOffThePack)),
        ("on model 11 it is 814 or less", Interrupted(SeekOffThePack)),
        ("its head is 18 or less", Interrupted(SeekOffThePack)),
        (
            "the interrupted CCW is one of the chain",
            Interrupted(NotInTheChain),
        ),
        ("it is no TIC", Interrupted(Tic)),
        ("the seek has CC on", Interrupted(SeekWithoutCc)),
        (
            "the CCW behind the seek is in the chain",
            Next(ProgramCheck::PastTheChain),
        ),
        (
            "it is not a TIC that a TIC names",
            Next(ProgramCheck::TicToTic),
        ),
        (
            "the head reached, sense 6 bits 3 to 7, is 18 or less",
            Interrupted(HeadAboveLast),
        ),
    ];
    const HEADING: &str = "Question 9, actions 8, 10, 10A";
    let reports = reports(book, HEADING, &["8", "10", "10A"])?;
    points_of(book, HEADING, &points, |point| match point {
        Next(_) | Interrupted(SeekWithoutCc) => "10",
        Interrupted(HeadAboveLast) => "10A",
        _ => "8, 10, 10A",
    })?;
    heads_not_asked(book, reports)
}

fn nine_of_nine_and_eleven(book: &Book) -> Checked {
    use InterruptedRule::*;
    use OverflowRule::*;
    use Refusal::{Interrupted, Next, Overflow, Walk};
    let points = [
        ("field 14 is there", Interrupted(NoSeekArgument)),
        ("it begins 00 00", Interrupted(SeekNotZero)),
        ("its cylinder is 410 or less", Interrupted(SeekOffThePack)),
        ("on model 11 it is 814 or less", Interrupted(SeekOffThePack)),
        ("its head is 18 or less", Interrupted(SeekOffThePack)),
        (
            "the head reached, sense 6 bits 3 to 7, is 18 or less",
            Interrupted(HeadAboveLast),
        ),
        ("sense 3 is 06", Overflow(OtherRestartCommand)),
        (
            "field 12 is the address of a CCW of the chain",
            Overflow(FirstNotInTheChain),
        ),
        ("field 12 is a multiple of 8", Overflow(FirstNotInTheChain)),
        (
            "that CCW is a 06, 0E, 1E, 86, 8E or 9E",
            Overflow(FirstOtherCommand),
        ),
        (
            "the data chain, walked for the restart displacement, meets no program check",
            Walk(ProgramCheck::CountZero),
        ),
        (
            "the walk ends at the CCW of the CSW's address less 8",
            Overflow(OtherCcw),
        ),
        ("the walk leaves the CSW's count", Overflow(OtherCount)),
        ("that count is not 0", Overflow(NoCountLeft)),
        (
            "with CD or CC in the interrupted CCW: the CCW to go on with is in the chain",
            Next(ProgramCheck::PastTheChain),
        ),
        (
            "with CD or CC: it is not a TIC that a TIC names",
            Next(ProgramCheck::TicToTic),
        ),
    ];
    const HEADING: &str = "Question 9, actions 9, 11";
    let reports = reports(book, HEADING, &["9", "11"])?;
    points_of(book, HEADING, &points, |point| match point {
        Interrupted(HeadAboveLast) => "11",
        _ => "9, 11",
    })?;
    not_asked_inside(book, reports)
}

/// The changes that make the worked report one of each of these actions.
fn reports<'a>(book: &'a Book, heading: &str, actions: &[&str]) -> Result<&'a Table, String> {
    let reports = book.page.table(heading, &["action", "change"])?;
    reports.has(actions)?;
    for [action, change] in reports.each() {
        let mut held = changed(book, change)?;
        held.extent = book.tracks((0, 0), (410, 18))?;
        let recovered = book.recover(held)?;
        ensure!(
            recovered.number == 0 && book.codes.get(action) == Some(&recovered.action),
            "{change}: action {:02X}",
            recovered.action
        );
    }
    Ok(reports)
}

/// Each point of question 9 under a heading, by the examples of a no.
fn points_of(
    book: &Book,
    heading: &str,
    points: &[(&str, Refusal)],
    whose: impl Fn(Refusal) -> &'static str,
) -> Checked {
    let reports = book.page.table(heading, &["action", "change"])?;
    let table = book.page.table(heading, &["action", "asked", "a no"])?;
    let found: Vec<&str> = table.each().map(|[_, asked, _]| asked).collect();
    let known: Vec<&str> = points.iter().map(|(asked, _)| *asked).collect();
    ensure!(
        found == known,
        "line {}: other points, or in another order",
        table.line
    );
    for ([actions, asked, no], (_, point)) in table.each().zip(points) {
        ensure!(actions == whose(*point), "{asked}: asked for {actions}");
        for action in actions.split(", ") {
            let held = changed_on(book, report_of(book, reports, action)?, no)?;
            refused_by_nine(book, held, *point)
                .map_err(|failure| format!("{action}, {asked}: {no}: {failure}"))?;
        }
    }
    Ok(())
}

/// The report that a row makes of the worked one.
fn report_of(book: &Book, reports: &Table, action: &str) -> Result<HeldRecovery, String> {
    let row = reports.each().find(|[of, _]| *of == action);
    let [_, change] = row.ok_or(format!("no report of {action}"))?;
    changed(book, change)
}

/// What these actions leave unasked of the two heads: the restart is the same.
fn heads_not_asked(book: &Book, reports: &Table) -> Checked {
    const SAID: &str =
        "Not asked: sense 6 in 8 and 10, its bits 0 to 2 in 10A. Of field 14 10A uses the cylinder \
         alone, though its head is asked.";
    ensure!(book.page.says(SAID), "the page lacks '{SAID}'");
    let of_sense_6 = ["sense 6 = 01", "sense 6 = 13", "sense 6 = FF"];
    let of_ten_a = ["sense 6 = 20", "sense 6 = E0", "14 = 000000000012"];
    for (action, changes) in [("8", of_sense_6), ("10", of_sense_6), ("10A", of_ten_a)] {
        same_restart(book, reports, action, &changes)?;
    }
    Ok(())
}

/// What 9 and 11 leave unasked: the restart is the same. And what comes before action 2.
fn not_asked_inside(book: &Book, reports: &Table) -> Checked {
    const SAID: &str = "All of these come before the extent: a report that does not fit is refused, and not \
         answered by action 2. Not asked, though action 5 asks for them: sense 7 and 13, the error \
         displacement, a bound of the restart displacement, incorrect length. Not asked either: the rest of \
         the CSW; sense 6 in 9, its bits 0 to 2 in 11; the code of the interrupted CCW, unless field 12 names \
         it; and code, count, flags and address of the CCW to go on with. Of field 14 both use the cylinder \
         alone.";
    ensure!(book.page.says(SAID), "the page lacks '{SAID}'");
    let of_both = [
        "sense 7 = 00",
        "sense 7 = FF",
        "sense 13 = FF",
        "sense 18 = 0000",
        "sense 18 = FFFF",
        "csw = 00 000020 00 00 0001",
        "csw = 00 000020 FF FF 0001",
        "ccw 0020 = 06 FFFFFF 07 00 0000",
        "ccw 0020 = 07",
        "14 = 000000000012",
    ];
    for action in ["9", "11"] {
        same_restart(book, reports, action, &of_both)?;
        let outside = "extent = 0005 0000 0005 0000";
        let held = changed_on(book, report_of(book, reports, action)?, outside)?;
        let recovered = book.recover(held.clone())?;
        ensure!(
            recovered.number == 0 && book.answers.get("action 2") == Some(&recovered.what),
            "{action}: a track outside the extent"
        );
        let refused = book.recover(changed_on(book, held, "sense 3 = 05")?)?;
        ensure!(refused.number == 9, "{action}: the extent comes first");
    }
    let of_nine = ["sense 6 = 01", "sense 6 = 13", "sense 6 = FF"];
    same_restart(book, reports, "9", &of_nine)?;
    same_restart(book, reports, "11", &["sense 6 = 20", "sense 6 = E0"])?;
    interrupted_code(book)
}

/// The interrupted CCW may have any code that is no TIC, a seek's too, where field 12 names another.
fn interrupted_code(book: &Book) -> Checked {
    for (action, sense) in [("9", "00 21 00 06"), ("11", "00 05 00 06")] {
        for code in [0x00, 0x07, 0xFF] {
            let change = format!(
                "sense 0 = {sense}; sense 15 = 000005; csw = 00 000028 0E 00 0003; 14 = 000000000000; \
                 ccw 0018 = 06 000000 80 00 0004; ccw 0020 = {code:02X}; extent = 00000000019A0012"
            );
            let recovered = book.recover(changed(book, &change)?)?;
            ensure!(
                recovered.number == 0 && book.codes.get(action) == Some(&recovered.action),
                "{change}: {}",
                recovered.number
            );
        }
    }
    Ok(())
}

/// Asks that the report of an action is answered alike with each of these changes.
fn same_restart(book: &Book, reports: &Table, action: &str, changes: &[&str]) -> Checked {
    let base = report_of(book, reports, action)?;
    let expected = book.recover(base.clone())?;
    for change in changes {
        let recovered = book.recover(changed_on(book, base.clone(), change)?)?;
        ensure!(
            recovered.number == 0
                && recovered.what == expected.what
                && recovered.action == expected.action
                && recovered.held.program == expected.held.program
                && recovered.held.restart_arguments == expected.held.restart_arguments,
            "{action}: another answer with {change}"
        );
    }
    Ok(())
}
