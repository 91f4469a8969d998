//! The models of the pack: their numbers, their last cylinders, and all that goes by these.

use super::book::{Book, KEPT};
use super::bytes::{big_endian, number, Checked};
use super::channel::shown;
use super::inputs::{worked, worked_reading};
use super::questions::changed;
use crate::library;
use crate::simulator::held::{HeldReading, HeldRecovery, HeldRestart, HeldRun};

pub fn check(book: &Book) -> Checked {
    let models = models(book)?;
    let numbers: Vec<u8> = models.iter().map(|&(model, _)| model).collect();
    ensure!(numbers == [1, 11], "the models {numbers:?}");
    numbers_refused(book, &numbers)?;
    let table = book.page.table(
        "Models",
        &["the track of", "on the last", "on the one behind"],
    )?;
    table.has(&PLACES.map(|(place, _)| place))?;
    for [place, last, behind] in table.each() {
        let trial = PLACES.iter().find(|(of, _)| *of == place);
        let (_, trial) = trial.ok_or("no such place")?;
        for &(model, last_cylinder) in &models {
            // At the end of this model's pack, and at the other's.
            for cylinder in models.iter().flat_map(|&(_, end)| [end, end + 1]) {
                let on_pack = cylinder <= last_cylinder;
                let expected = if on_pack { last } else { behind };
                for head in [0, 18] {
                    for seen in trial(book, model, (cylinder, head))? {
                        ensure!(
                            seen == expected,
                            "{place}: {cylinder}/{head} is '{seen}' on model {model}"
                        );
                    }
                }
            }
        }
    }
    Ok(())
}

/// Number and last cylinder of each model.
pub fn models(book: &Book) -> Result<Vec<(u8, usize)>, String> {
    let columns = ["number", "last cylinder", "C name"];
    let rows = book.page.table("Models", &columns)?.each();
    rows.map(|[model, last, _]| Ok((number(model)? as u8, number(last)?)))
        .collect()
}

/// Of all numbers these alone are taken, by every call that takes one.
fn numbers_refused(book: &Book, taken: &[u8]) -> Checked {
    let (mut reading, mut recovery) = (worked_reading(book)?, worked(book)?);
    let restart = restart_to(book, (0, 0))?;
    for model in 0..=u8::MAX {
        let expected = if taken.contains(&model) { 0 } else { 1 };
        reading.model = model;
        recovery.model = model;
        let run = reading.clone().into_run();
        let restarted = HeldRun {
            restart: Some(restart.clone()),
            ..run.clone()
        };
        let mut lent = reading.clone();
        let answers = [
            library::check_image(model, &mut lent.image),
            library::check_faults(model, &mut lent.image, &mut lent.faults),
            library::check_extent(model, &mut lent.extent),
            run_of(run)?,
            run_of(restarted)?,
            book.recover(recovery.clone())?.number,
            reading_of(reading.clone())?,
        ];
        ensure!(
            answers == [expected; 7],
            "model {model} is answered by {answers:?}"
        );
    }
    Ok(())
}

/// What a run returns; where it is refused, nothing that it is lent may have changed.
fn run_of(held: HeldRun) -> Result<u8, String> {
    let (mut after, mut answer) = (held.clone(), [KEPT; 36]);
    let number = library::run_held(&mut after, &mut answer);
    let kept = after == held && answer == [KEPT; 36];
    ensure!(number == 0 || kept, "a run that {number} refuses");
    Ok(number)
}

/// The same of a reading.
fn reading_of(held: HeldReading) -> Result<u8, String> {
    let (mut after, mut answer) = (held.clone(), [KEPT; 11]);
    let mut list = vec![KEPT; held.list_length];
    let number = library::read_held(&mut after, &mut list, &mut answer);
    let kept = after == held && answer == [KEPT; 11] && list.iter().all(|&byte| byte == KEPT);
    let ended = matches!(number, 0 | library::LIMIT | library::STOPPED);
    ensure!(ended || kept, "a reading that {number} refuses");
    Ok(number)
}

type Track = (usize, usize);

/// What comes of a track, by each way in which it can be met there.
type Trial = fn(&Book, u8, Track) -> Result<Vec<String>, String>;

const PLACES: [(&str, Trial); 6] = [
    ("a home address of the image", image),
    ("the first or last track of the extent", extent),
    ("a seek of the chain", seek),
    ("a seek of a restart program", restart_seek),
    ("field 14 in 8 to 11", seek_argument),
    ("the restart that 5, 8, 9, 10A or 11 would build", built),
];

fn taken_or_refused(number: u8) -> String {
    match number {
        0 => "taken".to_string(),
        _ => format!("refused by {number}"),
    }
}

/// By the check of an image and of a fault list, and by every call that is lent one.
fn image(book: &Book, model: u8, track: Track) -> Result<Vec<String>, String> {
    let mut image = book.track(track, &[(1, &[7])])?;
    let mut faults = book.fault(track, 1, 1, 0)?;
    let run = HeldRun {
        model,
        chain: book.ccw(0x03, 0, 0, 1)?,
        image: image.clone(),
        faults: faults.clone(),
        ..HeldRun::default()
    };
    let restarted = HeldRun {
        restart: Some(restart_to(book, (0, 0))?),
        ..run.clone()
    };
    let reading = HeldReading::of_run(run.clone(), book.tracks((0, 0), (0, 0))?);
    let numbers = [
        library::check_image(model, &mut image),
        library::check_faults(model, &mut image, &mut faults),
        run_of(run)?,
        run_of(restarted)?,
        reading_of(reading)?,
    ];
    Ok(numbers.into_iter().map(taken_or_refused).collect())
}

/// Of the extent alone, and as one of its two tracks.
fn extent(book: &Book, model: u8, track: Track) -> Result<Vec<String>, String> {
    let mut seen = Vec::new();
    for mut extent in [book.tracks(track, track)?, book.tracks((0, 0), track)?] {
        let number = library::check_extent(model, &mut extent);
        let recovered = book.recover(HeldRecovery {
            model,
            extent: extent.clone(),
            ..changed(book, "sense 0 = 80 02 00")?
        })?;
        let read = reading_of(HeldReading {
            model,
            extent,
            ..worked_reading(book)?
        })?;
        // A reading whose cut lies outside its extent is stopped.
        let read = if read == library::STOPPED { 0 } else { read };
        seen.extend([number, recovered.number, read].map(taken_or_refused));
    }
    Ok(seen)
}

fn argument((cylinder, head): Track) -> Vec<u8> {
    [vec![0, 0], big_endian(cylinder, 2), big_endian(head, 2)].concat()
}

/// A restart program that seeks this track, and ends.
fn restart_to(book: &Book, track: Track) -> Result<HeldRestart, String> {
    let mut program = book.ccw(0x07, 0x2000, 0, 6)?;
    program.resize(64, 0);
    let mut arguments = argument(track);
    arguments.resize(16, 0);
    Ok(HeldRestart { program, arguments })
}

/// What comes of a run that is one seek.
fn sought(book: &Book, held: HeldRun) -> Result<Vec<String>, String> {
    let ran = book.run(held)?;
    let unit = shown(book, &ran, "unit status")? as u8;
    let what = if unit == book.status("channel end+device end")? {
        "done".to_string()
    } else if ran.sense[..3] == book.sense_bits("0.0")? {
        "command reject".to_string()
    } else {
        format!("unit status {unit:02X}, sense {:02X?}", ran.sense)
    };
    Ok(vec![what])
}

fn seek(book: &Book, model: u8, track: Track) -> Result<Vec<String>, String> {
    sought(
        book,
        HeldRun {
            model,
            chain: book.ccw(0x07, 0, 0, 6)?,
            arguments: argument(track),
            ..HeldRun::default()
        },
    )
}

fn restart_seek(book: &Book, model: u8, track: Track) -> Result<Vec<String>, String> {
    sought(
        book,
        HeldRun {
            model,
            chain: book.ccw(0x03, 0, 0, 1)?,
            restart: Some(restart_to(book, track)?),
            ..HeldRun::default()
        },
    )
}

/// Of the worked report: one of each action.
const REPORTS: [(&str, &str); 5] = [
    ("8", "sense 0 = 00 20 00"),
    (
        "9",
        "sense 0 = 00 21 00 06; sense 15 = 000003; csw = 00 000020 0E 00 0001",
    ),
    ("10", "sense 0 = 00 04 00; csw = 00 000008 0E 00 0006"),
    ("10A", "sense 0 = 00 04 00"),
    (
        "11",
        "sense 0 = 00 05 00 06; sense 15 = 000003; csw = 00 000020 0E 00 0001",
    ),
];

fn last_cylinder(book: &Book, model: u8) -> Result<usize, String> {
    let models = models(book)?;
    let found = models.iter().find(|(of, _)| *of == model);
    found
        .map(|model| model.1)
        .ok_or(format!("no model {model}"))
}

/// A report in the extent of the whole pack.
fn reported(book: &Book, model: u8, change: &str) -> Result<HeldRecovery, String> {
    Ok(HeldRecovery {
        model,
        extent: book.tracks((0, 0), (last_cylinder(book, model)?, 18))?,
        ..changed(book, change)?
    })
}

fn seek_argument(book: &Book, model: u8, (cylinder, head): Track) -> Result<Vec<String>, String> {
    let mut seen = Vec::new();
    for (_, report) in REPORTS {
        let change = format!("{report}; 14 = 0000{cylinder:04X}{head:04X}");
        let recovered = book.recover(reported(book, model, &change)?)?;
        seen.push(taken_or_refused(recovered.number));
    }
    Ok(seen)
}

/// The restart of each action that seeks this track: 5 on it; 8 and 9 from the cylinder before it, to
/// head 0; 10A and 11 from the track before it.
fn built(book: &Book, model: u8, (cylinder, head): Track) -> Result<Vec<String>, String> {
    let (before, reached) = match head {
        0 => (cylinder - 1, 18),
        _ => (cylinder, head - 1),
    };
    let mut cases = vec![("5A", format!("sense 8 = {cylinder:04X} {head:04X}"))];
    for (action, report) in REPORTS {
        let builds = match action {
            "8" | "9" => head == 0,
            "10" => false,
            _ => true,
        };
        // From a field 14 off the pack there is no restart to be built: question 9 refuses it.
        if builds && before <= last_cylinder(book, model)? {
            let change = format!("{report}; sense 6 = {reached:02X}; 14 = 0000{before:04X}0000");
            cases.push((action, change));
        }
    }
    let mut seen = Vec::new();
    for (action, change) in cases {
        let recovered = book.recover(reported(book, model, &change)?)?;
        ensure!(recovered.number == 0, "{change}: {}", recovered.number);
        let is = |answer| book.answers.get(answer) == Some(&recovered.what);
        if is("action 2") {
            seen.push("action 2".to_string());
            continue;
        }
        let sought = &recovered.held.restart_arguments[..6];
        ensure!(
            is("restart")
                && book.codes.get(action) == Some(&recovered.action)
                && sought == argument((cylinder, head)),
            "{change}: {:02X} to {sought:02X?}",
            recovered.action
        );
        seen.push("built".to_string());
    }
    Ok(seen)
}
