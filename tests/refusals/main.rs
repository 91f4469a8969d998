//! Whether edits were refused because a fact fails.
//!     refusals words ROOT SAID          of every must-fail edit, by what `rt ci` or `rt must-fail` said: `fact: CRATE/NAME`,
//!                                       `open: CRATE/NAME` where a log of its check must tell, or `wrong: CRATE/NAME: WHY`
//!     refusals log LOG                  a log of `rt check`
//!     refusals theorem ROOT FILE LOG    the same: a law under the theorem of this file must fail
//! An edit that is not refused so by its log is told in a line, and the exit status is 1.

mod log;
mod reach;

use log::Words;
use std::path::{Path, PathBuf};
use std::{env, fs, io, process};

fn entries(folder: &Path) -> io::Result<Vec<PathBuf>> {
    let mut paths = fs::read_dir(folder)?
        .map(|entry| Ok(entry?.path()))
        .collect::<io::Result<Vec<_>>>()?;
    paths.sort();
    Ok(paths)
}

/// The name of a file without its ending.
fn stem(path: &Path) -> &str {
    path.file_stem().and_then(|name| name.to_str()).unwrap_or_default()
}

/// The lines that tell of every must-fail edit.
fn words(root: &Path, said: &Path) -> io::Result<Vec<String>> {
    let bytes = fs::read(said)?;
    let said = String::from_utf8_lossy(&bytes);
    let mut lines = vec![];
    for krate in entries(&root.join("crates"))? {
        let folder = krate.join("must-fail");
        if !folder.is_dir() {
            continue;
        }
        for edit in entries(&folder)?.iter().filter(|path| path.extension().is_some_and(|e| e == "edit")) {
            let name = format!("{}/{}", stem(&krate), stem(edit));
            let start = format!("rt: must-fail {name}.edit: ");
            let told = said.lines().find_map(|line| line.strip_prefix(&start));
            lines.push(match told.map(log::by_words) {
                Some(Words::Fact) => format!("fact: {name}"),
                Some(Words::Obligation(file, line)) if !answered(&krate, &file, line)? => format!("fact: {name}"),
                Some(Words::Obligation(..)) => format!("open: {name}"),
                Some(Words::Wrong(why)) => format!("wrong: {name}: {why}"),
                None => format!("wrong: {name}: nothing is said of it"),
            });
        }
    }
    Ok(lines)
}

/// Whether files of a proof are written for the function on a line of a source, or for functions that call one another.
fn answered(krate: &Path, file: &str, line: usize) -> io::Result<bool> {
    let text = fs::read_to_string(krate.join(file))?;
    let names = text.lines().take(line).filter_map(|line| {
        let (_, behind) = line.split_once("fn ").filter(|(front, _)| !front.contains("//"))?;
        behind.split(|c: char| !c.is_alphanumeric() && c != '_').next()
    });
    let name = names.last().unwrap_or_default();
    let is_of = |folder: &str| folder == name || folder.starts_with('+');
    let mut left = vec![krate.join("proofs")];
    while let Some(folder) = left.pop() {
        let own = folder.file_name().and_then(|name| name.to_str()).is_some_and(is_of);
        for path in if folder.is_dir() { entries(&folder)? } else { vec![] } {
            if path.is_dir() {
                left.push(path);
            } else if own {
                return Ok(true);
            }
        }
    }
    Ok(false)
}

/// The text of a log.
fn read(log: &Path) -> Result<String, String> {
    let bytes = fs::read(log).map_err(|_| "there is no log of it".to_string())?;
    Ok(String::from_utf8_lossy(&bytes).into_owned())
}

/// The first file under `root` in which a law fails that the theorem of another file rests on.
fn theorem(root: &Path, of: &Path, log: &Path) -> Result<PathBuf, String> {
    let text = read(log)?;
    let failed = log::by_facts(&text)?;
    let files = failed.iter().filter_map(|one| {
        let file = one.file.strip_prefix("./").unwrap_or(one.file);
        Some(Path::new("crates").join(one.krate?).join(file))
    });
    let files: Vec<PathBuf> = files.collect();
    let first = files.first().ok_or("no law of a crate that is named fails")?;
    let reached = reach::reached(root, of);
    let found = files.iter().find(|file| reached.contains(*file));
    found.cloned().ok_or_else(|| format!("{} fails, on which {} does not rest", first.display(), of.display()))
}

/// Prints what was found, or what is wrong, and answers which of the two it is.
fn told(found: Result<String, String>) -> bool {
    let well = found.is_ok();
    println!("{}", found.unwrap_or_else(|why| why));
    well
}

fn main() {
    let arguments: Vec<String> = env::args().skip(1).collect();
    let refused = match arguments.iter().map(String::as_str).collect::<Vec<_>>()[..] {
        ["words", root, said] => words(Path::new(root), Path::new(said)).map(|lines| {
            lines.iter().for_each(|line| println!("{line}"));
            !lines.is_empty()
        }),
        ["log", log] => Ok(told(read(Path::new(log)).and_then(|text| log::by_facts(&text).map(|_| "refused".into())))),
        ["theorem", root, of, log] => {
            let found = theorem(Path::new(root), Path::new(of), Path::new(log));
            Ok(told(found.map(|file| format!("refused in {}", file.display()))))
        }
        _ => Err(io::Error::new(io::ErrorKind::InvalidInput, "words ROOT SAID, log LOG, or theorem ROOT FILE LOG")),
    };
    match refused {
        Ok(true) => {}
        Ok(false) => process::exit(1),
        Err(error) => {
            eprintln!("refusals: {error}");
            process::exit(2);
        }
    }
}
