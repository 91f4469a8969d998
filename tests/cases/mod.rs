//! Calls written by hand: what is lent and what must come out. `text` says how they are written;
//! `run`, `recovery` and `reading` have the words.
//!
//! Nothing here knows what is called; a `Runner` does that.

// Each program that includes this uses a part of it.
#![allow(dead_code)]

pub mod reading;
pub mod recovery;
pub mod run;
mod text;

use std::fmt::Debug;
use std::fs;
use std::path::{Path, PathBuf};
use std::process::ExitCode;
use text::Statement;

/// A kind of call; a value of it is what a case says of the answer.
pub trait Call: Clone + Default {
    /// By default what is lent where nothing is said.
    type Lent: Clone + Debug + Default + PartialEq;
    type Answer: Debug + PartialEq;

    /// What several calls are called.
    const CALLS: &'static str;
    /// The words of which each case has one.
    const ANSWERS: &'static [&'static str];
    /// The words that may be said again.
    const REPEATED: &'static [&'static str];

    /// The area, only read, whose bytes this word says.
    fn only_read<'a>(lent: &'a mut Self::Lent, word: &str) -> Option<&'a mut Vec<u8>>;

    fn written(lent: &mut Self::Lent) -> Vec<Written<'_>>;

    /// Takes a statement with any other word.
    fn take(&mut self, lent: &mut Self::Lent, statement: &Statement) -> Result<(), String>;

    fn answer(self) -> Self::Answer;

    /// What is answered otherwise than expected, a line each.
    fn differences(expected: &Self::Answer, shown: &Self::Answer) -> Vec<String> {
        different("answer", expected, shown).into_iter().collect()
    }
}

/// An area that a call may write.
pub struct Written<'a> {
    /// The words that say what it holds before, and what is left.
    lent: &'static str,
    left: &'static str,
    bytes: &'a mut Vec<u8>,
}

impl Written<'_> {
    fn storage(bytes: &mut Vec<u8>) -> Written<'_> {
        Written {
            lent: "storage",
            left: "storage-after",
            bytes,
        }
    }

    /// Storage and the two restart areas.
    fn with_restart<'a>(
        storage: &'a mut Vec<u8>,
        program: &'a mut Vec<u8>,
        arguments: &'a mut Vec<u8>,
    ) -> Vec<Written<'a>> {
        let program = Written {
            lent: "program-lent",
            left: "restart-program",
            bytes: program,
        };
        let arguments = Written {
            lent: "arguments-lent",
            left: "restart-arguments",
            bytes: arguments,
        };
        vec![Written::storage(storage), program, arguments]
    }
}

/// Makes the call with what is lent, and leaves it as the call does.
pub type Runner<C> = fn(&mut <C as Call>::Lent) -> <C as Call>::Answer;

pub struct Case<C: Call> {
    pub name: String,
    pub lent: C::Lent,
    pub answer: C::Answer,
    /// What is lent, as it is left.
    pub left: C::Lent,
}

impl<C: Call> Case<C> {
    /// What comes out otherwise than the case says, a line each.
    fn differences(&self, run: Runner<C>) -> Vec<String> {
        let mut came = self.lent.clone();
        let answer = run(&mut came);
        let mut left = self.left.clone();
        let mut differences = C::differences(&self.answer, &answer);
        let written = C::written(&mut left).into_iter();
        for (left, came) in written.zip(C::written(&mut came)) {
            differences.extend(different(left.left, left.bytes, came.bytes));
            left.bytes.clear();
            came.bytes.clear();
        }
        differences.extend(different("an area that is only read", &left, &came));
        differences
    }
}

fn different<T: Debug + PartialEq>(what: &str, expected: &T, shown: &T) -> Option<String> {
    (expected != shown).then(|| format!("{what}: expected {expected:02X?}, came {shown:02X?}"))
}

/// Runs simulator and library over every case of the directory given to the program.
pub fn check<C: Call>(simulator: Runner<C>, library: Runner<C>) -> ExitCode {
    let directory = std::env::args().nth(1).expect("a directory of cases");
    let runners = [("simulator", simulator), ("library", library)];
    let passed = runners.map(|(name, run)| passed::<C>(Path::new(&directory), name, run));
    if let [Some(cases), Some(_)] = passed {
        println!("tried: {} written by hand: {cases}", C::CALLS);
        ExitCode::SUCCESS
    } else {
        ExitCode::FAILURE
    }
}

/// Runs every case of the directory's `.txt` files, prints what comes out otherwise than they say,
/// and tells the number of cases if nothing did.
fn passed<C: Call>(directory: &Path, runner: &str, run: Runner<C>) -> Option<usize> {
    let mut cases = 0;
    let mut failed = 0;
    for (file, case) in read_all::<C>(directory) {
        let differences = case.differences(run);
        cases += 1;
        if !differences.is_empty() {
            failed += 1;
            println!("{runner}: {}, {}", file.display(), case.name);
        }
        for difference in differences {
            println!("  {difference}");
        }
    }
    println!("{runner}: {cases} cases, {failed} failed");
    (cases > 0 && failed == 0).then_some(cases)
}

/// Every case of the directory's `.txt` files, each behind its file.
pub fn read_all<C: Call>(directory: &Path) -> Vec<(PathBuf, Case<C>)> {
    let mut all = Vec::new();
    for file in files(directory) {
        let text = fs::read_to_string(&file).expect("the file can be read");
        let read = text::read::<C>(&text);
        let cases = read.unwrap_or_else(|error| panic!("{}: {error}", file.display()));
        all.extend(cases.into_iter().map(|case| (file.clone(), case)));
    }
    all
}

fn files(directory: &Path) -> Vec<PathBuf> {
    let entries = fs::read_dir(directory).expect("the directory can be read");
    let mut files: Vec<PathBuf> = entries
        .map(|entry| entry.expect("the directory can be read").path())
        .filter(|path| path.extension().is_some_and(|extension| extension == "txt"))
        .collect();
    files.sort();
    files
}

/// The parts of which differences are told, of a text's first case.
#[cfg(test)]
fn told<C: Call>(text: &str, run: Runner<C>) -> Vec<String> {
    let differences = text::read::<C>(text).unwrap()[0].differences(run);
    let parts = differences.iter().map(|line| line.split(':').next());
    parts.map(|part| part.unwrap().to_string()).collect()
}
