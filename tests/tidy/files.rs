//! The files that are read, and the places that are reported.

use std::collections::BTreeSet;
use std::fmt;
use std::fs;
use std::io;
use std::path::Path;
use std::process::Command;

/// The notes of landings are no pages: they tell what was, and stay as they are.
pub const NOTES: &str = "docs/requests/";

pub struct File {
    /// From the repository's root.
    pub path: String,
    pub text: String,
}

impl File {
    /// The crate that the file belongs to.
    pub fn owner(&self) -> Option<&str> {
        self.path.strip_prefix("crates/")?.split('/').next()
    }

    /// Whether it stands in this folder of its crate.
    pub fn in_part(&self, part: &str) -> bool {
        let below = self.path.strip_prefix("crates/");
        below.is_some_and(|path| path.split('/').nth(1) == Some(part))
    }

    pub fn is_antt(&self) -> bool {
        self.path.ends_with(".antt")
    }

    pub fn is_rt(&self) -> bool {
        self.path.ends_with(".rt")
    }

    /// Whether it answers what `rt` asks of one function.
    pub fn is_proof(&self) -> bool {
        PROOFS.contains(&self.path.rsplit('/').next().unwrap_or(""))
    }

    pub fn is_page(&self) -> bool {
        self.path.ends_with(".md") && !self.path.starts_with(NOTES)
    }

    pub fn place(&self, line: usize, what: String) -> Place {
        Place {
            file: self.path.clone(),
            line,
            what,
        }
    }
}

/// What the files of a function's proof are called.
const PROOFS: [&str; 3] = ["Invariants.antt", "Answers.antt", "Proof.antt"];

/// The pages, the sources of every crate, and all other text that is written by hand.
pub struct Repository {
    pub files: Vec<File>,
    /// All files and folders, but what is built.
    pub paths: BTreeSet<String>,
    /// The folders of `crates/`.
    pub crates: Vec<String>,
    /// What docs/lines.sh prints.
    pub lines: String,
}

/// The endings of the files that are read.
const READ: [&str; 10] = [
    ".md",
    ".antt",
    ".rt",
    ".edit",
    ".sh",
    ".rs",
    ".h",
    ".c",
    ".ci/run",
    "crates.txt",
];

impl Repository {
    pub fn read(root: &Path) -> io::Result<Repository> {
        let mut paths = Vec::new();
        walk(root, "", &mut paths)?;
        let mut files = Vec::new();
        for path in &paths {
            if READ.iter().any(|ending| path.ends_with(ending)) {
                let text = fs::read_to_string(root.join(path))
                    .map_err(|error| io::Error::new(error.kind(), format!("{path}: {error}")))?;
                let path = path.clone();
                files.push(File { path, text });
            }
        }
        let lines = Command::new("bash")
            .arg(root.join("docs/lines.sh"))
            .output()?;
        let lines = String::from_utf8_lossy(&lines.stdout).into_owned();
        let paths = with_folders(&paths);
        Ok(Repository {
            crates: owners(&paths),
            files,
            paths,
            lines,
        })
    }

    #[cfg(test)]
    pub fn of(files: &[(&str, &str)]) -> Repository {
        let files: Vec<File> = files
            .iter()
            .map(|(path, text)| File {
                path: path.to_string(),
                text: text.to_string(),
            })
            .collect();
        let paths: Vec<String> = files.iter().map(|file| file.path.clone()).collect();
        let paths = with_folders(&paths);
        Repository {
            crates: owners(&paths),
            files,
            paths,
            lines: String::new(),
        }
    }

    pub fn pages(&self) -> impl Iterator<Item = &File> {
        self.files.iter().filter(|file| file.is_page())
    }

    pub fn file(&self, path: &str) -> Option<&File> {
        self.files.iter().find(|file| file.path == path)
    }
}

/// The files below a folder, in order of their paths, but those that are built or git's own.
fn walk(root: &Path, folder: &str, paths: &mut Vec<String>) -> io::Result<()> {
    let mut entries: Vec<fs::DirEntry> =
        fs::read_dir(root.join(folder))?.collect::<Result<_, _>>()?;
    entries.sort_by_key(|entry| entry.file_name());
    for entry in entries {
        let path = format!("{folder}{}", entry.file_name().to_string_lossy());
        if !entry.file_type()?.is_dir() {
            paths.push(path);
        } else if !is_built(&path) {
            walk(root, &format!("{path}/"), paths)?;
        }
    }
    Ok(())
}

/// What the tests write, what git keeps, and what `rt` makes of a crate.
fn is_built(folder: &str) -> bool {
    let of_crate = folder.strip_prefix("crates/").and_then(|path| path.split_once('/'));
    folder == "target" || folder == ".git" || of_crate.is_some_and(|(_, below)| below == "out")
}

fn with_folders(paths: &[String]) -> BTreeSet<String> {
    let mut all = BTreeSet::new();
    for path in paths {
        all.extend(
            path.match_indices('/')
                .map(|(at, _)| path[..at].to_string()),
        );
        all.insert(path.clone());
    }
    all
}

/// The folders of `crates/`, each once.
fn owners(paths: &BTreeSet<String>) -> Vec<String> {
    let below = paths.iter().filter_map(|path| path.strip_prefix("crates/"));
    let owners: BTreeSet<&str> = below
        .filter_map(|path| Some(path.split_once('/')?.0))
        .collect();
    owners.into_iter().map(str::to_string).collect()
}

pub struct Place {
    pub file: String,
    pub line: usize,
    pub what: String,
}

impl fmt::Display for Place {
    fn fmt(&self, to: &mut fmt::Formatter) -> fmt::Result {
        write!(to, "{}:{}: {}", self.file, self.line, self.what)
    }
}

/// What a check says, a line for each place.
#[cfg(test)]
pub fn said(places: &[Place]) -> Vec<String> {
    places.iter().map(Place::to_string).collect()
}
