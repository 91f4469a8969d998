//! The reading order of the definitions in docs/PROOFS.md: each file stands there once, below every
//! listed file that it uses. A definition of the first table uses listed ones alone.

use crate::files::{Place, Repository};
use crate::uses::{reached, Parts};
use std::collections::BTreeSet;

const FILE: &str = "docs/PROOFS.md";
const HEADING: &str = "## What you must believe";

/// A file of definitions, the line that lists it, and the number of its table.
struct Listed {
    path: String,
    line: usize,
    table: usize,
}

pub fn check(repository: &Repository) -> Vec<Place> {
    let text = repository.file(FILE).map_or("", |file| &file.text);
    let listed = listed(text);
    let place = |line: usize, what: String| Place {
        file: FILE.to_string(),
        line,
        what,
    };
    if listed.is_empty() {
        return vec![place(1, format!("no `{HEADING}` with tables of files"))];
    }
    let mut places = Vec::new();
    for (index, one) in listed.iter().enumerate() {
        if listed[..index].iter().any(|other| other.path == one.path) {
            places.push(place(one.line, format!("{} stands twice", one.path)));
        }
        let Some(file) = repository.file(&one.path) else {
            places.push(place(one.line, format!("there is no {}", one.path)));
            continue;
        };
        let used: BTreeSet<String> = reached(&Parts::of(file))
            .into_iter()
            .map(|(path, _)| path)
            .filter(|path| path.contains("/specs/") && repository.file(path).is_some())
            .collect();
        for path in used.iter().filter(|path| **path != one.path) {
            let known = listed.iter().position(|other| other.path == *path);
            if known.is_some_and(|other| other > index) {
                places.push(place(
                    one.line,
                    format!("{} stands above {path}, which it uses", one.path),
                ));
            } else if known.is_none() && one.table == 1 {
                places.push(place(
                    one.line,
                    format!("{} uses {path}, which is not listed", one.path),
                ));
            }
        }
    }
    places
}

/// The files in the first column of the tables below the heading.
fn listed(text: &str) -> Vec<Listed> {
    let mut found = Vec::new();
    let mut table = 0;
    let lines = text.lines().enumerate();
    let below = lines.skip_while(|(_, line)| *line != HEADING).skip(1);
    for (index, line) in below.take_while(|(_, line)| !line.starts_with("## ")) {
        if line.starts_with("|---") {
            table += 1;
        }
        let cell = line.strip_prefix('|').and_then(|row| row.split('|').next());
        for span in cell.unwrap_or("").split('`').skip(1).step_by(2) {
            for path in spelt_out(span) {
                if path.starts_with("crates/") {
                    found.push(Listed {
                        path,
                        line: index + 1,
                        table,
                    });
                }
            }
        }
    }
    found
}

/// `a{b,c}d` is `abd` and `acd`.
fn spelt_out(span: &str) -> Vec<String> {
    match span.split_once('{').and_then(|(front, rest)| {
        let (middle, back) = rest.split_once('}')?;
        Some((front, middle, back))
    }) {
        Some((front, middle, back)) => middle
            .split(',')
            .map(|one| format!("{front}{one}{back}"))
            .collect(),
        None => vec![span.to_string()],
    }
}

#[cfg(test)]
mod tests {
    use super::*;
    use crate::files::said;

    const A: (&str, &str) = ("crates/a/specs/A.antt", "pub x : ℕ\nx = 0\n");
    const B: (&str, &str) = (
        "crates/a/specs/B.antt",
        "use Rattle.a.specs.A.{x}\ny = x\n",
    );
    const C: (&str, &str) = ("crates/c/specs/C.antt", "use Rattle.a.specs.B.{y}\nz = y\n");

    fn with(rows: &str) -> Vec<String> {
        let page =
            format!("# P\n\n{HEADING}\n\n|---|---|\n{rows}\n\n## Assumed\n\n| `crates/x` | |\n");
        said(&check(&Repository::of(&[A, B, C, (FILE, &page)])))
    }

    #[test]
    fn in_order() {
        assert_eq!(
            with("| `crates/a/specs/{A,B}.antt` | a |\n| `crates/c/specs/C.antt`: `z` | c |"),
            [""; 0]
        );
    }

    #[test]
    fn used_before_it_stands_there() {
        assert_eq!(
            with("| `crates/a/specs/{B,A}.antt` | |"),
            ["docs/PROOFS.md:6: crates/a/specs/B.antt stands above crates/a/specs/A.antt, which it uses"]
        );
    }

    #[test]
    fn not_listed() {
        assert_eq!(
            with("| `crates/c/specs/C.antt` | |"),
            ["docs/PROOFS.md:6: crates/c/specs/C.antt uses crates/a/specs/B.antt, which is not listed"]
        );
        assert_eq!(
            with("| `crates/a/specs/A.antt` | |\n\n|---|---|\n| `crates/c/specs/C.antt` | |"),
            [""; 0]
        );
    }

    #[test]
    fn twice_or_not_there() {
        let twice = "| `crates/a/specs/A.antt` | |\n| `crates/a/specs/{A,D}.antt` | |";
        assert_eq!(
            with(twice),
            [
                "docs/PROOFS.md:7: crates/a/specs/A.antt stands twice",
                "docs/PROOFS.md:7: there is no crates/a/specs/D.antt"
            ]
        );
    }

    #[test]
    fn no_tables() {
        assert_eq!(with("").len(), 1);
    }
}
