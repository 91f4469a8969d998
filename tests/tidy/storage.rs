//! What recovery does with storage: the table of docs/ARCHITECTURE.md has a row for each line in which a
//! function that is lent it names it, from the call for C down, in the order in which it is lent on.

use crate::files::{Place, Repository};
use crate::rt::{functions, ghost};
use crate::tokens::{blank, line_at, rt_code, rust_names};

const FILE: &str = "docs/ARCHITECTURE.md";
const HEADING: &str = "## What recovery does with storage";
const FIRST: (&str, &str) = ("giruve_c", "giruve_recover");
const LENT: &str = "storage";

#[derive(Clone, Copy, PartialEq)]
enum Does {
    TakesLength,
    LendsOn,
    /// What else can be done with bytes, which the page tells in words of its own.
    Touches,
}

impl Does {
    fn words(self) -> Option<&'static str> {
        match self {
            Does::TakesLength => Some("takes its length"),
            Does::LendsOn => Some("lends it on"),
            Does::Touches => None,
        }
    }

    /// Whether the page may say so of it.
    fn is_told_by(self, cell: &str) -> bool {
        let fixed = [Does::TakesLength, Does::LendsOn];
        match self.words() {
            Some(words) => cell == words,
            None => !cell.is_empty() && fixed.iter().all(|does| does.words() != Some(cell)),
        }
    }
}

/// A line that names it: the first three cells of its row, and what it does.
struct Named {
    cells: [String; 3],
    does: Does,
}

/// A function, and the number of the parameter by which it is lent storage.
type Lent = (String, String, usize);

pub fn check(repository: &Repository) -> Vec<Place> {
    let text = repository.file(FILE).map_or("", |file| &file.text);
    let rows = rows(text);
    let named = named(repository);
    let place = |line: usize, what: String| Place {
        file: FILE.to_string(),
        line,
        what,
    };
    if named.is_empty() || rows.is_empty() {
        let what = format!("no `{HEADING}` with a table, or no `{}`", FIRST.1);
        return vec![place(1, what)];
    }
    let mut places = Vec::new();
    for (index, one) in named.iter().enumerate() {
        let told = |cells: &[String]| {
            cells.len() == 4 && cells[..3] == one.cells && one.does.is_told_by(&cells[3])
        };
        let line = rows.get(index).or(rows.last()).map_or(1, |row| row.0);
        if !rows.get(index).is_some_and(|(_, cells)| told(cells)) {
            let words = one.does.words().unwrap_or("..");
            let row = format!("| {} | {words} |", one.cells.join(" | "));
            places.push(place(line, format!("this row is wanted: {row}")));
        }
    }
    let more = rows.iter().skip(named.len());
    places.extend(more.map(|(line, _)| place(*line, "a row too many".to_string())));
    places
}

/// The rows of the section's table, each with its line.
fn rows(text: &str) -> Vec<(usize, Vec<String>)> {
    let lines = (1..).zip(text.lines());
    let section = lines
        .skip_while(|(_, line)| *line != HEADING)
        .skip(1)
        .take_while(|(_, line)| !line.starts_with("## "));
    section
        .skip_while(|(_, line)| !line.starts_with("|---"))
        .skip(1)
        .take_while(|(_, line)| line.starts_with('|'))
        .map(|(at, line)| (at, line.trim_matches('|').split('|').map(cell).collect()))
        .collect()
}

fn cell(text: &str) -> String {
    text.trim().to_string()
}

/// Each line that names it.
fn named(repository: &Repository) -> Vec<Named> {
    let mut found = Vec::new();
    let mut lent: Vec<Lent> = Vec::new();
    let (owner, name) = FIRST;
    if let Some(parameter) = (parameters_of(repository, owner, name).iter()).position(|p| p == LENT)
    {
        lent.push((owner.to_string(), name.to_string(), parameter));
    }
    let mut next = 0;
    while next < lent.len() {
        let (owner, name, parameter) = lent[next].clone();
        found.extend(named_in(repository, &owner, &name, parameter, &mut lent));
        next += 1;
    }
    found
}

/// A source, its code without comments, and the same without contracts.
fn source<'a>(repository: &'a Repository, owner: &str) -> Option<(&'a str, String, String)> {
    let file = repository.file(&format!("crates/{owner}/src/lib.rt"))?;
    let code = rt_code(&file.text);
    let plain = blank(&code, &ghost(&code));
    Some((&file.text, code, plain))
}

/// The names of a function's parameters; none where there is no such function.
fn parameters_of(repository: &Repository, owner: &str, name: &str) -> Vec<String> {
    let Some((_, code, plain)) = source(repository, owner) else {
        return Vec::new();
    };
    let functions = functions(&code);
    let Some(function) = functions.iter().find(|one| one.name == name) else {
        return Vec::new();
    };
    let text = &plain[function.range.clone()];
    let open = text.find('(').map_or(text.len(), |at| at + 1);
    let names = rust_names(&text[open..]);
    let typed = names.iter().filter(|(at, word)| {
        let behind = &text[open + at + word.len()..];
        behind.starts_with(':') && !behind.starts_with("::")
    });
    let names = typed.map(|(_, word)| word.to_string());
    names.take(function.parameters).collect()
}

/// The lines of one function, and the functions that it lends storage to.
fn named_in(
    repository: &Repository,
    owner: &str,
    name: &str,
    parameter: usize,
    lent: &mut Vec<Lent>,
) -> Vec<Named> {
    let Some((text, code, plain)) = source(repository, owner) else {
        return Vec::new();
    };
    let word = &parameters_of(repository, owner, name)[parameter];
    let functions = functions(&code);
    let function = functions.iter().find(|one| one.name == name);
    let range = function.map_or(0..0, |one| one.range.clone());
    let mut found = Vec::new();
    for (at, one) in rust_names(&plain[range.clone()]) {
        let at = range.start + at;
        let behind = &plain[at + one.len()..];
        let declared = behind.starts_with(':') && !behind.starts_with("::");
        if one != word || declared {
            continue;
        }
        let does = if behind.starts_with(".len()") {
            Does::TakesLength
        } else if let Some(to) = lent_on(repository, owner, &plain, at, behind) {
            if !lent.contains(&to) {
                lent.push(to);
            }
            Does::LendsOn
        } else {
            Does::Touches
        };
        let line = line_at(text, at);
        let shown = text.lines().nth(line - 1).unwrap_or("").trim();
        found.push(Named {
            cells: [
                format!("`{owner}::{name}`"),
                format!("`crates/{owner}/src/lib.rt:{line}`"),
                format!("`{shown}`"),
            ],
            does,
        });
    }
    found
}

/// The function that a name, with this behind it, is handed to as it stands.
fn lent_on(
    repository: &Repository,
    owner: &str,
    plain: &str,
    at: usize,
    behind: &str,
) -> Option<Lent> {
    let before = plain[..at].trim_end();
    if !before.ends_with(['(', ',']) || !behind.trim_start().starts_with([')', ',']) {
        return None;
    }
    let (mut depth, mut commas) = (0, 0);
    let open = before.char_indices().rev().find(|(_, sign)| {
        match sign {
            ')' | ']' | '}' => depth += 1,
            '(' if depth == 0 => return true,
            '(' | '[' | '{' => depth -= 1,
            ',' if depth == 0 => commas += 1,
            _ => {}
        }
        false
    })?;
    let is_path = |sign: char| sign.is_alphanumeric() || "_:".contains(sign);
    let path = &before[..open.0];
    let path = &path[path.trim_end_matches(is_path).len()..];
    let (to, name) = path.rsplit_once("::").unwrap_or((owner, path));
    let known = parameters_of(repository, to, name).len() > commas;
    known.then(|| (to.to_string(), name.to_string(), commas))
}

#[cfg(test)]
mod tests {
    use super::*;
    use crate::files::said;

    const CALL: &str = "\
pub extern \"C\" fn giruve_recover(
    chain: &[u8],
    storage: &mut [u8],
) -> u8
    ensures { f storage.old storage.new }
{
    if !fits(
        chain.len(),
        storage.len(),
    ) {
        return 1;
    }
    base::change(3, storage)
}
";
    const BELOW: &str = "\
pub fn change(at: usize, bytes: &mut [u8]) -> u8 {
    // bytes
    bytes[at] ^= 1;
    again(bytes)
}
fn again(s: &mut [u8]) -> u8 {
    change(2, s)
}
";
    const ROWS: [&str; 5] = [
        "| `giruve_c::giruve_recover` | `crates/giruve_c/src/lib.rt:9` | `storage.len(),` | takes its length |",
        "| `giruve_c::giruve_recover` | `crates/giruve_c/src/lib.rt:13` | `base::change(3, storage)` | lends it on |",
        "| `base::change` | `crates/base/src/lib.rt:3` | `bytes[at] ^= 1;` | stores a byte |",
        "| `base::change` | `crates/base/src/lib.rt:4` | `again(bytes)` | lends it on |",
        "| `base::again` | `crates/base/src/lib.rt:7` | `change(2, s)` | lends it on |",
    ];

    fn with(rows: &[&str]) -> Vec<String> {
        let page = format!(
            "# A\n\n{HEADING}\n\n| a |\n|---|\n{}\n\n## B\n",
            rows.join("\n")
        );
        said(&check(&Repository::of(&[
            ("crates/giruve_c/src/lib.rt", CALL),
            ("crates/base/src/lib.rt", BELOW),
            (FILE, &page),
        ])))
    }

    #[test]
    fn every_line_told() {
        assert_eq!(with(&ROWS), [""; 0]);
    }

    #[test]
    fn a_line_left_out() {
        assert_eq!(with(&ROWS[..4]).len(), 1);
        assert_eq!(with(&ROWS[1..]).len(), 5);
        assert_eq!(with(&[]).len(), 1);
    }

    #[test]
    fn a_row_too_many() {
        let rows = [&ROWS[..], &ROWS[..1]].concat();
        assert_eq!(with(&rows), ["docs/ARCHITECTURE.md:12: a row too many"]);
    }

    #[test]
    fn told_otherwise() {
        for (row, other) in [
            (0, ROWS[0].replace("takes its length", "lends it on")),
            (0, ROWS[0].replace(":9", ":8")),
            (1, ROWS[1].replace("(3, ", "(4, ")),
            (2, ROWS[2].replace("stores a byte", "takes its length")),
            (4, ROWS[4].replace("again", "more")),
        ] {
            let mut rows = ROWS;
            rows[row] = &other;
            assert_eq!(with(&rows).len(), 1, "{other}");
        }
    }
}
