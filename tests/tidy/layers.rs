//! `crates.txt`: a heading above each group of crates, and for each crate exactly the crates that
//! its sources name, all of them above it.

use crate::files::{File, Place, Repository};
use crate::tokens::{antt_code, line_at, rt_code, rust_names};
use crate::uses::Parts;
use std::collections::{BTreeMap, HashSet};

pub const FILE: &str = "crates.txt";

/// The libraries of the kit that a crate lists if it names them.
const KIT: [&str; 5] = ["io", "libc", "os", "bytes", "check"];

/// What a crate lists besides: a value in its code holds a type of that library, which no source of the
/// crate names, and the checker asks for it.
const REACHED: [(&str, &str); 1] = [("explain_answer", "questions")];

pub struct Layer {
    pub name: String,
    pub crates: Vec<Entry>,
}

pub struct Entry {
    pub name: String,
    pub line: usize,
    pub needs: Vec<String>,
}

/// The layers, lowest first, and the lines that are none of a heading, a crate or a blank.
pub fn read(file: &File) -> (Vec<Layer>, Vec<Place>) {
    let mut layers: Vec<Layer> = Vec::new();
    let mut places = Vec::new();
    let mut headed = false;
    for (index, line) in file.text.lines().enumerate() {
        let mut wrong = |what: String| places.push(file.place(index + 1, what));
        if let Some(heading) = line.strip_prefix('#') {
            let name = heading.trim().to_string();
            if headed {
                wrong("a heading in the middle of a group".to_string());
            }
            if layers.iter().any(|layer| layer.name == name) {
                wrong(format!("a second layer `{name}`"));
            }
            layers.push(Layer {
                name,
                crates: Vec::new(),
            });
            headed = true;
            continue;
        }
        let said = line.split('#').next().unwrap_or("").trim();
        if said.is_empty() {
            headed = false;
            continue;
        }
        let Some((name, needs)) = said.split_once(':') else {
            wrong("neither a heading nor a crate".to_string());
            continue;
        };
        if !headed {
            wrong(format!("no heading above the group of `{name}`"));
            headed = true;
        }
        if layers.is_empty() {
            layers.push(Layer {
                name: String::new(),
                crates: Vec::new(),
            });
        }
        let layer = layers.last_mut().expect("there is a layer");
        // Behind the name may stand what is made of the crate: `giruve_c staticlib`.
        let name = name.split_whitespace().next().unwrap_or("");
        layer.crates.push(Entry {
            name: name.to_string(),
            line: index + 1,
            needs: needs.split_whitespace().map(str::to_string).collect(),
        });
    }
    (layers, places)
}

pub fn check(repository: &Repository) -> Vec<Place> {
    let Some(file) = repository.file(FILE) else {
        return vec![Place {
            file: FILE.to_string(),
            line: 1,
            what: "there is no such file".to_string(),
        }];
    };
    let (layers, mut places) = read(file);
    let entries: Vec<&Entry> = layers.iter().flat_map(|layer| &layer.crates).collect();
    for (index, entry) in entries.iter().enumerate() {
        let mut wrong = |what: String| places.push(file.place(entry.line, what));
        let name = &entry.name;
        if entries[..index].iter().any(|other| other.name == *name) {
            wrong(format!("`{name}` is listed a second time"));
        }
        if !repository.crates.contains(name) {
            wrong(format!("there is no crates/{name}"));
        }
        let named = named(repository, entry, &entries);
        let mut seen = HashSet::new();
        for need in &entry.needs {
            if !seen.insert(need) {
                wrong(format!("`{name}` lists `{need}` twice"));
            }
            let reached = REACHED.contains(&(name.as_str(), need.as_str()));
            if named.contains_key(need.as_str()) == reached {
                wrong(format!(
                    "`{name}` lists `{need}`, which its sources do not name"
                ));
            }
            if let Some(below) = entries[index..].iter().find(|other| other.name == *need) {
                let line = below.line;
                wrong(format!(
                    "`{name}` needs `{need}`, which stands below it in line {line}"
                ));
            }
        }
        for (need, place) in named {
            if !entry.needs.iter().any(|listed| listed == need) {
                wrong(format!(
                    "`{name}` does not list `{need}`, which {place} names"
                ));
            }
        }
    }
    for folder in &repository.crates {
        if !entries.iter().any(|entry| entry.name == *folder) {
            places.push(file.place(1, format!("crates/{folder} is not listed")));
        }
    }
    places
}

/// The other crates and libraries that a crate's sources name, each with the first place.
fn named<'a>(
    repository: &'a Repository,
    entry: &Entry,
    entries: &[&'a Entry],
) -> BTreeMap<&'a str, String> {
    let mut found = BTreeMap::new();
    for file in &repository.files {
        if file.owner() != Some(&entry.name) {
            continue;
        }
        let code = match (file.is_rt(), file.is_antt()) {
            (true, _) => rt_code(&file.text),
            (_, true) => antt_code(&file.text),
            _ => continue,
        };
        let mut at_places = in_modules(&file.text, &code);
        if file.is_rt() {
            let known =
                |name: &str| entries.iter().any(|entry| entry.name == name) || KIT.contains(&name);
            let brought = brought(file);
            let other = |name: &str| known(name) && !brought.iter().any(|one| one == name);
            let paths = in_paths(&file.text, &code);
            at_places.extend(paths.into_iter().filter(|(name, _)| other(name)));
        }
        for (name, at) in at_places {
            if name != entry.name && name != "std" {
                let line = line_at(&file.text, at);
                found
                    .entry(name)
                    .or_insert_with(|| format!("{}:{line}", file.path));
            }
        }
    }
    found
}

/// The crates of `Rattle.NAME.`. The code says where, the text what.
fn in_modules<'a>(text: &'a str, code: &str) -> Vec<(&'a str, usize)> {
    let mut found = Vec::new();
    for (at, prefix) in code.match_indices("Rattle.") {
        let rest = &text[at + prefix.len()..];
        let end = rest.find(|c: char| !c.is_ascii_alphanumeric() && c != '_');
        let end = end.unwrap_or(rest.len());
        if rest[end..].starts_with('.') {
            found.push((&rest[..end], at));
        }
    }
    found
}

/// The names that `use` lines bring in from elsewhere: `io` of `use std::io;` and `use std::io::{self}`.
fn brought(file: &File) -> Vec<String> {
    let mut names = Vec::new();
    for one in Parts::of(file).uses.iter().filter(|one| one.code) {
        for item in &one.items {
            let path = match (one.path.as_str(), item.name.as_str()) {
                (path, "self") => path.to_string(),
                ("", _) => item.path.clone(),
                (path, _) => format!("{path}::{}", item.path),
            };
            if path.contains("::") {
                let own = path.rsplit("::").next().unwrap_or("");
                names.push(if item.name == "self" { own } else { &item.name }.to_string());
            }
        }
    }
    names
}

/// The first names of Rust paths.
fn in_paths<'a>(text: &'a str, code: &str) -> Vec<(&'a str, usize)> {
    let mut found = Vec::new();
    for (at, name) in rust_names(code) {
        let end = at + name.len();
        if code[end..].starts_with("::") && !code[..at].ends_with("::") {
            found.push((&text[at..end], at));
        }
    }
    found
}

#[cfg(test)]
mod tests {
    use super::*;
    use crate::files::said;

    const GOOD: &str = "# ground\nbase:    # numbers\n\n# top\ntext: base io\n";

    fn with(list: &str, code: &str) -> Vec<String> {
        said(&check(&Repository::of(&[
            (FILE, list),
            ("crates/base/specs/A.antt", "x : ℕ\n"),
            ("crates/text/specs/B.antt", "use Rattle.base.specs.A.{x}\n"),
            ("crates/text/src/lib.rt", code),
        ])))
    }

    const CODE: &str = "// copy::put\nuse io::Write;\nfn f() { std::g(); u8::MAX; text::h(); }\n";

    #[test]
    fn what_is_named_is_listed() {
        assert_eq!(with(GOOD, CODE), [""; 0]);
    }

    #[test]
    fn a_need_too_many_and_one_too_few() {
        assert_eq!(
            with("# ground\nbase:\n# top\ntext: libc base\n", CODE),
            [
                "crates.txt:3: a heading in the middle of a group",
                "crates.txt:4: `text` lists `libc`, which its sources do not name",
                "crates.txt:4: `text` does not list `io`, which crates/text/src/lib.rt:2 names",
            ]
        );
    }

    #[test]
    fn own_modules_and_those_of_others() {
        let code = "\
ghost use Rattle.text.specs.B.{y};
fn f()
    ensures { Rattle.other.specs.C.z }
{ io::w() }
";
        assert_eq!(
            with(GOOD, code),
            ["crates.txt:5: `text` does not list `other`, which crates/text/src/lib.rt:3 names"]
        );
    }

    #[test]
    fn a_module_of_std_is_no_library() {
        for line in ["use std::io;", "use std::io::{self, Read};", "use std::fmt::{self as io};"] {
            let code = format!("{line}\nfn f() {{ io::w() }}\n");
            assert_eq!(
                with("# ground\nbase:\n\n# top\ntext: base\n", &code),
                [""; 0],
                "{line}"
            );
        }
    }

    #[test]
    fn what_is_made_of_a_crate() {
        assert_eq!(with(&GOOD.replace("text:", "text staticlib:"), CODE), [""; 0]);
    }

    #[test]
    fn what_is_needed_stands_above() {
        assert_eq!(
            with("# top\ntext: base io\n\n# ground\nbase:\n", CODE),
            ["crates.txt:2: `text` needs `base`, which stands below it in line 5"]
        );
    }

    #[test]
    fn groups_have_headings() {
        assert_eq!(
            with("# ground\nbase:\n\ntext: base io\n", CODE),
            ["crates.txt:4: no heading above the group of `text`"]
        );
    }

    #[test]
    fn folders_and_lines_agree() {
        assert_eq!(
            with("# ground\nbase:\nmore:\n", CODE),
            [
                "crates.txt:3: there is no crates/more",
                "crates.txt:1: crates/text is not listed"
            ]
        );
    }
}
