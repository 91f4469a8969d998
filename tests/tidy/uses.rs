//! The `use` lines of a file.

use crate::files::File;
use crate::tokens::{antt_code, blank, rt_code, words, Dot};
use std::ops::Range;

/// A name that a `use` line brings in.
pub struct Item {
    /// Its path below that of the line.
    pub path: String,
    /// What the file calls it.
    pub name: String,
    pub at: usize,
}

pub struct Use {
    pub range: Range<usize>,
    /// With dots, or with `::` in Rust code.
    pub path: String,
    pub items: Vec<Item>,
    /// What the file calls the module itself, where the line brings in a module.
    pub alias: Option<String>,
    /// Whether others may import the names from here.
    pub public: bool,
    /// Whether it is of Rust code, not of antt.
    pub code: bool,
}

impl Use {
    /// Whether it begins with a module's name that another `use` line gives.
    pub fn goes_through(&self, alias: &str) -> bool {
        let first = self.path.split('.').next();
        !self.code && first == Some(alias) && self.alias.as_deref() != Some(alias)
    }
}

/// The `use` lines of a file, its code without them, and what attributes of it name of specs/ and
/// proofs/, with dots.
pub struct Parts {
    pub uses: Vec<Use>,
    pub body: String,
    pub cited: Vec<String>,
}

impl Parts {
    pub fn of(file: &File) -> Parts {
        let code = if file.is_rt() {
            rt_code(&file.text)
        } else {
            antt_code(&file.text)
        };
        let uses = if file.is_rt() {
            rt_uses(&code)
        } else {
            antt_uses(&code)
        };
        let ranges: Vec<Range<usize>> = uses.iter().map(|one| one.range.clone()).collect();
        let body = blank(&code, &ranges);
        let cited = match file.owner() {
            Some(owner) if file.is_rt() => cited(&body, owner),
            _ => Vec::new(),
        };
        Parts { uses, body, cited }
    }
}

/// For each line that is a `use` line: where it begins, the marks in front, and where `use` ends.
fn beginnings<'a>(code: &'a str, marks: &[&str]) -> Vec<(usize, Vec<&'a str>, usize)> {
    let mut found = Vec::new();
    let mut at = 0;
    for line in code.split_inclusive('\n') {
        let mut before = Vec::new();
        for word in line.split_whitespace() {
            if word == "use" {
                let behind = line.find("use").map_or(0, |place| place + "use".len());
                found.push((at, before, at + behind));
                break;
            }
            if !marks.contains(&word) {
                break;
            }
            before.push(word);
        }
        at += line.len();
    }
    found
}

fn antt_uses(code: &str) -> Vec<Use> {
    let mut found = Vec::new();
    for (start, marks, behind) in beginnings(code, &["pub", "unfoldable"]) {
        let line_end = code[behind..]
            .find('\n')
            .map_or(code.len(), |end| behind + end);
        let first = &code[behind..line_end];
        let end = match (first.find('{'), first.find('}')) {
            (Some(_), None) => code[behind..]
                .find('}')
                .map_or(code.len(), |end| behind + end + 1),
            _ => line_end,
        };
        found.push(antt_use(code, start..end, behind, marks.contains(&"pub")));
    }
    found
}

/// `PATH.{a, b as c}`, `PATH as X` or `PATH`, from a place on.
fn antt_use(code: &str, range: Range<usize>, behind: usize, public: bool) -> Use {
    let text = &code[behind..range.end];
    let mut items = Vec::new();
    let mut alias = None;
    let path;
    if let Some(open) = text.find('{') {
        path = text[..open].trim().trim_end_matches('.').to_string();
        let inside = text[open + 1..].trim_end().trim_end_matches('}');
        items = listed(inside, behind + open + 1, '.');
    } else {
        let (module, name) = renamed(text, '.');
        path = module.to_string();
        alias = Some(name.to_string());
    }
    Use {
        range,
        path,
        items,
        alias,
        public,
        code: false,
    }
}

/// The items of a list, which begins at a place.
fn listed(inside: &str, start: usize, separator: char) -> Vec<Item> {
    let mut items = Vec::new();
    let mut at = start;
    for item in inside.split(',') {
        let trimmed = item.trim();
        if !trimmed.is_empty() {
            let (path, name) = renamed(trimmed, separator);
            items.push(Item {
                path: path.to_string(),
                name: name.to_string(),
                at: at + item.len() - item.trim_start().len(),
            });
        }
        at += item.len() + 1;
    }
    items
}

/// A path, and the name that it is given: the one behind `as`, or its own last.
fn renamed(text: &str, separator: char) -> (&str, &str) {
    let text = text.trim();
    match text.split_once(" as ") {
        Some((path, name)) => (path.trim(), name.trim()),
        None => (text, text.rsplit(separator).next().unwrap_or(text)),
    }
}

fn rt_uses(code: &str) -> Vec<Use> {
    let mut found = Vec::new();
    for (start, marks, behind) in beginnings(code, &["pub", "ghost"]) {
        let end = code[behind..]
            .find(';')
            .map_or(code.len(), |end| behind + end);
        let public = marks.contains(&"pub");
        if marks.contains(&"ghost") {
            let mut one = antt_use(code, start..end, behind, public);
            one.range.end = (end + 1).min(code.len());
            found.push(one);
            continue;
        }
        let text = &code[behind..end];
        let mut items = Vec::new();
        let mut path = String::new();
        if let Some(open) = text.find('{') {
            path = text[..open].trim().trim_end_matches(':').to_string();
            let inside = text[open + 1..].trim_end().trim_end_matches('}');
            items = listed(inside, behind + open + 1, ':');
        } else {
            let (whole, name) = renamed(text, ':');
            items.push(Item {
                path: whole.to_string(),
                name: name.to_string(),
                at: behind + text.len() - text.trim_start().len(),
            });
        }
        items.retain(|item| item.name != "*");
        found.push(Use {
            range: start..(end + 1).min(code.len()),
            path,
            items,
            alias: None,
            public,
            code: true,
        });
    }
    found
}

/// A name of another file of the repository: that file's path, and the name.
pub type Reached = (String, String);

/// The paths of Rust code through a crate's `specs` or `proofs`, as `crate::proofs::A::x` in an attribute.
fn cited(code: &str, owner: &str) -> Vec<String> {
    let is_path = |c: char| c.is_alphanumeric() || "_-':".contains(c);
    let paths = code.split(|c| !is_path(c)).filter(|path| path.contains("::"));
    let mut found = Vec::new();
    for path in paths {
        let segments: Vec<&str> = path.split("::").collect();
        if let ["specs" | "proofs", ..] = segments[1..] {
            let library = if segments[0] == "crate" { owner } else { segments[0] };
            found.push(format!("Rattle.{library}.{}", segments[1..].join(".")));
        }
    }
    found
}

/// What a file names of other files: in its `use` lines, by paths, and in attributes.
pub fn reached(parts: &Parts) -> Vec<Reached> {
    let mut paths = dotted(&parts.body);
    paths.extend(parts.cited.iter().cloned());
    for one in parts.uses.iter().filter(|one| !one.code) {
        let items = one.items.iter();
        paths.extend(items.map(|item| format!("{}.{}", one.path, item.path)));
    }
    let mut found = Vec::new();
    for path in &paths {
        found.extend(names_of(path));
        for one in &parts.uses {
            let alias = one.alias.as_deref().unwrap_or("");
            let below = path.strip_prefix(alias).filter(|_| !alias.is_empty());
            if let Some(below) = below.filter(|below| below.starts_with('.')) {
                found.extend(names_of(&format!("{}{below}", one.path)));
            }
        }
    }
    found
}

/// The words that dots join, each run as one path.
fn dotted(body: &str) -> Vec<String> {
    let mut found: Vec<String> = Vec::new();
    for word in words(body) {
        match found.last_mut() {
            Some(path) if word.dot == Dot::Joined => {
                path.push('.');
                path.push_str(word.text);
            }
            _ => found.push(word.text.to_string()),
        }
    }
    found.retain(|path| path.contains('.'));
    found
}

/// What `Rattle.crate.specs.A.B.x` may name: `B` or `x` of A.antt, and `x` of A/B.antt.
fn names_of(path: &str) -> Vec<Reached> {
    let mut segments = path.split('.');
    if segments.next() != Some("Rattle") {
        return Vec::new();
    }
    let (Some(owner), Some(part)) = (segments.next(), segments.next()) else {
        return Vec::new();
    };
    let below: Vec<&str> = segments.collect();
    let mut found = Vec::new();
    for end in 1..below.len() {
        let file = format!("crates/{owner}/{part}/{}.antt", below[..end].join("/"));
        for name in &below[end..] {
            found.push((file.clone(), name.to_string()));
        }
    }
    found
}

#[cfg(test)]
mod tests {
    use super::*;

    fn parts(path: &str, text: &str) -> Parts {
        Parts::of(&File {
            path: path.to_string(),
            text: text.to_string(),
        })
    }

    fn names(parts: &Parts) -> Vec<&str> {
        let items = parts.uses.iter().flat_map(|one| &one.items);
        items.map(|item| item.name.as_str()).collect()
    }

    #[test]
    fn lists_over_several_lines() {
        let parts = parts(
            "a.antt",
            "use A.B.{x, y as z,\n    N.w, []}\nuse A.C as D\nuse A.E\nf : x\n",
        );
        assert_eq!(names(&parts), ["x", "z", "w", "[]"]);
        let aliases: Vec<_> = parts
            .uses
            .iter()
            .filter_map(|one| one.alias.as_deref())
            .collect();
        assert_eq!(aliases, ["D", "E"]);
        assert_eq!(parts.body.trim(), "f : x");
    }

    #[test]
    fn use_lines_of_rt() {
        let parts = parts(
            "a.rt",
            "\
use a::b::C;
use d::{E, f as g};
ghost use H.I.{j,
    k};
ghost use L.M as N;
fn o() {}
",
        );
        assert_eq!(names(&parts), ["C", "E", "g", "j", "k"]);
        assert_eq!(parts.body.trim(), "fn o() {}");
    }

    #[test]
    fn other_files_are_reached() {
        let parts = parts(
            "a.antt",
            "\
use Rattle.a.specs.A.{x}
use Rattle.b.proofs.B as C
use C.F.{v}
f = C.y Rattle.d.specs.D.E.z s.w
",
        );
        let found: Vec<String> = reached(&parts)
            .into_iter()
            .map(|(file, name)| format!("{file} {name}"))
            .collect();
        assert_eq!(
            found,
            [
                "crates/b/proofs/B.antt y",
                "crates/d/specs/D.antt E",
                "crates/d/specs/D.antt z",
                "crates/d/specs/D/E.antt z",
                "crates/a/specs/A.antt x",
                "crates/b/proofs/B.antt F",
                "crates/b/proofs/B.antt v",
                "crates/b/proofs/B/F.antt v",
            ]
        );
    }
}
