//! Each path that a page or a comment names is there: a path of a folder of `FOLDERS`, and the name of
//! a page. In a path `*`, `..` and `…` stand for any letters, `{a,b}` for each of these, and the words
//! of `PLACEHOLDERS` for a name.

use crate::files::{File, Place, Repository, NOTES};

const FOLDERS: [&str; 8] = [
    "crates/",
    "docs/",
    "tests/",
    "samples/",
    "include/",
    "examples/",
    "bench/",
    ".ci/",
];
const PLACEHOLDERS: [&str; 6] = ["NAME", "CRATE", "FUNCTION", "FILE", "NN", "LABEL"];

pub fn check(repository: &Repository) -> Vec<Place> {
    let mut places = Vec::new();
    let files = repository.files.iter();
    for file in files.filter(|file| !file.path.starts_with(NOTES)) {
        for (line, text) in (1..).zip(file.text.lines()) {
            for path in paths(told(file, text)) {
                if !stands(repository, path) {
                    places.push(file.place(line, format!("there is no {path}")));
                }
            }
        }
    }
    places
}

/// The part of a line that is no code.
fn told<'a>(file: &File, line: &'a str) -> &'a str {
    let sign = match file.path.rsplit('.').next() {
        Some("md" | "h" | "c") => return line,
        Some("rs" | "rt") => "//",
        Some("antt") => "--",
        _ => "#",
    };
    line.find(sign).map_or("", |at| &line[at..])
}

/// The paths in a text, without the stop at a sentence's end.
fn paths(text: &str) -> Vec<&str> {
    let mut found = Vec::new();
    let mut rest = text;
    while let Some(start) = rest.find(is_part) {
        let mut braces = 0;
        let end = rest[start..].find(|letter: char| {
            braces += i32::from(letter == '{') - i32::from(letter == '}');
            !is_part(letter) && !(letter == ',' && braces > 0)
        });
        let end = end.map_or(rest.len(), |end| start + end);
        let path = &rest[start..end];
        let path = match path.strip_suffix('.') {
            Some(shorter) if !shorter.ends_with('.') => shorter,
            _ => path,
        };
        // What is made up of variables is no path, and what `rt` makes of a crate is not there before.
        let variable = rest[..start].ends_with('$') || rest[end..].starts_with(['$', '<', '(']);
        let built = path.starts_with("crates/") && path.split('/').nth(2) == Some("out");
        let named = FOLDERS.iter().any(|folder| path.starts_with(folder)) || is_page_name(path);
        if named && !variable && !built {
            found.push(path.strip_suffix('/').unwrap_or(path));
        }
        rest = &rest[end..];
    }
    found
}

fn is_part(letter: char) -> bool {
    letter.is_alphanumeric() || "_-./*{}…".contains(letter)
}

/// A page's name without a folder; those of this repository are in capitals.
fn is_page_name(path: &str) -> bool {
    let name = path.strip_suffix(".md").unwrap_or("");
    !name.is_empty()
        && name
            .bytes()
            .all(|byte| byte.is_ascii_uppercase() || byte == b'_')
}

fn stands(repository: &Repository, path: &str) -> bool {
    if is_page_name(path) {
        let names = repository.paths.iter().map(|one| one.rsplit('/').next());
        return names.flatten().any(|name| name == path);
    }
    let matches = |path: &str| repository.paths.iter().any(|one| alike(one, path));
    let each = alternatives(path);
    each.iter()
        .all(|path| repository.paths.contains(path) || matches(&pattern(path)))
}

/// A path with each of the words between its braces.
fn alternatives(path: &str) -> Vec<String> {
    let parts = path.split_once('{').and_then(|(front, rest)| {
        let (words, behind) = rest.split_once('}')?;
        Some((front, words, behind))
    });
    let Some((front, words, behind)) = parts else {
        return vec![path.to_string()];
    };
    let each = words
        .split(',')
        .map(|word| format!("{front}{word}{behind}"));
    each.flat_map(|path| alternatives(&path)).collect()
}

/// A path with `*` wherever it stands for anything.
fn pattern(path: &str) -> String {
    let path = path.replace("..", "*").replace('…', "*");
    let mut pattern = String::new();
    let mut rest = path.as_str();
    while !rest.is_empty() {
        let capital = rest.starts_with(|letter: char| letter.is_ascii_uppercase());
        let end = rest.find(|letter: char| letter.is_ascii_uppercase() != capital);
        let (word, behind) = rest.split_at(end.unwrap_or(rest.len()));
        pattern += if PLACEHOLDERS.contains(&word) {
            "*"
        } else {
            word
        };
        rest = behind;
    }
    pattern
}

/// Whether a path is of a pattern, in which `*` stands for any letters but `/`.
fn alike(path: &str, pattern: &str) -> bool {
    let Some((front, behind)) = pattern.split_once('*') else {
        return path == pattern;
    };
    let Some(rest) = path.strip_prefix(front) else {
        return false;
    };
    let end = rest.find('/').unwrap_or(rest.len());
    let places = rest.char_indices().map(|(at, _)| at).chain([rest.len()]);
    places
        .filter(|at| *at <= end)
        .any(|at| alike(&rest[at..], behind))
}

#[cfg(test)]
mod tests {
    use super::*;
    use crate::files::said;

    fn of(path: &str, text: &str) -> Vec<String> {
        let files = [
            ("crates/a/specs/One.antt", ""),
            ("crates/a/specs/Two.antt", ""),
            ("tests/all.sh", ""),
            ("docs/PAGE.md", ""),
            (path, text),
        ];
        said(&check(&Repository::of(&files)))
    }

    #[test]
    fn paths_that_are_there() {
        let page = "\
`crates/a/specs/One.antt`, crates/a/specs, `tests/`, (docs/PAGE.md). See PAGE.md: `crates/*/specs/{One,Two}.antt`,
`crates/CRATE/specs`, `crates/NAME/specs/T...antt`, `crates/…/specs`, `tests/*.sh`, tests/all.sh:3, /usr/tests/none,
target/tests/none, x/docs/NONE.md, `tests/$name`, crates/<name>/x, `crates/a/specs/..`, crates/b/out/b
";
        assert_eq!(of("README.md", page), [""; 0]);
    }

    #[test]
    fn paths_that_are_not() {
        for path in [
            "crates/b",
            "crates/a/specs/{One,Three}.antt",
            "crates/*/proofs",
            "crates/*.antt",
            "docs/NONE.md",
            "NONE.md",
            "tests/al.sh",
            "tests/all.shx",
            "crates/CRATE/proofs",
            "docs/PANNE.md",
            ".ci/run",
        ] {
            let page = format!("a\n`{path}`.\n");
            assert_eq!(
                of("README.md", &page),
                [format!("README.md:2: there is no {path}")]
            );
        }
    }

    #[test]
    fn in_comments_and_not_in_code() {
        for (path, sign) in [
            ("crates/a/src/lib.rt", "//"),
            ("crates/a/proofs/A.antt", "--"),
            ("tests/x.rs", "///"),
            ("tests/x.sh", "#"),
            ("include/x.h", " *"),
        ] {
            let text = format!("x\ny {sign} docs/NONE.md\n");
            assert_eq!(
                of(path, &text),
                [format!("{path}:2: there is no docs/NONE.md")]
            );
            if path != "include/x.h" {
                assert_eq!(of(path, "cp docs/NONE.md x\n"), [""; 0]);
            }
        }
    }
}
