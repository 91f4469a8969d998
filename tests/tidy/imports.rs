//! Each name that a file imports, it uses.

use crate::files::{Place, Repository};
use crate::rt::ghost;
use crate::tokens::{blank, line_at, rust_words, Names};
use crate::uses::Parts;

pub fn check(repository: &Repository) -> Vec<Place> {
    let mut places = Vec::new();
    for file in &repository.files {
        if !file.is_antt() && !file.is_rt() {
            continue;
        }
        let parts = Parts::of(file);
        let ranges = ghost(&parts.body);
        let code = blank(&parts.body, &ranges);
        let in_code = rust_words(&code);
        let mut in_antt = Names::default();
        if file.is_rt() {
            for range in ranges {
                in_antt.add(&parts.body[range]);
            }
        } else {
            in_antt.add(&parts.body);
        }
        for one in parts.uses.iter().filter(|one| !one.public) {
            let mut unused = |name: &str, at: usize| {
                if !in_antt.has(name) && !(one.code && in_code.contains(name)) {
                    let line = line_at(&file.text, at);
                    places.push(file.place(line, format!("imports `{name}` and does not use it")));
                }
            };
            if let Some(alias) = &one.alias {
                if !parts.uses.iter().any(|other| other.goes_through(alias)) {
                    unused(alias, one.range.start);
                }
            }
            for item in &one.items {
                // `use std::io::{self}` brings in `io`.
                let name = match item.name.as_str() {
                    "self" => one.path.rsplit("::").next().unwrap_or_default(),
                    other => other,
                };
                unused(name, item.at);
            }
        }
    }
    places
}

#[cfg(test)]
mod tests {
    use super::*;
    use crate::files::said;

    fn of(path: &str, text: &str) -> Vec<String> {
        said(&check(&Repository::of(&[(path, text)])))
    }

    #[test]
    fn used_in_antt() {
        let text = "\
use A.{x, y as z, ◌≤◌, []}
use B as C
use D.E
use F as G
use G.{h}
f = x (C.g z) E.i h 0 ≤ []
";
        assert_eq!(of("crates/a/specs/A.antt", text), [""; 0]);
    }

    #[test]
    fn unused_in_antt() {
        let text = "\
use A.{walk,
    y as z, ◌≤◌}
use B as C
use D.E
-- walk z C E ≤
f = walk_skip s.walk y <≤> \"z\"
";
        let path = "crates/a/specs/A.antt";
        assert_eq!(
            of(path, text),
            [
                format!("{path}:1: imports `walk` and does not use it"),
                format!("{path}:2: imports `z` and does not use it"),
                format!("{path}:2: imports `◌≤◌` and does not use it"),
                format!("{path}:3: imports `C` and does not use it"),
                format!("{path}:4: imports `E` and does not use it"),
            ]
        );
    }

    #[test]
    fn used_in_rt() {
        let text = "\
use a::Type;
use a::Told;
use b::LIMIT;
use std::io::{self, Read};
ghost use C.{p, ◌≤◌};
ghost use D as E;
fn f<R: Read>(x: Type) -> io::Result<()>
    requires { p x.y ≤ E.z Told }
{ 0..LIMIT }
";
        assert_eq!(of("crates/a/src/lib.rt", text), [""; 0]);
    }

    #[test]
    fn unused_in_rt() {
        let text = "\
use a::Type;
use b::LIMIT;
ghost use C.{p, ◌*◌};
ghost use D as E;
// Type LIMIT
fn f(x: Other::Type)
    requires { p' x.p }
{ p * E }
";
        let path = "crates/a/src/lib.rt";
        assert_eq!(
            of(path, text),
            [
                format!("{path}:1: imports `Type` and does not use it"),
                format!("{path}:2: imports `LIMIT` and does not use it"),
                format!("{path}:3: imports `p` and does not use it"),
                format!("{path}:3: imports `◌*◌` and does not use it"),
                format!("{path}:4: imports `E` and does not use it"),
            ]
        );
    }
}
