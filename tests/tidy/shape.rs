//! In the crates of the layer `LAYER`, and in `CRATE`, no function has more than 7 parameters and none
//! takes more than 40 lines, from its `fn` to its closing brace; its contract counts.

use crate::files::{Place, Repository};
use crate::layers::{self, Layer};
use crate::rt::functions;
use crate::tokens::{line_at, rt_code};

const LAYER: &str = "recovery, built";
const CRATE: &str = "reading_cut";
const PARAMETERS: usize = 7;
const LINES: usize = 40;

pub fn check(repository: &Repository) -> Vec<Place> {
    let list = repository.file(layers::FILE);
    let layers = list.map_or(Vec::new(), |file| layers::read(file).0);
    let asked = match asked(&layers) {
        Ok(asked) => asked,
        Err(what) => {
            return vec![Place {
                file: layers::FILE.to_string(),
                line: 1,
                what,
            }]
        }
    };
    let mut places = Vec::new();
    for file in &repository.files {
        let of_asked = file.owner().is_some_and(|owner| asked.contains(&owner));
        if !of_asked || !file.is_rt() || !file.in_part("src") {
            continue;
        }
        for one in functions(&rt_code(&file.text)) {
            let first = line_at(&file.text, one.range.start);
            let lines = line_at(&file.text, one.range.end - 1) - first + 1;
            let (name, parameters) = (one.name, one.parameters);
            if parameters > PARAMETERS {
                let what = format!("`{name}` has {parameters} parameters, {PARAMETERS} at most");
                places.push(file.place(first, what));
            }
            if lines > LINES {
                let what = format!("`{name}` takes {lines} lines, {LINES} at most");
                places.push(file.place(first, what));
            }
        }
    }
    places
}

/// The crates that are asked, or what crates.txt does not have.
fn asked(layers: &[Layer]) -> Result<Vec<&str>, String> {
    let Some(layer) = layers.iter().find(|layer| layer.name == LAYER) else {
        return Err(format!("no layer `{LAYER}`"));
    };
    let mut listed = layers.iter().flat_map(|layer| &layer.crates);
    if !listed.any(|entry| entry.name == CRATE) {
        return Err(format!("no crate `{CRATE}`"));
    }
    let built = layer.crates.iter().map(|entry| entry.name.as_str());
    Ok(built.chain([CRATE]).collect())
}

#[cfg(test)]
mod tests {
    use super::*;
    use crate::files::said;

    const LIST: &str = "\
# ground
base:

# recovery, built
report: base

# whole reading
reading_cut: report
reading_runs: reading_cut
";

    fn with(list: &str, path: &str, text: &str) -> Vec<String> {
        said(&check(&Repository::of(&[
            (layers::FILE, list),
            (path, text),
        ])))
    }

    /// A function of so many parameters and so many lines, below two lines of comment.
    fn function(parameters: usize, lines: usize) -> String {
        let list: Vec<String> = (0..parameters).map(|n| format!("a{n}: &[u8; 2]")).collect();
        let body = "    // }\n".repeat(lines - 4);
        format!(
            "// Of f:\n// all.\npub fn f({})\n    ensures {{ b }}\n{{\n{body}}}\n",
            list.join(", ")
        )
    }

    #[test]
    fn inside_both_bounds() {
        for path in ["crates/report/src/lib.rt", "crates/reading_cut/src/lib.rt"] {
            assert_eq!(with(LIST, path, &function(7, 40)), [""; 0]);
        }
    }

    #[test]
    fn a_parameter_too_many() {
        let path = "crates/report/src/lib.rt";
        assert_eq!(
            with(LIST, path, &function(8, 40)),
            [format!("{path}:3: `f` has 8 parameters, 7 at most")]
        );
    }

    #[test]
    fn a_line_too_many() {
        let path = "crates/reading_cut/src/lib.rt";
        assert_eq!(
            with(LIST, path, &function(7, 41)),
            [format!("{path}:3: `f` takes 41 lines, 40 at most")]
        );
    }

    #[test]
    fn methods_too() {
        let method =
            "impl A {\n    fn g(self, a: u8, b: u8, c: u8, d: u8, e: u8, f: u8, g: u8) {}\n}\n";
        let path = "crates/report/src/lib.rt";
        assert_eq!(
            with(LIST, path, &format!("{}{method}", function(8, 41))),
            [
                format!("{path}:3: `f` has 8 parameters, 7 at most"),
                format!("{path}:3: `f` takes 41 lines, 40 at most"),
                format!("{path}:45: `g` has 8 parameters, 7 at most"),
            ]
        );
    }

    #[test]
    fn other_crates_are_not_asked() {
        for path in ["crates/base/src/lib.rt", "crates/reading_runs/src/lib.rt"] {
            assert_eq!(with(LIST, path, &function(8, 41)), [""; 0]);
        }
    }

    #[test]
    fn who_is_asked_is_listed() {
        let path = "crates/report/src/lib.rt";
        assert_eq!(
            with("# ground\nreport:\nreading_cut:\n", path, ""),
            ["crates.txt:1: no layer `recovery, built`"]
        );
        assert_eq!(
            with("# recovery, built\nreport:\n", path, ""),
            ["crates.txt:1: no crate `reading_cut`"]
        );
    }
}
