//! The last cylinders of the two models stand once each in the definitions and once each in the
//! code; no other place of the crates says one of them, or the cylinder behind it, as a number.

use crate::files::{File, Place, Repository};
use crate::tokens::{antt_code, line_at, rt_code};

/// Of model 1 and of model 11.
const LAST: [usize; 2] = [410, 814];

/// Where they stand: definitions and code.
const HOMES: [&str; 2] = [
    "crates/address/specs/Model.antt",
    "crates/address/src/lib.rt",
];

pub fn check(repository: &Repository) -> Vec<Place> {
    let mut places = Vec::new();
    for home in HOMES {
        let said = repository.file(home).map_or(Vec::new(), numbers);
        for last in LAST {
            let times = said.iter().filter(|(number, _)| *number == last).count();
            if times != 1 {
                places.push(Place {
                    file: home.to_string(),
                    line: 1,
                    what: format!("{last} stands here {times} times, and not once"),
                });
            }
        }
    }
    for file in &repository.files {
        if file.owner().is_none() {
            continue;
        }
        let home = HOMES.contains(&file.path.as_str());
        for (number, at) in numbers(file) {
            let last = LAST.contains(&number);
            let behind = LAST.iter().any(|last| last + 1 == number);
            if behind || last && !home {
                let what = format!(
                    "{number}: the last cylinder stands in {}",
                    HOMES.join(" and ")
                );
                places.push(file.place(line_at(&file.text, at), what));
            }
        }
    }
    places
}

/// The numbers of a source, decimal and hexadecimal, with their places.
fn numbers(file: &File) -> Vec<(usize, usize)> {
    let code = match (file.is_antt(), file.is_rt()) {
        (true, _) => antt_code(&file.text),
        (_, true) => rt_code(&file.text),
        _ => return Vec::new(),
    };
    let part = |c: char| c.is_alphanumeric() || c == '_' || c == '-';
    let mut numbers = Vec::new();
    let mut at = 0;
    for word in code.split(|c| !part(c)) {
        if let Some(number) = number(word) {
            numbers.push((number, at));
        }
        at += word.len();
        at += code[at..].chars().next().map_or(0, char::len_utf8);
    }
    numbers
}

fn number(word: &str) -> Option<usize> {
    let (digits, base) = match word.strip_prefix("0x") {
        Some(digits) => (digits, 16),
        None => (word, 10),
    };
    // a number of Rust may have its type behind it
    let end = digits.find(['u', 'i']).unwrap_or(digits.len());
    usize::from_str_radix(&digits[..end].replace('_', ""), base).ok()
}

#[cfg(test)]
mod tests {
    use super::*;
    use crate::files::said;

    const SPECS: &str = "lastOf One = 410\nlastOf Eleven = 814\n";
    const SOURCE: &str = "One => 410,\nEleven => 814,\n";

    fn with(specs: &str, source: &str, other: (&str, &str)) -> Vec<String> {
        let files = [(HOMES[0], specs), (HOMES[1], source), other];
        said(&check(&Repository::of(&files)))
    }

    #[test]
    fn once_each_at_home() {
        let other = (
            "crates/a/proofs/A.antt",
            "-- cylinders 0 to 410\na410 = 4100\n",
        );
        assert_eq!(with(SPECS, SOURCE, other), [""; 0]);
    }

    #[test]
    fn missing_or_twice() {
        let other = ("crates/a/src/lib.rt", "");
        assert_eq!(
            with(
                "lastOf One = 411\nlastOf Eleven = 814\n",
                &SOURCE.repeat(2),
                other
            ),
            [
                "crates/address/specs/Model.antt:1: 410 stands here 0 times, and not once",
                "crates/address/src/lib.rt:1: 410 stands here 2 times, and not once",
                "crates/address/src/lib.rt:1: 814 stands here 2 times, and not once",
                "crates/address/specs/Model.antt:1: 411: the last cylinder stands in \
                 crates/address/specs/Model.antt and crates/address/src/lib.rt",
            ]
        );
    }

    #[test]
    fn elsewhere_in_either_base() {
        for number in [
            "410", "410usize", "0x19A", "411", "0x19b", "814", "0x32e", "815",
        ] {
            let text = format!("fn f() {{\n    g({number});\n}}\n");
            assert_eq!(
                with(SPECS, SOURCE, ("crates/a/src/lib.rt", &text)).len(),
                1,
                "{number}"
            );
        }
    }
}
