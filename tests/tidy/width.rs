//! No line of a contract is over 160 columns.

use crate::files::{Place, Repository};
use crate::rt::clauses;
use crate::tokens::{line_at, rt_code};

const COLUMNS: usize = 160;

pub fn check(repository: &Repository) -> Vec<Place> {
    let mut places = Vec::new();
    for file in repository.files.iter().filter(|file| file.is_rt()) {
        let lines: Vec<&str> = file.text.lines().collect();
        for clause in clauses(&rt_code(&file.text)) {
            let first = line_at(&file.text, clause.start);
            let last = line_at(&file.text, clause.end - 1);
            for number in first..=last {
                let columns = lines[number - 1].chars().count();
                if columns > COLUMNS {
                    places.push(file.place(number, format!("a contract in {columns} columns")));
                }
            }
        }
    }
    places
}

#[cfg(test)]
mod tests {
    use super::*;
    use crate::files::said;

    fn of(text: &str) -> Vec<String> {
        said(&check(&Repository::of(&[("crates/a/src/lib.rt", text)])))
    }

    #[test]
    fn characters_count_and_code_does_not() {
        let wide = "≤".repeat(144);
        let text = format!("fn f()\n    ensures {{ {wide} }}\n{{ // {wide}{wide}\n}}\n");
        assert_eq!(of(&text), [""; 0]);
    }

    #[test]
    fn each_line_of_a_clause() {
        let wide = "≤".repeat(157);
        let text = format!("fn f()\n    requires {{ a\n    {wide}\n    b {wide} }}\n{{}}\n");
        assert_eq!(
            of(&text),
            [
                "crates/a/src/lib.rt:3: a contract in 161 columns",
                "crates/a/src/lib.rt:4: a contract in 165 columns",
            ]
        );
    }
}
