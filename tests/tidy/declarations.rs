//! The declarations of an antt file: those of the file itself and of its modules, not those under
//! a definition's `where`.

use crate::tokens::{words, Dot, Word};
use std::ops::Range;

pub struct Declaration<'a> {
    pub name: &'a str,
    pub public: bool,
    /// Where its signature stands.
    pub at: usize,
    /// The lines of it: signature, clauses, and all that is indented below them.
    pub ranges: Vec<Range<usize>>,
    /// The constructors of a `data`.
    pub constructors: Vec<&'a str>,
}

const MARKS: [&str; 4] = ["unfoldable", "abbrev", "axiom", "pub"];

/// Expects the code without its `use` lines.
pub fn declarations(body: &str) -> Vec<Declaration<'_>> {
    let mut reader = Reader::default();
    let mut at = 0;
    for line in body.split_inclusive('\n') {
        if !line.trim().is_empty() {
            reader.take(line, at);
        }
        at += line.len();
    }
    for one in &mut reader.found {
        one.constructors = constructors(body, one);
    }
    reader.found
}

#[derive(Default)]
struct Reader<'a> {
    found: Vec<Declaration<'a>>,
    /// The declaration that an indented line belongs to.
    current: Option<usize>,
    /// How far the declarations of each open module are indented.
    scopes: Vec<usize>,
    header: Header,
}

#[derive(Default)]
enum Header {
    #[default]
    Outside,
    /// A module's parameters go on.
    Open,
    /// The module's first line comes next, if it is indented further than this.
    Read(usize),
}

impl<'a> Reader<'a> {
    fn take(&mut self, line: &'a str, at: usize) {
        let indent = line.len() - line.trim_start().len();
        match self.header {
            Header::Open => {
                self.read_header(line);
                return;
            }
            Header::Read(above) if indent > above => self.scopes.push(indent),
            _ => {}
        }
        self.header = Header::Outside;
        while self.scopes.last().is_some_and(|scope| indent < *scope) {
            self.scopes.pop();
        }
        if indent == self.scopes.last().copied().unwrap_or(0) {
            self.begin(line, at);
        }
        if let Some(current) = self.current {
            let range = at..at + line.len();
            let ranges = &mut self.found[current].ranges;
            match ranges.last_mut() {
                Some(last) if last.end == range.start => last.end = range.end,
                _ => ranges.push(range),
            }
        }
    }

    /// A line that is indented as the declarations are: sets what it belongs to.
    fn begin(&mut self, line: &'a str, at: usize) {
        let all = words(line);
        let marked = all.iter().take_while(|word| MARKS.contains(&word.text));
        let (marks, rest) = all.split_at(marked.count());
        let public = marks.iter().any(|mark| mark.text == "pub");
        let Some(head) = rest.first() else { return };
        match head.text {
            "module" => {
                self.current = None;
                self.read_header(line);
            }
            "mod" | "infix" | "infixl" | "infixr" | "open" => self.current = None,
            "unfolding" => {}
            "record" | "data" => {
                if let Some(name) = rest.get(1) {
                    self.declare(name.text, public, at);
                }
            }
            name if is_signature(line, rest) => self.declare(name, public, at),
            name => {
                let own = self.found.iter().position(|one| one.name == name);
                self.current = own.or(self.current);
            }
        }
    }

    fn declare(&mut self, name: &'a str, public: bool, at: usize) {
        self.current = Some(self.found.len());
        self.found.push(Declaration {
            name,
            public,
            at,
            ranges: Vec::new(),
            constructors: Vec::new(),
        });
    }

    fn read_header(&mut self, line: &str) {
        let indent = line.len() - line.trim_start().len();
        self.header = if line.trim_end().ends_with("where") {
            let module = self.scopes.last().copied().unwrap_or(0);
            Header::Read(indent.min(module))
        } else {
            Header::Open
        };
    }
}

/// Whether a colon follows the first name, universe levels in braces aside.
fn is_signature(line: &str, rest: &[Word]) -> bool {
    let name = rest[0];
    let behind = line[name.at + name.text.len()..].trim_start();
    let behind = match behind.strip_prefix('{') {
        Some(levels) => match levels.split_once('}') {
            Some((_, behind)) => behind.trim_start(),
            None => behind,
        },
        None => behind,
    };
    name.dot == Dot::Without && behind.starts_with(':')
}

/// The names in front of the colon of each line that is indented first below a `data`.
fn constructors<'a>(body: &'a str, one: &Declaration) -> Vec<&'a str> {
    let mut found = Vec::new();
    let mut first = None;
    for range in &one.ranges {
        let text = &body[range.clone()];
        for (number, line) in text.split_inclusive('\n').enumerate() {
            let indent = line.len() - line.trim_start().len();
            if range.start == one.at && number == 0 {
                if !words(line).iter().any(|word| word.text == "data") {
                    return found;
                }
            } else if !line.trim().is_empty() && indent == *first.get_or_insert(indent) {
                let names = words(line);
                let colon = names.iter().position(|word| word.text == ":");
                found.extend(names[..colon.unwrap_or(0)].iter().map(|word| word.text));
            }
        }
    }
    found
}

#[cfg(test)]
mod tests {
    use super::*;

    const TEXT: &str = "\
pub data Kind (n : ℕ) : Type 0 where
  one : Kind n
  two three : ℕ
      → Kind n

pub record Pair {ℓ} : Type ℓ where
  pub left : ℕ

unfoldable pub f {ℓ} : ℕ
    → ℕ
unfolding g
f zero = h
  where
    h : ℕ
    h = 0
f (suc n) = record {
  left = n;
}

module _ (a : ℕ)
    (b : ℕ) where
  pub g : ℕ
  g = f a

  module _ (c : ℕ) where
    i : ℕ
    i = c

  k : ℕ
  k = g

_⊓_ : ℕ → ℕ → ℕ
a ⊓ b = a
";

    #[test]
    fn each_with_its_lines() {
        let found = declarations(TEXT);
        let names: Vec<(&str, bool)> = found.iter().map(|one| (one.name, one.public)).collect();
        assert_eq!(
            names,
            [
                ("Kind", true),
                ("Pair", true),
                ("f", true),
                ("g", true),
                ("i", false),
                ("k", false),
                ("_⊓_", false),
            ]
        );
        let f = &found[2];
        let lines: String = f.ranges.iter().map(|range| &TEXT[range.clone()]).collect();
        assert!(lines.contains("unfolding g") && lines.contains("left = n;\n}"));
        assert!(!lines.contains("module"));
        let last = &found[6];
        assert_eq!(
            &TEXT[last.ranges[0].clone()],
            "_⊓_ : ℕ → ℕ → ℕ\na ⊓ b = a\n"
        );
    }

    #[test]
    fn constructors_of_data_alone() {
        let found = declarations(TEXT);
        assert_eq!(found[0].constructors, ["one", "two", "three"]);
        assert!(found[1..].iter().all(|one| one.constructors.is_empty()));
    }
}
