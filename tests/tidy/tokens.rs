//! Code without its comments, and the words of antt and of Rust in it.
//!
//! What is left out becomes blanks, byte for byte: a place in the code is the same in the text.

use std::collections::HashSet;
use std::ops::Range;

/// How a language marks what is no code.
struct Marks {
    line: &'static str,
    open: &'static str,
    close: &'static str,
    /// A line's comment begins a word: two hyphens may stand inside one.
    line_begins_word: bool,
    /// A character may stand in single quotes.
    characters: bool,
}

const ANTT: Marks = Marks {
    line: "--",
    open: "{-",
    close: "-}",
    line_begins_word: true,
    characters: false,
};

const RT: Marks = Marks {
    line: "//",
    open: "/*",
    close: "*/",
    line_begins_word: false,
    characters: true,
};

/// An antt text without its comments and without what stands in quotes.
pub fn antt_code(text: &str) -> String {
    code(text, &ANTT)
}

/// An rt text without its comments and without what stands in quotes.
pub fn rt_code(text: &str) -> String {
    code(text, &RT)
}

fn code(text: &str, marks: &Marks) -> String {
    let mut out = Vec::new();
    let mut at = 0;
    while at < text.len() {
        let rest = &text[at..];
        let comments = !marks.line_begins_word || begins_word(text, at);
        let end = if rest.starts_with(marks.line) && comments {
            rest.find('\n').map_or(text.len(), |length| at + length)
        } else if rest.starts_with(marks.open) {
            block_end(text, at, marks.open, marks.close)
        } else if rest.starts_with('"') {
            quote_end(text, at)
        } else if let Some(length) = character(rest).filter(|_| marks.characters) {
            at + length
        } else {
            at += width_at(text, at);
            continue;
        };
        out.push(at..end);
        at = end;
    }
    blank(text, &out)
}

fn width_at(text: &str, at: usize) -> usize {
    text[at..].chars().next().map_or(1, char::len_utf8)
}

/// Where a comment that may hold others ends.
fn block_end(text: &str, from: usize, open: &str, close: &str) -> usize {
    let mut depth = 0;
    let mut at = from;
    while at < text.len() {
        let rest = &text[at..];
        if rest.starts_with(open) {
            depth += 1;
            at += open.len();
        } else if rest.starts_with(close) {
            depth -= 1;
            at += close.len();
            if depth == 0 {
                return at;
            }
        } else {
            at += width_at(text, at);
        }
    }
    text.len()
}

/// Where a text in quotes ends.
fn quote_end(text: &str, from: usize) -> usize {
    let bytes = text.as_bytes();
    let mut at = from + 1;
    while at < bytes.len() {
        match bytes[at] {
            b'\\' => at += 2,
            b'"' => return at + 1,
            _ => at += 1,
        }
    }
    text.len()
}

/// The length of the character literal in front; none where a lifetime or anything else stands.
fn character(rest: &str) -> Option<usize> {
    let inside = rest.strip_prefix('\'')?;
    if inside.starts_with('\\') {
        let end = inside[2..].find('\'')?;
        return Some(1 + 2 + end + 1);
    }
    let length = inside.chars().next()?.len_utf8();
    inside[length..].starts_with('\'').then_some(1 + length + 1)
}

/// The text with these ranges made blank; line ends stay.
pub fn blank(text: &str, ranges: &[Range<usize>]) -> String {
    let mut bytes = text.as_bytes().to_vec();
    for range in ranges {
        for byte in &mut bytes[range.clone()] {
            if *byte != b'\n' {
                *byte = b' ';
            }
        }
    }
    String::from_utf8(bytes).expect("a range ends where characters end")
}

/// The number of the line of a place.
pub fn line_at(text: &str, at: usize) -> usize {
    text[..at].matches('\n').count() + 1
}

/// How a word stands behind a dot.
#[derive(Clone, Copy, PartialEq, Debug)]
pub enum Dot {
    Without,
    /// `Module.word`, or `value.word`: which of the two, the word in front says.
    Joined,
    /// `(value).word`
    Projects,
}

#[derive(Clone, Copy)]
pub struct Word<'a> {
    pub text: &'a str,
    pub at: usize,
    pub dot: Dot,
}

/// Whether a character ends an antt name.
fn separates(c: char) -> bool {
    c.is_whitespace() || "(){}.;,@\"«»".contains(c)
}

fn begins_word(text: &str, at: usize) -> bool {
    text[..at].chars().next_back().map_or(true, separates)
}

/// The names of an antt text: runs of characters, as antt has them.
pub fn words(code: &str) -> Vec<Word<'_>> {
    let mut found = Vec::new();
    let mut start = None;
    let ends = std::iter::once((code.len(), ' '));
    for (at, c) in code.char_indices().chain(ends) {
        if !separates(c) {
            start.get_or_insert(at);
        } else if let Some(from) = start.take() {
            found.push(Word {
                text: &code[from..at],
                at: from,
                dot: dot_before(code, from),
            });
        }
    }
    found
}

fn dot_before(code: &str, at: usize) -> Dot {
    let Some(before) = code[..at].strip_suffix('.') else {
        return Dot::Without;
    };
    match before.chars().next_back() {
        Some(c) if !separates(c) => Dot::Joined,
        _ => Dot::Projects,
    }
}

/// The words of Rust code that name something by themselves, not behind `::` or a field's dot.
pub fn rust_words(code: &str) -> HashSet<&str> {
    let mut found = HashSet::new();
    for (at, word) in rust_names(code) {
        let before = &code[..at];
        let field = before.ends_with('.') && !before.ends_with("..");
        if !field && !before.ends_with("::") {
            found.insert(word);
        }
    }
    found
}

/// Every run of letters, digits and `_`, with its place.
pub fn rust_names(code: &str) -> Vec<(usize, &str)> {
    let mut found = Vec::new();
    let mut start = None;
    let ends = std::iter::once((code.len(), ' '));
    for (at, c) in code.char_indices().chain(ends) {
        if c.is_alphanumeric() || c == '_' {
            start.get_or_insert(at);
        } else if let Some(from) = start.take() {
            found.push((from, &code[from..at]));
        }
    }
    found
}

/// Where the arguments of an operator stand in its name: `◌+◌`.
const HOLE: char = '◌';

/// The antt names that a text uses.
#[derive(Default)]
pub struct Names<'a>(HashSet<&'a str>);

impl<'a> Names<'a> {
    pub fn of(code: &'a str) -> Names<'a> {
        let mut names = Names::default();
        names.add(code);
        names
    }

    /// A projection is found by the type of its value, so it names nothing.
    pub fn add(&mut self, code: &'a str) {
        for word in words(code) {
            if word.dot == Dot::Without {
                self.0.insert(word.text);
                self.0.extend(word.text.split(HOLE));
                self.0.extend(word.text.split(['[', ']', '|']));
            }
        }
    }

    /// Whether a name is used; of an operator, each part between its holes.
    pub fn has(&self, name: &str) -> bool {
        let mut parts = name.split(HOLE).filter(|part| !part.is_empty());
        if name.contains(HOLE) {
            parts.all(|part| self.0.contains(part))
        } else {
            self.0.contains(name)
        }
    }
}

#[cfg(test)]
mod tests {
    use super::*;

    #[test]
    fn comments_and_quotes_go() {
        let code = antt_code("a -- b {- d\nc-- \n{- e {- f -} g -} h \"i -- j\" k");
        let found: Vec<&str> = words(&code).iter().map(|word| word.text).collect();
        assert_eq!(found, ["a", "c--", "h", "k"]);
    }

    #[test]
    fn comments_quotes_and_characters_of_rt_go() {
        let code = rt_code("a '\"' b // c\nd /* e */ \"// f\" g 'x' '\\n' &'static h");
        let found: Vec<&str> = rust_names(&code).iter().map(|name| name.1).collect();
        assert_eq!(found, ["a", "b", "d", "g", "static", "h"]);
    }

    #[test]
    fn places_stay() {
        let text = "≤ -- ≤≤\nx";
        let code = antt_code(text);
        assert_eq!(code.find('x'), text.find('x'));
        assert_eq!(line_at(&code, code.find('x').unwrap()), 2);
    }

    #[test]
    fn dots() {
        let found: Vec<(&str, Dot)> = words("Step.carry c.before (x).at λ r. y")
            .iter()
            .map(|word| (word.text, word.dot))
            .collect();
        assert_eq!(
            found,
            [
                ("Step", Dot::Without),
                ("carry", Dot::Joined),
                ("c", Dot::Without),
                ("before", Dot::Joined),
                ("x", Dot::Without),
                ("at", Dot::Projects),
                ("λ", Dot::Without),
                ("r", Dot::Without),
                ("y", Dot::Without),
            ]
        );
    }

    #[test]
    fn names_are_whole() {
        let names = Names::of("walk_skip (a <? b) [] (1 +◌) [x| c || d s.field (t u).part");
        assert!(!names.has("walk"));
        assert!(!names.has("◌<◌"));
        assert!(!names.has("field") && !names.has("part"));
        for name in ["walk_skip", "[]", "◌+◌", "◌||◌", "x", "◌<?◌", "s"] {
            assert!(names.has(name), "{name}");
        }
    }

    #[test]
    fn words_that_name_by_themselves() {
        let found = rust_words("Trial::Ran(k.csw) 0..LIMIT");
        assert!(found.contains("Trial") && found.contains("k") && found.contains("LIMIT"));
        assert!(!found.contains("Ran") && !found.contains("csw"));
    }
}
