//! In an answer of a function's proof, a point that lies three or more `.before` back stands once,
//! bound by `let`; none lies more than 40 back.

use crate::declarations::declarations;
use crate::files::{Place, Repository};
use crate::tokens::{blank, line_at, words, Dot, Word};
use crate::uses::Parts;
use std::ops::Range;

const BOUND_FROM: usize = 3;
const AT_MOST: usize = 40;

/// A run of `.before` that is as long as it can be.
struct Chain {
    head: String,
    count: usize,
    at: usize,
}

pub fn check(repository: &Repository) -> Vec<Place> {
    let mut places = Vec::new();
    for file in repository.files.iter().filter(|file| file.is_proof()) {
        let body = Parts::of(file).body;
        for one in declarations(&body) {
            let chains = chains(&only(&body, &one.ranges));
            for (index, chain) in chains.iter().enumerate() {
                let Chain { head, count, at } = chain;
                let same = |other: &&Chain| other.head == *head && other.count == *count;
                let before = chains[..index].iter().filter(same).count();
                let line = line_at(&file.text, *at);
                if *count > AT_MOST {
                    places.push(file.place(
                        line,
                        format!("`{}`: {count} `.before` behind `{head}`", one.name),
                    ));
                }
                if *count >= BOUND_FROM && before == 1 {
                    let times = chains.iter().filter(same).count();
                    places.push(file.place(
                        line,
                        format!(
                            "`{}`: {times} times `{head}` and {count} `.before`",
                            one.name
                        ),
                    ));
                }
            }
        }
    }
    places
}

/// The text with all but these ranges, which are in order, made blank.
fn only(text: &str, ranges: &[Range<usize>]) -> String {
    let mut others = Vec::new();
    let mut at = 0;
    for range in ranges {
        others.push(at..range.start);
        at = range.end;
    }
    others.push(at..text.len());
    blank(text, &others)
}

fn chains(code: &str) -> Vec<Chain> {
    let words = words(code);
    let mut found = Vec::new();
    let mut index = 0;
    while index < words.len() {
        let mut end = index;
        while end < words.len()
            && is_before(&words[end])
            && (end == index || follows(code, &words, end))
        {
            end += 1;
        }
        if end > index {
            found.push(Chain {
                head: head(code, words[index].at - 1),
                count: end - index,
                at: words[index].at,
            });
        }
        index = end.max(index + 1);
    }
    found
}

fn is_before(word: &Word) -> bool {
    word.text == "before" && word.dot != Dot::Without
}

/// Whether a projection stands right behind the word before it.
fn follows(code: &str, words: &[Word], index: usize) -> bool {
    let last = &words[index - 1];
    let between = &code[last.at + last.text.len()..words[index].at];
    between.trim() == "."
}

/// What a projection is of: a name or something in parentheses, and the projections between.
fn head(code: &str, dot: usize) -> String {
    let mut from = dot;
    loop {
        let before = code[..from].trim_end();
        from = match before.strip_suffix(')') {
            Some(inside) => opening(inside),
            None => {
                let begins = |c: char| c.is_whitespace() || "(){},;".contains(c);
                before.len() - before.rsplit(begins).next().map_or(0, str::len)
            }
        };
        if from == 0 || !code[from..].starts_with('.') {
            break;
        }
    }
    let whole = code[from..dot].split_whitespace();
    whole.collect::<Vec<&str>>().join(" ")
}

/// Where the parenthesis opens that closes behind a text.
fn opening(inside: &str) -> usize {
    let mut depth = 1;
    for (at, c) in inside.char_indices().rev() {
        match c {
            ')' => depth += 1,
            '(' => depth -= 1,
            _ => {}
        }
        if depth == 0 {
            return at;
        }
    }
    0
}

#[cfg(test)]
mod tests {
    use super::*;
    use crate::files::said;

    const PATH: &str = "crates/a/proofs/f/Proof.antt";

    fn of(text: &str) -> Vec<String> {
        said(&check(&Repository::of(&[(PATH, text)])))
    }

    #[test]
    fn other_counts_heads_and_answers() {
        let text = "\
returns : tie.Need-returns
returns c =
    let start = c.before.before.before in
    (start.before.x, c.before.before, c.before.before,
        c.before.before.before.before.y, d.before.before.before)

other : tie.Need-other
other c = c.before.before.before.z
";
        assert_eq!(of(text), [""; 0]);
    }

    #[test]
    fn the_same_point_again() {
        let text = "\
returns : tie.Need-returns
returns c =
    f (c.before.before.before.x)
    (c.before.before.before)
    (c.before.before.before.y)
";
        assert_eq!(
            of(text),
            [format!("{PATH}:4: `returns`: 3 times `c` and 3 `.before`")]
        );
    }

    #[test]
    fn heads_of_several_words() {
        let text = "\
returns : tie.Need-returns
returns c =
    f ((g c).h.before.before.before)
    ((g c).h.before.before.before)
    (c.h.before.before.before)
";
        assert_eq!(
            of(text),
            [format!(
                "{PATH}:4: `returns`: 2 times `(g c).h` and 3 `.before`"
            )]
        );
    }

    #[test]
    fn too_far_back() {
        let text = |count| {
            let chain = ".before".repeat(count);
            format!("returns : tie.Need-returns\nreturns c = c{chain}\n")
        };
        assert_eq!(of(&text(40)), [""; 0]);
        assert_eq!(
            of(&text(41)),
            [format!("{PATH}:2: `returns`: 41 `.before` behind `c`")]
        );
    }

    #[test]
    fn other_files_are_not_asked() {
        let text = "f : ℕ\nf c = g (c.before.before.before) (c.before.before.before)\n";
        let places = check(&Repository::of(&[("crates/a/proofs/F.antt", text)]));
        assert!(places.is_empty());
    }
}
