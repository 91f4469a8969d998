//! The parts of an rt file that are antt, and its functions.

use crate::tokens::{antt_code, blank, rust_names};
use std::ops::Range;

/// The `requires` and `ensures` clauses, each from its word to its closing brace.
pub fn clauses(code: &str) -> Vec<Range<usize>> {
    let mut found: Vec<Range<usize>> = Vec::new();
    let mut at = 0;
    for line in code.split_inclusive('\n') {
        let inside = found.last().is_some_and(|clause| at < clause.end);
        let start = at + line.len() - line.trim_start().len();
        let word = line.trim_start();
        let begins = ["requires", "ensures"].iter().any(|keyword| {
            let rest = word.strip_prefix(keyword);
            rest.is_some_and(|rest| rest.starts_with([' ', '{', '\n']))
        });
        if begins && !inside {
            let rest = antt_code(&code[start..]);
            found.push(start..start + closing_brace(&rest, 0));
        }
        at += line.len();
    }
    found
}

/// Behind the brace that closes the first one from a place on.
fn closing_brace(code: &str, from: usize) -> usize {
    let mut depth = 0;
    for (at, c) in code[from..].char_indices() {
        match c {
            '{' => depth += 1,
            '}' if depth == 1 => return from + at + 1,
            '}' => depth -= 1,
            _ => {}
        }
    }
    code.len()
}

/// All that is antt: the clauses, those of closures too, and what stands in braces behind `ghost`.
pub fn ghost(code: &str) -> Vec<Range<usize>> {
    let mut found = clauses(code);
    let inside = |found: &[Range<usize>], at| found.iter().any(|one| one.contains(&at));
    for (at, word) in rust_names(code) {
        if inside(&found, at) {
            continue;
        }
        let behind = &code[at + word.len()..];
        let open = match word {
            "requires" | "ensures" => clause_opens(behind),
            "ghost" if !behind.trim_start().starts_with("use ") => {
                behind.find(['{', ';', '(']).filter(|to| behind[*to..].starts_with('{'))
            }
            _ => None,
        };
        if let Some(open) = open {
            let from = at + word.len() + open;
            found.push(at..from + closing_brace(&antt_code(&code[from..]), 0));
        }
    }
    found
}

/// Where the brace of a clause opens behind its word, a star and its name.
fn clause_opens(behind: &str) -> Option<usize> {
    let open = behind.find('{')?;
    let between = behind[..open].trim().trim_start_matches('*').trim_start();
    let is_name = between.chars().all(|c| c.is_alphanumeric() || c == '_');
    is_name.then_some(open)
}

pub struct Function<'a> {
    pub name: &'a str,
    pub parameters: usize,
    /// From its `fn` to the end of its body, or to the `;` where it has none.
    pub range: Range<usize>,
}

/// The functions, those of `impl` blocks too.
pub fn functions(code: &str) -> Vec<Function<'_>> {
    let plain = blank(code, &ghost(code));
    let mut found = Vec::new();
    for pair in rust_names(&plain).windows(2) {
        let [(from, word), (at, name)] = [pair[0], pair[1]];
        if word != "fn" || !plain[from + word.len()..at].trim().is_empty() {
            continue;
        }
        let behind = at + name.len();
        let (parameters, signed) = parameters(&plain, outside(&plain, behind, "("));
        let body = outside(&plain, signed, "{;");
        let end = if plain[body..].starts_with(';') {
            body + 1
        } else {
            closing_brace(&plain, body)
        };
        found.push(Function {
            name: &code[at..behind],
            parameters,
            range: from..end,
        });
    }
    found
}

/// How many parameters stand in the parentheses that open at a place, and the place behind these.
fn parameters(code: &str, open: usize) -> (usize, usize) {
    let mut count = 0;
    let mut at = open + 1;
    while at < code.len() {
        let end = outside(code, at, ",)");
        count += usize::from(!code[at..end].trim().is_empty());
        at = end + 1;
        if code[end..].starts_with(')') {
            break;
        }
    }
    (count, at.min(code.len()))
}

/// The first of these signs from a place on, among types, that stands in no bracket.
fn outside(code: &str, from: usize, signs: &str) -> usize {
    let mut open = Vec::new();
    let mut before = ' ';
    for (at, c) in code[from..].char_indices() {
        if open.is_empty() && signs.contains(c) {
            return from + at;
        }
        match c {
            '(' | '[' | '{' | '<' => open.push(c),
            // An angle that is still open inside is of an array's length, and no bracket.
            ')' | ']' | '}' => while open.pop() == Some('<') {},
            '>' if before != '-' && open.last() == Some(&'<') => {
                open.pop();
            }
            _ => {}
        }
        before = c;
    }
    code.len()
}

#[cfg(test)]
mod tests {
    use super::*;
    use crate::tokens::{line_at, rt_code};

    #[test]
    fn a_clause_ends_with_its_brace() {
        let code = "\
fn f() -> T
    requires { a {A = ℕ}
        b }
    ensures text { c }
{
    requires_not();
}
";
        let found: Vec<&str> = clauses(code)
            .into_iter()
            .map(|range| &code[range])
            .collect();
        assert_eq!(
            found,
            [
                "requires { a {A = ℕ}\n        b }",
                "ensures text { c }"
            ]
        );
    }

    #[test]
    fn ghost_items_and_clauses_of_closures() {
        let code = "\
ghost use A.{b};
struct A {
    ghost low: { c ≤ {d} },
}
impl Model for A {
    ghost Value = { List ℕ };
}
fn f() {
    g(move |x| requires { h x -- }
        } { x });
    requires_not(); ensures(x);
}
";
        let found: Vec<&str> = ghost(code).into_iter().map(|range| &code[range]).collect();
        assert_eq!(
            found,
            [
                "ghost low: { c ≤ {d} }",
                "ghost Value = { List ℕ }",
                "requires { h x -- }\n        }",
            ]
        );
    }

    #[test]
    fn comments_of_a_clause_close_nothing() {
        let code = "fn f()\n    ensures { a -- }\n        {- } -} b }\n{ c }\n";
        let found = clauses(code);
        assert_eq!(found.len(), 1);
        assert!(code[found[0].clone()].ends_with("b }"));
    }

    /// Name, parameters, first and last line of each function.
    fn shapes(text: &str) -> Vec<(String, usize, usize, usize)> {
        let code = rt_code(text);
        let shape = |one: Function| {
            let first = line_at(text, one.range.start);
            let last = line_at(text, one.range.end - 1);
            (one.name.to_string(), one.parameters, first, last)
        };
        functions(&code).into_iter().map(shape).collect()
    }

    #[test]
    fn parameters_of_all_kinds() {
        let text = "\
fn none() {}
fn blank( /* a, b */ ) {}
pub fn one<'a, const N: usize, F: Fn(u8, u8) -> u8>(a: &'a mut [u8; N]) -> [u8; 2] { [0, 0] }
fn four(
    (a, b): (u8, u8), // c, d
    e: Map<u8, [u8; 1 << 4]>,
    f: fn(u8, u8) -> Pair<u8, u8>,
    g: &[u8],
) -> Pair<u8, [u8; 4]>
{
    h(a, b, e)
}
pub extern \"C\" fn two(a: u8, b: u8);
";
        let expected = [
            ("none", 0, 1, 1),
            ("blank", 0, 2, 2),
            ("one", 1, 3, 3),
            ("four", 4, 4, 12),
            ("two", 2, 13, 13),
        ];
        assert_eq!(shapes(text), expected.map(named));
    }

    fn named(one: (&str, usize, usize, usize)) -> (String, usize, usize, usize) {
        (one.0.to_string(), one.1, one.2, one.3)
    }

    #[test]
    fn a_function_ends_with_its_body() {
        let text = "\
// fn no(a: u8) {
impl A {
    pub fn f(self, b: u8) -> bool
        requires { g {A = ℕ} (fn x) }
        ensures low { -- {
            result < b }
    {
        if self.a < b { // }
            return put(b\"}\", b'}', '{');
        }
        true
    }

    fn g(mut self) {}
}
";
        let expected = [("f", 2, 3, 12), ("g", 1, 14, 14)];
        assert_eq!(shapes(text), expected.map(named));
    }
}
