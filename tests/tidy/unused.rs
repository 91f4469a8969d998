//! Each law and definition is used: by another of its file, by another file, or by a page that
//! names it.

use crate::declarations::{declarations, Declaration};
use crate::files::{File, Place, Repository};
use crate::tokens::{blank, line_at, words, Names};
use crate::uses::{reached, Parts, Reached};
use std::collections::HashSet;

/// A page here names samples, and no laws.
const SAMPLES: &str = "samples/";

pub fn check(repository: &Repository) -> Vec<Place> {
    let mut elsewhere: HashSet<Reached> = HashSet::new();
    let mut paged: HashSet<&str> = HashSet::new();
    for file in &repository.files {
        if file.is_antt() || file.is_rt() {
            let other = |one: &Reached| one.0 != file.path;
            elsewhere.extend(reached(&Parts::of(file)).into_iter().filter(other));
        } else if file.is_page() && !file.path.starts_with(SAMPLES) {
            paged.extend(quoted(&file.text));
        }
    }
    let mut places = Vec::new();
    for file in &repository.files {
        if !file.is_antt() {
            continue;
        }
        let body = Parts::of(file).body;
        for one in declarations(&body) {
            let beside = blank(&body, &one.ranges);
            let here = Names::of(&beside);
            let used = |name: &str| {
                let there = (file.path.clone(), name.to_string());
                here.has(name) || elsewhere.contains(&there) || paged.contains(name)
            };
            let constructed = one.constructors.iter().any(|name| used(name));
            if !constructed && !used(one.name) && !is_answer(file, &body, &one) {
                let line = line_at(&file.text, one.at);
                places.push(file.place(line, format!("nothing uses `{}`", one.name)));
            }
        }
    }
    places
}

/// What `rt` takes by its name: of a file of invariants or of answers what has the type of a goal, and
/// of a `Proof.antt` the whole.
fn is_answer(file: &File, body: &str, one: &Declaration) -> bool {
    let function = file.path.rsplit('/').nth(1).unwrap_or("");
    let is_goal = |word: &str| word.split_once('.').is_some_and(|(_, goal)| goal == one.name);
    let mut typed = one.ranges.iter().flat_map(|range| body[range.clone()].split_whitespace());
    file.is_proof() && (one.name == format!("{function}_spec") || one.public && typed.any(is_goal))
}

/// The words between backticks, which no blank line parts.
fn quoted(page: &str) -> Vec<&str> {
    let paragraphs = page.split("\n\n");
    let spans = paragraphs.flat_map(|text| text.split('`').skip(1).step_by(2));
    spans.flat_map(words).map(|word| word.text).collect()
}

#[cfg(test)]
mod tests {
    use super::*;
    use crate::files::said;

    fn of(files: &[(&str, &str)]) -> Vec<String> {
        said(&check(&Repository::of(files)))
    }

    const A: &str = "crates/a/specs/A.antt";

    #[test]
    fn used_in_its_file() {
        let text = "\
f : ℕ
f = 0

module _ (x : f ≡ 0) where
  g : ℕ
  g = h

  h : ℕ
  h = g
";
        assert_eq!(of(&[(A, text)]), [""; 0]);
    }

    #[test]
    fn used_by_itself_alone() {
        let text = "\
f : ℕ → ℕ
f zero = f 0
  where
    g : f 0 ≡ 0

f (suc n) = f n

-- h
pub h : ℕ
h = s .h
";
        assert_eq!(
            of(&[(A, text)]),
            [
                format!("{A}:1: nothing uses `f`"),
                format!("{A}:9: nothing uses `h`"),
            ]
        );
    }

    #[test]
    fn used_by_other_files() {
        let text = "\
pub f : ℕ
f = 0
pub g : ℕ
g = 0
pub h : ℕ
h = 0
pub k : ℕ
k = 0
pub l : ℕ
l = 0
pub m : ℕ
m = 0
";
        let own = "use Rattle.a.specs.A.{f}\n";
        let other = "use Rattle.a.specs.A as B\npub x_spec : ℕ\nx_spec = B.g\n";
        let code = "fn x()\n    ensures { Rattle.a.specs.A.h }\n{}\n";
        assert_eq!(
            of(&[
                (A, text),
                ("crates/a/proofs/C.antt", own),
                ("crates/b/proofs/x/Proof.antt", other),
                ("crates/b/src/lib.rt", code),
                ("README.md", "`a\nk` l `A.m`\n"),
                ("samples/README.md", "`l`\n"),
            ]),
            [format!("{A}:9: nothing uses `l`")]
        );
    }

    #[test]
    fn the_same_name_of_another_file() {
        let other = "use Rattle.b.specs.A.{f}\n";
        assert_eq!(
            of(&[(A, "pub f : ℕ\nf = 0\n"), ("crates/c/specs/C.antt", other)]),
            [format!("{A}:1: nothing uses `f`")]
        );
    }

    #[test]
    fn data_by_its_constructors() {
        let text = "pub data D : Type 0 where\n  one : D\n\npub data E : Type 0 where\n  two : E\n";
        let other = "use Rattle.a.specs.A.{one}\n";
        assert_eq!(
            of(&[(A, text), ("crates/c/specs/C.antt", other)]),
            [format!("{A}:4: nothing uses `E`")]
        );
    }

    #[test]
    fn answers_are_cited_where_they_stand() {
        let path = "crates/a/proofs/two_words/Proof.antt";
        let text = "\
returns : tie.Need-returns
returns c = 0

old : tie.Need-old
old c = 0

pub two_words_spec : statement
two_words_spec = tie.close (tie.spec returns)
";
        assert_eq!(
            of(&[(path, text)]),
            [format!("{path}:4: nothing uses `old`")]
        );
        let path = "crates/a/proofs/two_words/Answers.antt";
        let text = "\
pub returns-else-n : goal.returns-else-n
returns-else-n c = 0

pub other : goal.returns
other c = 0

returns : goal.returns
returns c = 0
";
        assert_eq!(
            of(&[(path, text)]),
            [
                format!("{path}:4: nothing uses `other`"),
                format!("{path}:7: nothing uses `returns`"),
            ]
        );
        let path = "crates/a/proofs/two_words/Invariants.antt";
        let text = "abbrev pub invariant-loop-n : goal.invariant-loop-n\ninvariant-loop-n l = l.n ≤ 8\n";
        assert_eq!(of(&[(path, text)]), [""; 0]);
    }

    #[test]
    fn what_an_attribute_names() {
        let text = "pub f : ℕ\nf = 0\npub g : ℕ\ng = 0\npub h : ℕ\nh = 0\n";
        let lemmas = "crates/b/proofs/B.antt";
        let code = "\
#[tactic(auto, using(crate::proofs::B::f), unfolding(a::specs::A::g))]
fn x() {}
// crate::proofs::B::h
";
        assert_eq!(
            of(&[(A, text), (lemmas, text), ("crates/b/src/lib.rt", code)]),
            [
                format!("{A}:1: nothing uses `f`"),
                format!("{A}:5: nothing uses `h`"),
                format!("{lemmas}:3: nothing uses `g`"),
                format!("{lemmas}:5: nothing uses `h`"),
            ]
        );
    }
}
