//! Each public declaration of specs/ has a comment right above it, or follows without a blank line
//! on others the first of which has one.

use crate::declarations::declarations;
use crate::files::{Place, Repository};
use crate::tokens::line_at;
use crate::uses::Parts;

pub fn check(repository: &Repository) -> Vec<Place> {
    let mut places = Vec::new();
    for file in &repository.files {
        if !file.is_antt() || !file.in_part("specs") {
            continue;
        }
        let lines: Vec<&str> = file.text.lines().collect();
        let body = Parts::of(file).body;
        let found = declarations(&body);
        let signatures: Vec<usize> = found.iter().map(|one| line_at(&body, one.at)).collect();
        for (one, signature) in found.iter().zip(&signatures) {
            let run = run_start(&lines, *signature);
            let first = signatures
                .iter()
                .find(|line| **line >= run)
                .unwrap_or(signature);
            let told = commented(&lines, *signature) || commented(&lines, *first);
            if one.public && !told {
                places.push(file.place(*signature, format!("no comment above `{}`", one.name)));
            }
        }
    }
    places
}

/// The first line of those that reach without a blank one down to this; lines are counted from 1.
fn run_start(lines: &[&str], line: usize) -> usize {
    let above = lines[..line]
        .iter()
        .rposition(|text| text.trim().is_empty());
    above.map_or(1, |index| index + 2)
}

/// Whether a comment stands right above a line, or above the module that the line begins.
fn commented(lines: &[&str], line: usize) -> bool {
    let above = lines[..line - 1].iter().rev().map(|text| text.trim());
    let mut above = above.skip_while(|text| text.starts_with("module ") && text.ends_with("where"));
    above.next().is_some_and(is_comment)
}

/// A heading (`-- ---- ..`) says nothing of the one declaration below it.
fn is_comment(line: &str) -> bool {
    line.starts_with("-- ") && !line.starts_with("-- --")
}

#[cfg(test)]
mod tests {
    use super::*;
    use crate::files::said;

    fn of(text: &str) -> Vec<String> {
        said(&check(&Repository::of(&[("crates/a/specs/A.antt", text)])))
    }

    #[test]
    fn commented_and_in_a_run() {
        let text = "\
-- The file.
use A.{x}
pub mod B

-- one
unfoldable pub f : ℕ
f = 0
abbrev pub g : ℕ
g = 0
pub h : ℕ
h = 0

-- a record
pub record R : Type 0 where
  pub field : ℕ

k : ℕ
k = 0

-- in a module
module _ (n : ℕ) where
  pub l : ℕ
  l = 0
";
        assert_eq!(of(text), [""; 0]);
    }

    #[test]
    fn uncommented() {
        let text = "\
-- The file.
use A.{x}

-- one
pub f : ℕ
f = 0

pub g : ℕ
g = 0
-- too late for the first
pub h : ℕ
h = 0

-- ---- heading
pub data D : Type 0 where
  -- of the constructor
  one : D

module _ (n : ℕ) where
  pub l : ℕ
  l = 0
";
        let told: Vec<String> = [
            "8: no comment above `g`",
            "15: no comment above `D`",
            "20: no comment above `l`",
        ]
        .iter()
        .map(|what| format!("crates/a/specs/A.antt:{what}"))
        .collect();
        assert_eq!(of(text), told);
    }

    #[test]
    fn proofs_are_not_asked() {
        let places = check(&Repository::of(&[(
            "crates/a/proofs/A.antt",
            "pub f : ℕ\nf = 0\n",
        )]));
        assert!(places.is_empty());
    }
}
