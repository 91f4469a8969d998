//! What the prover wrote of an edited crate, and whether that is the refusal of a fact.

/// What a proof that does not fit its code, or a text that is no definition, is told. A fact that fails is told otherwise. (Where an
/// edit takes a goal's name away, the proof that answers it is told that a module has no such name.)
const NO_FACT: [&str; 6] = [
    "is not in scope",
    "that can be named from here",
    "has no field",
    "cannot be unfolded",
    "this clause follows the signature of",
    "is applied to an argument but has type",
];

/// An error that only says that an earlier one stands in its way.
const CONSEQUENCE: [&str; 3] = ["was not admitted", "was not checked", "were not checked"];

/// Where a fact failed.
#[derive(Debug, PartialEq)]
pub struct Failed<'a> {
    /// The crate that was being checked, if `rt` named one.
    pub krate: Option<&'a str>,
    /// Its file, from the crate's folder.
    pub file: &'a str,
}

/// The first error of a log that is no consequence of another.
#[derive(Debug, PartialEq)]
pub struct First<'a> {
    pub file: &'a str,
    /// The law, or the part of a function's proof; none where the text could not be read.
    pub law: Option<&'a str>,
    pub says: &'a str,
}

/// `FILE:LINE:COLUMN: error: text`, or with a kind behind `error`.
fn error_in(line: &str) -> Option<First<'_>> {
    let (place, rest) = line.split_once(": error")?;
    let mut place = place.rsplitn(3, ':');
    let number = |part: Option<&str>| part.is_some_and(|p| p.parse::<usize>().is_ok());
    if !number(place.next()) || !number(place.next()) {
        return None;
    }
    let file = place.next()?;
    let says = rest.split_once(": ").map_or(rest, |(_, says)| says);
    let named = says.strip_prefix('`').and_then(|s| s.split_once("`: "));
    let (law, says) = named.map_or((None, says), |(law, says)| (Some(law), says));
    Some(First { file, law, says })
}

/// An obligation of a function that no answer is written for, and that the prover found no proof of.
fn obligation(line: &str) -> bool {
    line.starts_with("note: ") && line.contains("src/") && line.contains("it is not proved that")
}

/// Whether an error says that a fact fails. Else what is wrong with it.
fn of_fact(first: &First) -> Result<(), String> {
    let wrong = |what: &str| Err(format!("{what}: {}: {}", first.file, first.says));
    if !first.file.split('/').any(|part| part == "proofs") {
        return wrong("its first error stands in no proof");
    }
    let Some(law) = first.law else {
        return wrong("its first error is one of syntax");
    };
    let chosen = ["invariant-", "decreases-"].iter().any(|part| law.starts_with(part));
    if chosen || law.ends_with("_spec") || NO_FACT.iter().any(|no| first.says.contains(no)) {
        return wrong(&format!("the proof of `{law}` no longer fits"));
    }
    Ok(())
}

/// Where facts failed: at the first error, and at those behind it up to one that says something else; nowhere in a proof where it is
/// an obligation that no answer is written for. Else what is wrong with the refusal.
pub fn by_facts(log: &str) -> Result<Vec<Failed<'_>>, String> {
    if !log.lines().any(|line| line.starts_with("logic=not-proved")) {
        return Err("the prover did not refuse it".into());
    }
    let mut krate = None;
    let mut failed = vec![];
    for line in log.lines() {
        if line.starts_with("rt: chose --jobs ") {
            krate = line.rsplit(' ').next();
        }
        let Some(error) = error_in(line).filter(|error| !CONSEQUENCE.iter().any(|no| error.says.contains(no))) else {
            continue;
        };
        match of_fact(&error) {
            Ok(()) => failed.push(Failed { krate, file: error.file }),
            Err(why) if failed.is_empty() => return Err(why),
            Err(_) => break,
        }
    }
    match failed.is_empty() && !log.lines().any(obligation) {
        true => Err("no error, and no obligation that is not proved".into()),
        false => Ok(failed),
    }
}

/// What `rt` says of an edit.
#[derive(Debug, PartialEq)]
pub enum Words {
    /// It was refused because a fact fails.
    Fact,
    /// It was refused for this obligation, by its place in the source. That may be a new one: the edit may have taken away the names that
    /// the function's proof answers.
    Obligation(String, usize),
    /// It was not refused, or shows nothing of a fact.
    Wrong(String),
}

const REFUSED: &str = "refused, as it must be";

/// `rt` shows the first words of the first error or note that tells more than that a proof names what is gone.
pub fn by_words(words: &str) -> Words {
    let Some(shown) = words.strip_prefix(REFUSED) else {
        return Words::Wrong(words.into());
    };
    let Some(shown) = shown.strip_prefix(": ") else {
        return Words::Wrong(format!("{REFUSED}{shown}"));
    };
    if let Some(first) = error_in(shown) {
        return of_fact(&first).map_or_else(Words::Wrong, |()| Words::Fact);
    }
    let place = shown.strip_prefix("note: ").filter(|_| obligation(shown));
    let mut place = place.unwrap_or("").splitn(3, ':');
    match (place.next(), place.next().and_then(|line| line.parse().ok())) {
        // The prover found values at which what is asked is false.
        _ if obligation(shown) && shown.contains(VALUES) => Words::Fact,
        (Some(file), Some(line)) => Words::Obligation(file.into(), line),
        _ => Words::Wrong(format!("neither an error nor an obligation: {shown}")),
    }
}

const VALUES: &str = "the facts known there allow values";

#[cfg(test)]
mod tests {
    use super::*;

    fn refused(lines: &[&str]) -> String {
        [lines, &["logic=not-proved"]].concat().join("\n")
    }

    #[test]
    fn a_fact_that_fails() {
        let log = refused(&["./proofs/read/Answers.antt:28:6: error: `returns-else-n`: as printed, the two types first differ"]);
        let file = "./proofs/read/Answers.antt";
        assert_eq!(by_facts(&log), Ok(vec![Failed { krate: None, file }]));
    }

    #[test]
    fn the_crate_that_was_checked() {
        let log = refused(&[
            "rt: low: begins with what a check kept in /t/crates/low",
            "rt: chose --jobs 2 for low",
            "logic=proved functions=2",
            "rt: chose --jobs 2 for mid",
            "./proofs/Law.antt:7:9: error: `seven`: expected type `small 7 ≡ true`",
            "./proofs/Law.antt:9:3: error: 2 declarations that depend on `seven`, which was rejected, were not checked: eight, nine",
            "./proofs/Other.antt:5:9: error: `nine`: expected type `small 9 ≡ true`",
            "./specs/Low.antt:5:9: error: `small`: expected type `Bool`",
            "rt: chose --jobs 2 for high",
            "./proofs/Last.antt:5:9: error: `ten`: expected type `small 9 ≡ true`",
        ]);
        let failed = |file| Failed { krate: Some("mid"), file };
        assert_eq!(by_facts(&log), Ok(vec![failed("./proofs/Law.antt"), failed("./proofs/Other.antt")]));
    }

    const OBLIGATION: &str =
        "note: src/lib.rt:51:1: it is not proved that what the function ensures holds when it returns (`returns`); `search` gave up";

    #[test]
    fn an_obligation_without_an_answer() {
        let log = refused(&[
            "./proofs/run/Answers.antt:9:5: error: 1 declaration that depends on `low`, which was not admitted, was not checked: returns-2",
            OBLIGATION,
        ]);
        assert_eq!(by_facts(&log), Ok(vec![]));
    }

    #[test]
    fn consequences_alone() {
        let log = refused(&["./proofs/run/Proof.antt:9:5: error: `run_spec`: `close` was not admitted (it has holes)"]);
        assert!(by_facts(&log).is_err());
    }

    #[test]
    fn words_of_a_refusal() {
        let words = |shown: &str| by_words(&format!("refused, as it must be{shown}"));
        assert_eq!(words(": ./proofs/A.antt:7:9: error: `seven`: the two types differ"), Words::Fact);
        assert_eq!(words(&format!(": {OBLIGATION}")), Words::Obligation("src/lib.rt".into(), 51));
        let values = OBLIGATION.replace("`search` gave up", "the facts known there allow values at which this goal i");
        assert_eq!(words(&format!(": {values}")), Words::Fact);
        for shown in [
            "",
            ": ./specs/A.antt:5:11: error: `small`: expected type `ℕ`, but this has type `Bool`",
            ": note: to see how far a `search` got",
            " (only because a proof file names what the edit took away, so this says little): ./proofs/A.antt:7:9: error: `seven`: no",
            " (only by a limit of the prover, which gave no verdict): ./proofs/A.antt:7:9: error: `seven`: no",
        ] {
            assert!(matches!(words(shown), Words::Wrong(_)), "{shown}");
        }
    }

    #[test]
    fn words_of_no_refusal() {
        for said in [
            "BAD EDIT: it changes nothing",
            "NOT REFUSED: the crate is still proved with this edit",
            "NOT TRIED: its check was killed",
        ] {
            assert_eq!(by_words(said), Words::Wrong(said.into()));
        }
    }

    #[test]
    fn no_refusal() {
        assert!(by_facts("logic=proved functions=12").is_err());
        assert!(by_facts("").is_err());
    }

    #[test]
    fn errors_that_are_no_facts() {
        for line in [
            "./specs/Areas.antt:8:15: error: `chain_fits`: `lebb` is not in scope; did you mean `leb`?",
            "./specs/Areas.antt:11:1: error: this line starts at column 1",
            "./specs/Areas.antt:8:15: error: `chain_fits`: as printed, the two types first differ",
            "./proofs/Areas.antt:11:1: error: this line starts at column 1",
            "./proofs/run/Answers.antt:10:44: error: `returns-2`: record `Lts.Joined1` has no field `left`",
            "./proofs/run/Answers.antt:10:44: error: `returns-2`: `goal.returns-2`: module `Goals` has no `returns-2` that can be named from here",
            "./proofs/run/Invariants.antt:3:1: error: `invariant-loop-i`: expected type",
            "./proofs/run/Proof.antt:30:1: error: `run_spec`: expected type `Need-returns`",
            "./proofs/Areas.antt:11:13: error: `limit_none`: `limit_fits` cannot be unfolded here",
            "src/lib.rt:63:8: error[unknown-name]: cannot find value `m` in this scope",
        ] {
            assert!(by_facts(&refused(&[line, OBLIGATION])).is_err(), "{line}");
        }
    }
}
