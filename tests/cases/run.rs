//! Runs written by hand.
//!
//! How they are written, besides what `text` says:
//! - `model`: the pack's, a decimal number up to 255; 1 where not said.
//! - `chain`, `arguments`, `storage`, `image`, `faults`: bytes lent; none where not said.
//! - `restart-program`, `restart-arguments`: bytes lent besides; the run is then a restarted one.
//! - `command-limit`: the chain's, 4096 where not said.
//! - `end` or `limit`: the CSW without its first byte. Or `refused` and the question's number.
//! - `sense`: 24 bytes, zeros where not said. `mask`: a byte, none was set where not said.
//! - `cut`: address of the first CCW of a read that a faulted data area cut, none where not said.
//! - `storage-after`: bytes, those lent where not said.
//! - `taken`: cylinder, head and R of a data area taken, `good` or `faulted`, how many of its
//!   bytes went to storage; one statement for each in order, or `none`. Where not said, not
//!   compared.

use super::text::Statement;
use super::{different, Call, Written};
pub use crate::simulator::held::HeldRun as Lent;

#[derive(Clone, Copy, Debug, Default, PartialEq, Eq)]
pub enum Ending {
    #[default]
    End,
    Limit,
}

#[derive(Clone, Debug, PartialEq, Eq)]
pub enum Answer {
    /// The question's number.
    Refused(u8),
    Ran(Ran),
}

/// What comes out of a run besides storage.
#[derive(Clone, Debug, Default, PartialEq, Eq)]
pub struct Ran {
    pub ending: Ending,
    pub csw: [u8; 8],
    pub sense: [u8; 24],
    pub mask: Option<u8>,
    /// Address of the first CCW of the read that a faulted data area cut.
    pub cut: Option<usize>,
    /// The data areas taken, each as `taken_area` writes it; none where this is not known.
    pub taken: Option<Vec<String>>,
}

/// A data area that a read took, and how many of its bytes went to storage.
pub fn taken_area(cylinder: u16, head: u16, number: u8, faulted: bool, stored: usize) -> String {
    let state = if faulted { "faulted" } else { "good" };
    format!("{cylinder:03} {head:02} {number:03} {state} {stored}")
}

/// What is said of a run's answer.
#[derive(Clone, Default)]
pub struct Said {
    refused: Option<u8>,
    ran: Ran,
}

impl Call for Said {
    type Lent = Lent;
    type Answer = Answer;

    const CALLS: &'static str = "runs";
    const ANSWERS: &'static [&'static str] = &["end", "limit", "refused"];
    const REPEATED: &'static [&'static str] = &["taken"];

    fn only_read<'a>(lent: &'a mut Lent, word: &str) -> Option<&'a mut Vec<u8>> {
        Some(match word {
            "chain" => &mut lent.chain,
            "arguments" => &mut lent.arguments,
            "image" => &mut lent.image,
            "faults" => &mut lent.faults,
            "restart-program" => &mut lent.restart.get_or_insert_default().program,
            "restart-arguments" => &mut lent.restart.get_or_insert_default().arguments,
            _ => return None,
        })
    }

    fn written(lent: &mut Lent) -> Vec<Written<'_>> {
        vec![Written::storage(&mut lent.storage)]
    }

    fn take(&mut self, lent: &mut Lent, statement: &Statement) -> Result<(), String> {
        match statement.word {
            "model" => lent.model = statement.byte_number()?,
            "command-limit" => lent.limit = statement.number()?,
            "end" => self.ran.csw = statement.csw()?,
            "limit" => {
                self.ran.ending = Ending::Limit;
                self.ran.csw = statement.csw()?;
            }
            "refused" => self.refused = Some(statement.number()? as u8),
            "sense" => self.ran.sense = statement.bytes_of()?,
            "mask" => self.ran.mask = Some(u8::from_be_bytes(statement.bytes_of()?)),
            "cut" => self.ran.cut = Some(u16::from_be_bytes(statement.bytes_of()?).into()),
            "taken" => {
                let taken = self.ran.taken.get_or_insert_default();
                if statement.values != ["none"] {
                    taken.push(statement.values.join(" "));
                }
            }
            _ => return Err(statement.error("unknown")),
        }
        Ok(())
    }

    fn answer(self) -> Answer {
        self.refused.map_or(Answer::Ran(self.ran), Answer::Refused)
    }

    fn differences(expected: &Answer, shown: &Answer) -> Vec<String> {
        match (expected, shown) {
            (Answer::Ran(expected), Answer::Ran(shown)) => compare(expected, shown),
            _ => different("answer", expected, shown).into_iter().collect(),
        }
    }
}

fn compare(expected: &Ran, shown: &Ran) -> Vec<String> {
    let taken = match (&expected.taken, &shown.taken) {
        (Some(expected), Some(shown)) => different("taken", expected, shown),
        _ => None,
    };
    [
        different("ending", &expected.ending, &shown.ending),
        different("CSW", &expected.csw, &shown.csw),
        different("sense", &expected.sense, &shown.sense),
        different("mask", &expected.mask, &shown.mask),
        different("cut", &expected.cut, &shown.cut),
        taken,
    ]
    .into_iter()
    .flatten()
    .collect()
}

#[cfg(test)]
mod tests {
    use super::*;
    use crate::cases::{text, told, Case, Runner};

    fn read(text: &str) -> Result<Vec<Case<Said>>, String> {
        text::read(text)
    }

    fn error(text: &str) -> String {
        read(text).err().expect("the text is wrong")
    }

    /// The first case's answer, which is not refused.
    fn ran(text: &str) -> Ran {
        match read(text).unwrap().remove(0).answer {
            Answer::Ran(ran) => ran,
            Answer::Refused(_) => panic!("not refused"),
        }
    }

    #[test]
    fn what_stands_above_is_lent_in_every_case() {
        let text = "model 11\nstorage 00*2  # two bytes\narguments 01\n\
            case first of two\nchain 06 00\n    00 01\nend 000008 0C 40 0001\n\
            case second\nmodel 2\narguments\nrefused 1\n";
        let cases = read(text).unwrap();
        let [first, second] = &cases[..] else {
            panic!("two cases");
        };
        assert_eq!(first.name, "first of two");
        assert_eq!((first.lent.model, second.lent.model), (11, 2));
        assert_eq!(first.lent.chain, [6, 0, 0, 1]);
        assert_eq!(
            (&first.lent.storage[..], &first.lent.arguments[..]),
            (&[0, 0][..], &[1][..])
        );
        let ran = ran(text);
        assert_eq!(ran.csw, [0, 0, 0, 8, 0x0C, 0x40, 0, 1]);
        assert_eq!((ran.mask, ran.cut, &ran.taken), (None, None, &None));
        assert_eq!(first.left.storage, [0, 0]);
        assert!(second.lent.chain.is_empty() && second.lent.arguments.is_empty());
        assert_eq!(second.answer, Answer::Refused(1));
    }

    #[test]
    fn every_part_of_an_answer() {
        let text = "case all\nrestart-arguments 11\ncommand-limit 7\nlimit 001008 0E 40 0203\n\
            sense 08 00*23\nmask 18\ncut 0120\nstorage-after AB\n\
            taken 000 01 002 good 4\ntaken 000 01 003 faulted 0\n";
        let case = &read(text).unwrap()[0];
        assert_eq!((case.lent.model, case.lent.limit), (1, 7));
        assert_eq!(case.lent.restart.as_ref().unwrap().arguments, [0x11]);
        assert_eq!(case.left.storage, [0xAB]);
        let ran = ran(text);
        assert_eq!((ran.ending, ran.sense[0]), (Ending::Limit, 8));
        assert_eq!((ran.mask, ran.cut), (Some(0x18), Some(0x120)));
        assert_eq!(ran.taken.unwrap()[1], taken_area(0, 1, 3, true, 0));
    }

    #[test]
    fn none_taken() {
        let text = "case none\nend 00*7\ntaken none\n";
        assert_eq!(ran(text).taken, Some(Vec::new()));
    }

    #[test]
    fn what_is_wrong_is_told() {
        assert_eq!(error("  06\n"), "line 1: no statement goes on here");
        assert_eq!(error("case a\nchan 06\n"), "line 2, chan: unknown");
        assert_eq!(error("chain 0\n"), "line 1, chain: 0 is not bytes");
        assert_eq!(error("chain 0G\n"), "line 1, chain: 0G is not bytes");
        assert_eq!(error("chain 00*x\n"), "line 1, chain: 00*x is not bytes");
        assert_eq!(error("mask 0102\n"), "line 1, mask: 2 bytes instead of 1");
        assert_eq!(
            error("command-limit 10 3\n"),
            "line 1, command-limit: one number is wanted"
        );
        assert_eq!(error("model 0B\n"), "line 1, model: no decimal number");
        assert_eq!(error("model 256\n"), "line 1, model: no number up to 255");
        assert_eq!(error("chain\nchain\n"), "line 2, chain: said twice");
        assert_eq!(error("case a\n"), "a: one answer is wanted");
        let two = "case a\nend 00*7\nrefused 1\n";
        assert_eq!(error(two), "a: one answer is wanted");
    }

    const TEXT: &str = "case a\nstorage 01\nend 000008 0C 00 0000\nstorage-after 02\ntaken none\n";

    fn right(lent: &mut Lent) -> Answer {
        changed(lent, |_| ())
    }

    fn changed(lent: &mut Lent, change: fn(&mut Ran)) -> Answer {
        lent.storage[0] = 2;
        let mut ran = ran(TEXT);
        change(&mut ran);
        Answer::Ran(ran)
    }

    #[test]
    fn nothing_to_tell() {
        assert!(told::<Said>(TEXT, right).is_empty());
        let not_known: Runner<Said> = |lent| changed(lent, |ran| ran.taken = None);
        assert!(told::<Said>(TEXT, not_known).is_empty());
    }

    #[test]
    fn each_part_is_compared() {
        let wrong: [(Runner<Said>, &str); 9] = [
            (|_| Answer::Ran(ran(TEXT)), "storage-after"),
            (
                |lent| {
                    right(lent);
                    Answer::Refused(1)
                },
                "answer",
            ),
            (
                |lent| {
                    lent.arguments.push(0);
                    right(lent)
                },
                "an area that is only read",
            ),
            (
                |lent| changed(lent, |ran| ran.ending = Ending::Limit),
                "ending",
            ),
            (|lent| changed(lent, |ran| ran.csw[3] = 0), "CSW"),
            (|lent| changed(lent, |ran| ran.sense[0] = 1), "sense"),
            (|lent| changed(lent, |ran| ran.mask = Some(0)), "mask"),
            (|lent| changed(lent, |ran| ran.cut = Some(0)), "cut"),
            (
                |lent| changed(lent, |ran| ran.taken = Some(vec![String::new()])),
                "taken",
            ),
        ];
        for (run, part) in wrong {
            assert_eq!(told::<Said>(TEXT, run), [part]);
        }
    }
}
