//! Recoveries written by hand.
//!
//! How they are written, besides what `text` says:
//! - `model`: the pack's, a decimal number up to 255; 1 where not said.
//! - `chain`, `report`, `extent`, `storage`: bytes lent; none where not said.
//! - `program-lent`, `arguments-lent`: what the restart areas hold before; 64 and 16 bytes A5 where
//!   not said.
//! - `answer-length`: bytes of the area to answer in, 10 where not said.
//! - `action` 1 or 2, `repeat`, `corrected-only`, `finished` and the CSW without its first byte,
//!   `restart` and its action, or `refused` and the question's number.
//! - `storage-after`, `restart-program`, `restart-arguments`: what is left; what was lent where not
//!   said.

use super::text::Statement;
use super::{Call, Written};
pub use crate::simulator::held::HeldRecovery as Lent;

#[derive(Clone, Debug, PartialEq, Eq)]
pub enum Answer {
    /// The question's number.
    Refused(u8),
    Action1,
    Action2,
    Repeat,
    CorrectedOnly,
    /// With this CSW.
    Finished([u8; 8]),
    /// By this action.
    Restart(String),
}

/// What is said of a recovery's answer.
#[derive(Clone, Default)]
pub struct Said(Option<Answer>);

impl Call for Said {
    type Lent = Lent;
    type Answer = Answer;

    const CALLS: &'static str = "recoveries";
    const ANSWERS: &'static [&'static str] = &[
        "refused",
        "action",
        "repeat",
        "corrected-only",
        "finished",
        "restart",
    ];
    const REPEATED: &'static [&'static str] = &[];

    fn only_read<'a>(lent: &'a mut Lent, word: &str) -> Option<&'a mut Vec<u8>> {
        Some(match word {
            "chain" => &mut lent.chain,
            "report" => &mut lent.report,
            "extent" => &mut lent.extent,
            _ => return None,
        })
    }

    fn written(lent: &mut Lent) -> Vec<Written<'_>> {
        let (program, arguments) = (&mut lent.program, &mut lent.restart_arguments);
        Written::with_restart(&mut lent.storage, program, arguments)
    }

    fn take(&mut self, lent: &mut Lent, statement: &Statement) -> Result<(), String> {
        self.0 = Some(match statement.word {
            "model" => {
                lent.model = statement.byte_number()?;
                return Ok(());
            }
            "answer-length" => {
                lent.answer_length = statement.number()?;
                return Ok(());
            }
            "refused" => Answer::Refused(statement.number()? as u8),
            "action" => match statement.number()? {
                1 => Answer::Action1,
                2 => Answer::Action2,
                _ => return Err(statement.error("1 or 2 is wanted")),
            },
            "repeat" => Answer::Repeat,
            "corrected-only" => Answer::CorrectedOnly,
            "finished" => Answer::Finished(statement.csw()?),
            "restart" => Answer::Restart(statement.values.join(" ")),
            _ => return Err(statement.error("unknown")),
        });
        Ok(())
    }

    fn answer(self) -> Answer {
        self.0.expect("each case has one")
    }
}

#[cfg(test)]
mod tests {
    use super::*;
    use crate::cases::{text, told, Runner};

    const TEXT: &str = "chain 06\nstorage 01\n\
        case restarts\nrestart 5A\nstorage-after 02\nrestart-program 03\nrestart-arguments 04\n\
        case refuses\nmodel 255\nextent 05\nreport 06\nprogram-lent\nanswer-length 9\nrefused 4\n";

    fn restarts(lent: &mut Lent) -> Answer {
        lent.storage = vec![2];
        lent.program = vec![3];
        lent.restart_arguments = vec![4];
        Answer::Restart("5A".to_string())
    }

    #[test]
    fn what_is_said() {
        let cases = text::read::<Said>(TEXT).unwrap();
        let [restarts, refuses] = &cases[..] else {
            panic!("two cases");
        };
        assert_eq!((restarts.lent.model, refuses.lent.model), (1, 255));
        assert_eq!(restarts.lent.program, [0xA5; 64]);
        assert_eq!(restarts.lent.restart_arguments, [0xA5; 16]);
        assert_eq!(restarts.left.program, [3]);
        assert_eq!(refuses.answer, Answer::Refused(4));
        assert_eq!(refuses.left, refuses.lent);
        let lent = &refuses.lent;
        assert_eq!((&lent.chain[..], &lent.extent[..]), (&[6][..], &[5][..]));
        assert_eq!((&lent.report[..], lent.answer_length), (&[6][..], 9));
        assert!(lent.program.is_empty());
    }

    #[test]
    fn each_answer() {
        let answers = [
            ("action 1", Answer::Action1),
            ("action 2", Answer::Action2),
            ("repeat", Answer::Repeat),
            ("corrected-only", Answer::CorrectedOnly),
            (
                "finished 000008 0C 40 0203",
                Answer::Finished([0, 0, 0, 8, 0x0C, 0x40, 2, 3]),
            ),
            ("restart 10A", Answer::Restart("10A".to_string())),
        ];
        for (said, answer) in answers {
            let cases = text::read::<Said>(&format!("case a\n{said}\n")).unwrap();
            assert_eq!(cases[0].answer, answer);
        }
        assert!(text::read::<Said>("case a\naction 3\n").is_err());
        assert!(text::read::<Said>("model 256\n").is_err());
        assert!(text::read::<Said>("case a\nrestart-program 00\n").is_err());
    }

    #[test]
    fn each_part_is_compared() {
        assert!(told::<Said>(TEXT, restarts).is_empty());
        let all_kept: Runner<Said> = |_| Answer::Restart("5A".to_string());
        let parts = ["storage-after", "restart-program", "restart-arguments"];
        assert_eq!(told::<Said>(TEXT, all_kept), parts);
        let other_action: Runner<Said> = |lent| {
            restarts(lent);
            Answer::Restart("5".to_string())
        };
        assert_eq!(told::<Said>(TEXT, other_action), ["answer"]);
        let report_written: Runner<Said> = |lent| {
            lent.report.push(0);
            restarts(lent)
        };
        let only_read = ["an area that is only read"];
        assert_eq!(told::<Said>(TEXT, report_written), only_read);
    }
}
