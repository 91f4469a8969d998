//! Whole readings written by hand.
//!
//! How they are written, besides what `text` says:
//! - `model`: the pack's, a decimal number up to 255; 1 where not said.
//! - `chain`, `arguments`, `storage`, `image`, `faults`, `extent`: bytes lent; none where not said.
//! - `command-limit`: the chain's, 4096 where not said.
//! - `program-lent`, `arguments-lent`: what the restart areas hold before; 64 and 16 bytes A5 where
//!   not said.
//! - `list-length`, `answer-length`: bytes of the recoveries' list, 6 for each command of the limit
//!   where not said, and of the area to answer in, 11 where not said.
//! - `end` or `limit`: the CSW without its first byte. Or `stopped`, the number that stopped the
//!   reading, and the same. Or `refused` and the question's number.
//! - `action`: 5 or 5A, then cylinder, head and R; one statement for each recovery in order.
//! - `storage-after`, `restart-program`, `restart-arguments`: what is left; what was lent where not
//!   said.

use super::text::Statement;
use super::{Call, Written};
pub use crate::simulator::held::HeldReading as Lent;
use crate::simulator::held::RECOVERY_ENTRY;

#[derive(Clone, Copy, Debug, Default, PartialEq, Eq)]
pub enum Ending {
    #[default]
    End,
    Limit,
    /// By this number.
    Stopped(u8),
}

#[derive(Clone, Debug, PartialEq, Eq)]
pub enum Answer {
    /// The question's number.
    Refused(u8),
    Read(Read),
}

/// What comes out of a reading besides its areas.
#[derive(Clone, Debug, Default, PartialEq, Eq)]
pub struct Read {
    pub ending: Ending,
    pub csw: [u8; 8],
    /// In order, each as `recovery` writes it.
    pub recoveries: Vec<String>,
}

/// A recovery as document 01's program prints it behind the word "action".
pub fn recovery(action: &str, cylinder: u16, head: u16, number: u8) -> String {
    format!("{action} {cylinder:03} {head:02} {number:03}")
}

/// What is said of a reading's answer.
#[derive(Clone, Default)]
pub struct Said {
    refused: Option<u8>,
    read: Read,
    /// Whether the list has another length than the limit asks for.
    has_list_length: bool,
}

impl Call for Said {
    type Lent = Lent;
    type Answer = Answer;

    const CALLS: &'static str = "readings";
    const ANSWERS: &'static [&'static str] = &["end", "limit", "stopped", "refused"];
    const REPEATED: &'static [&'static str] = &["action"];

    fn only_read<'a>(lent: &'a mut Lent, word: &str) -> Option<&'a mut Vec<u8>> {
        Some(match word {
            "chain" => &mut lent.chain,
            "arguments" => &mut lent.arguments,
            "image" => &mut lent.image,
            "faults" => &mut lent.faults,
            "extent" => &mut lent.extent,
            _ => return None,
        })
    }

    fn written(lent: &mut Lent) -> Vec<Written<'_>> {
        let (program, arguments) = (&mut lent.program, &mut lent.restart_arguments);
        Written::with_restart(&mut lent.storage, program, arguments)
    }

    fn take(&mut self, lent: &mut Lent, statement: &Statement) -> Result<(), String> {
        match statement.word {
            "model" => lent.model = statement.byte_number()?,
            "command-limit" => {
                lent.limit = statement.number()?;
                if !self.has_list_length {
                    lent.list_length = RECOVERY_ENTRY * lent.limit;
                }
            }
            "list-length" => {
                lent.list_length = statement.number()?;
                self.has_list_length = true;
            }
            "answer-length" => lent.answer_length = statement.number()?,
            "end" => self.ended(Ending::End, statement)?,
            "limit" => self.ended(Ending::Limit, statement)?,
            "stopped" => {
                let (number, csw) = statement.number_first()?;
                self.ended(Ending::Stopped(number as u8), &csw)?;
            }
            "refused" => self.refused = Some(statement.number()? as u8),
            "action" => self.read.recoveries.push(statement.values.join(" ")),
            _ => return Err(statement.error("unknown")),
        }
        Ok(())
    }

    fn answer(self) -> Answer {
        (self.refused).map_or(Answer::Read(self.read), Answer::Refused)
    }
}

impl Said {
    fn ended(&mut self, ending: Ending, csw: &Statement) -> Result<(), String> {
        self.read.ending = ending;
        self.read.csw = csw.csw()?;
        Ok(())
    }
}

#[cfg(test)]
mod tests {
    use super::*;
    use crate::cases::{text, told, Runner};

    const TEXT: &str = "chain 06\nstorage 01\narguments 07\nimage 08\nfaults 09\nextent 0A\n\
        case stops\nstopped 9 000020 0E 00 0203\naction 5A 000 01 001\naction 5 410 18 255\n\
        storage-after 02\nrestart-program 03\nrestart-arguments 04\ncommand-limit 7\n\
        case refuses\nmodel 11\nprogram-lent\narguments-lent 05\nlist-length 9\n\
        answer-length 10\nrefused 3\n";

    fn stopped() -> Answer {
        Answer::Read(Read {
            ending: Ending::Stopped(9),
            csw: [0, 0, 0, 0x20, 0x0E, 0, 2, 3],
            recoveries: vec![recovery("5A", 0, 1, 1), recovery("5", 410, 18, 255)],
        })
    }

    fn stops(lent: &mut Lent) -> Answer {
        lent.storage = vec![2];
        lent.program = vec![3];
        lent.restart_arguments = vec![4];
        stopped()
    }

    #[test]
    fn what_is_said() {
        let cases = text::read::<Said>(TEXT).unwrap();
        let [stops, refuses] = &cases[..] else {
            panic!("two cases");
        };
        assert_eq!(stops.answer, stopped());
        assert_eq!((stops.lent.model, refuses.lent.model), (1, 11));
        assert_eq!((stops.lent.limit, stops.lent.list_length), (7, 42));
        assert_eq!(stops.lent.program, [0xA5; 64]);
        assert_eq!(stops.lent.restart_arguments, [0xA5; 16]);
        assert_eq!(stops.left.program, [3]);
        assert_eq!(refuses.answer, Answer::Refused(3));
        assert_eq!(refuses.left, refuses.lent);
        let lent = &refuses.lent;
        assert_eq!((lent.list_length, lent.answer_length), (9, 10));
        let only_read = [
            &lent.chain,
            &lent.arguments,
            &lent.image,
            &lent.faults,
            &lent.extent,
        ];
        assert_eq!(only_read, [&[6], &[7], &[8], &[9], &[10]]);
        assert_eq!(
            (&lent.program[..], &lent.restart_arguments[..]),
            (&[][..], &[5][..])
        );
    }

    #[test]
    fn each_ending() {
        for (said, ending) in [
            ("end", Ending::End),
            ("limit", Ending::Limit),
            ("stopped 2", Ending::Stopped(2)),
        ] {
            let text = format!("case a\n{said} 000008 0C 40 0203\n");
            let Answer::Read(read) = &text::read::<Said>(&text).unwrap()[0].answer else {
                panic!("not refused");
            };
            assert_eq!(
                (read.ending, read.csw),
                (ending, [0, 0, 0, 8, 0x0C, 0x40, 2, 3])
            );
            assert!(read.recoveries.is_empty());
        }
        for wrong in ["stopped", "stopped x 00*7", "stopped 2 00*6", "action 5"] {
            assert!(text::read::<Said>(&format!("case a\n{wrong}\n")).is_err());
        }
        assert!(text::read::<Said>("model 256\n").is_err());
    }

    #[test]
    fn each_part_is_compared() {
        assert!(told::<Said>(TEXT, stops).is_empty());
        let parts = ["storage-after", "restart-program", "restart-arguments"];
        assert_eq!(told::<Said>(TEXT, |_| stopped()), parts);
        let one_less: Runner<Said> = |lent| {
            let Answer::Read(mut read) = stops(lent) else {
                unreachable!("not refused");
            };
            read.recoveries.pop();
            Answer::Read(read)
        };
        assert_eq!(told::<Said>(TEXT, one_less), ["answer"]);
        let image_written: Runner<Said> = |lent| {
            lent.image.push(0);
            stops(lent)
        };
        let only_read = ["an area that is only read"];
        assert_eq!(told::<Said>(TEXT, image_written), only_read);
    }
}
