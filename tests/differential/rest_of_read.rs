//! The rest of a read that action 9 or 11 goes on with, walked twice: by the chain without an interruption,
//! from the first CCW of the read, and by the restart, from restart CCW 1 through the last TIC into the
//! chain. However long the rest is, each of its bytes must come to the same place in storage, or be
//! skipped, and the read must end alike: in the same program check, or in the same CCW with the same count
//! left.

use crate::simulator::channel::{
    Channel, Program, ProgramCheck, ReadEnd, Restart, Status, Stretch, CCW_LENGTH, RESTART_PROGRAM,
};
use crate::simulator::report::Report;

/// What a restart goes on with: the lent chain and the length of storage, and the report.
#[derive(Clone, Copy)]
pub struct InterruptedRead<'a> {
    pub chain: &'a [u8],
    pub storage: usize,
    pub report: &'a Report,
}

/// The rest of a read, its first byte at place 0.
#[derive(PartialEq)]
struct Rest {
    stretches: Vec<Stretch>,
    end: Result<End, ProgramCheck>,
    /// Of the last CCW fetched.
    last: usize,
}

/// How a read ended.
#[derive(PartialEq)]
struct End {
    /// Address of the current CCW.
    at: usize,
    count_left: usize,
    bytes_left_over: usize,
    is_incorrect_length: bool,
}

impl End {
    fn of(end: ReadEnd) -> End {
        End {
            at: end.ccw.at,
            count_left: end.count_left,
            bytes_left_over: end.bytes_left_over,
            is_incorrect_length: end.is_incorrect_length(),
        }
    }
}

impl InterruptedRead<'_> {
    /// What is otherwise by this restart program than without an interruption.
    pub fn otherwise(self, program: &[u8]) -> Option<&'static str> {
        self.lengths().into_iter().find_map(|length| {
            let [uncut, restarted] = [self.uncut(length), self.restarted(program, length)];
            if uncut.stretches != restarted.stretches {
                Some("the rest of the read goes to other places")
            } else if uncut.end != restarted.end || uncut.last != restarted.last {
                Some("the rest of the read ends otherwise")
            } else {
                None
            }
        })
    }

    /// No byte, one, up to the end of restart CCW 1 and one byte around it, and far more.
    fn lengths(self) -> [usize; 6] {
        let left = self.report.count_left();
        [0, 1, left - 1, left, left + 1, 5 * left + 300]
    }

    fn uncut(self, length: usize) -> Rest {
        let before = self.report.restart_displacement();
        let program = Program::of_chain(self.chain);
        self.walked(program, self.report.first, before, length)
    }

    /// Where it tells of restart CCW 1, the interrupted CCW is meant.
    fn restarted(self, program: &[u8], length: usize) -> Rest {
        let restart = Restart {
            program,
            arguments: &[],
        };
        let in_front = 3 + usize::from(self.report.mask.is_some());
        let ccw_1 = RESTART_PROGRAM + in_front * CCW_LENGTH;
        let program = Program {
            restart: Some(restart),
            ..Program::of_chain(self.chain)
        };
        let mut rest = self.walked(program, ccw_1, 0, length);
        let interrupted = self.report.address() - CCW_LENGTH;
        if rest.last == ccw_1 {
            rest.last = interrupted;
        }
        if let Ok(end) = &mut rest.end {
            if end.at == ccw_1 {
                end.at = interrupted;
            }
        }
        rest
    }

    /// The last `length` bytes of a read with `before` bytes in front of them.
    fn walked(self, program: Program, first: usize, before: usize, length: usize) -> Rest {
        let mut channel = Channel::new(program, self.storage);
        let mut stretches = Vec::new();
        let end = channel.fetch(first).and_then(|first| {
            channel.check_storage(&first)?;
            channel.walk(first, before + length, |stretch| {
                stretches.extend(cut(stretch, before));
            })
        });
        let [_, a0, a1, a2, ..] = channel.csw(Status::ended(0));
        Rest {
            stretches,
            end: end.map(End::of),
            last: u32::from_be_bytes([0, a0, a1, a2]) as usize - CCW_LENGTH,
        }
    }
}

/// What stands at a place of the read or behind it; that place is 0.
fn cut(stretch: Stretch, place: usize) -> Option<Stretch> {
    let length = stretch.length_from(place);
    let taken = stretch.length - length;
    (length > 0).then(|| Stretch {
        from: stretch.from + taken - place,
        length,
        storage: stretch.storage.map(|first| first + taken),
    })
}

#[cfg(test)]
mod tests {
    use super::*;
    use crate::simulator::encode::{self, ccw};
    use crate::simulator::extent::whole_pack;
    use crate::simulator::held::HeldRecovery;
    use crate::simulator::model::Model;

    /// 4 bytes at 0 are read, and 2 of 6 at 4, by flags that chain; 3 at 10 are behind a TIC.
    fn chain(flags: u8) -> [[u8; 8]; 5] {
        [
            ccw(0x06, 0, 0x80, 4),
            ccw(0x06, 4, flags, 6),
            ccw(0x08, 0x20, 0, 0),
            ccw(0x03, 0, 0, 1),
            ccw(0x06, 10, 0x90, 3),
        ]
    }

    fn report(mask: Option<u8>) -> Report {
        let mut sense = [0; 24];
        sense[1] = 0x21;
        sense[3] = 0x06;
        sense[17] = 6;
        Report {
            sense,
            csw: [0, 0, 0, 0x10, 0x0E, 0x40, 0, 4],
            mask,
            seek_argument: Some([0; 6]),
            ..Report::default()
        }
    }

    /// What is otherwise where the program that the simulator builds is changed.
    fn otherwise(
        flags: u8,
        mask: Option<u8>,
        change: impl Fn(&mut [u8], usize),
    ) -> Option<&'static str> {
        let report = report(mask);
        let mut recovery = HeldRecovery {
            chain: chain(flags).concat(),
            report: encode::report(&report),
            extent: whole_pack(Model::One).to_vec(),
            storage: vec![0; 16],
            ..HeldRecovery::default()
        };
        recovery.simulated().expect("the report is accepted");
        let ccw_1 = 0x18 + 8 * usize::from(mask.is_some());
        change(&mut recovery.program, ccw_1);
        let interrupted = InterruptedRead {
            chain: &recovery.chain,
            storage: 16,
            report: &report,
        };
        interrupted.otherwise(&recovery.program)
    }

    #[test]
    fn as_built() {
        for flags in (0..=255).filter(|flags| flags & 0x07 == 0) {
            for mask in [None, Some(0)] {
                assert_eq!(otherwise(flags, mask, |_, _| ()), None, "{flags:02X}");
            }
        }
    }

    #[test]
    fn what_is_not_as_it_must_be() {
        const PLACES: Option<&str> = Some("the rest of the read goes to other places");
        const END: Option<&str> = Some("the rest of the read ends otherwise");
        type Change = fn(&mut [u8], usize);
        let changes: [(u8, Change, Option<&str>); 11] = [
            // Of CCW 1: address, skip, count, SLI, CD; a flag that leaves the bytes where they are.
            (0xC0, |program, at| program[at + 3] -= 1, PLACES),
            (0xC0, |program, at| program[at + 4] ^= 0x10, PLACES),
            (0xD0, |program, at| program[at + 4] ^= 0x10, PLACES),
            (0xC0, |program, at| program[at + 7] += 1, END),
            (0x40, |program, at| program[at + 7] -= 1, END),
            (0x40, |program, at| program[at + 4] ^= 0x20, END),
            (0xC0, |program, at| program[at + 4] ^= 0x80, END),
            (0x40, |program, at| program[at + 4] ^= 0x08, None),
            // Of the last TIC: to the first CCW, to the TIC, none.
            (0x80, |program, at| program[at + 11] = 0, END),
            (0x80, |program, at| program[at + 11] = 0x10, END),
            (0x80, |program, at| program[at + 8..].fill(0), END),
        ];
        for mask in [None, Some(0xC0)] {
            for (place, (flags, change, expected)) in changes.into_iter().enumerate() {
                assert_eq!(otherwise(flags, mask, change), expected, "{place}");
            }
        }
    }

    #[test]
    fn cut_stretches() {
        let stretch = Stretch {
            from: 10,
            length: 5,
            storage: Some(100),
        };
        for (place, from, length, storage) in [(0, 10, 5, 100), (8, 2, 5, 100), (10, 0, 5, 100)] {
            let expected = Stretch {
                from,
                length,
                storage: Some(storage),
            };
            assert_eq!(cut(stretch, place), Some(expected));
        }
        let behind = cut(stretch, 12).expect("three bytes");
        assert_eq!((behind.from, behind.length), (0, 3));
        assert_eq!(behind.storage, Some(102));
        assert_eq!(cut(stretch, 15), None);
        assert_eq!(cut(stretch, 20), None);
    }
}
