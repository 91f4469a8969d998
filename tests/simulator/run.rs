//! A run: a chain over an image with a fault list, from its first CCW or from a restart program.

use super::areas::{check_restart, check_run, RunSizes};
use super::channel::{
    Ccw, Channel, Program, ProgramCheck, ReadEnd, Restart, Status, Stretch, CCW_LENGTH,
    CHANNEL_INCORRECT_LENGTH, FLAG_CHAIN_COMMAND, FLAG_CHAIN_DATA, UNIT_CHECK, UNIT_EXCEPTION,
};
use super::drive::{
    data_check_sense, Arriving, Done, Drive, Operand, Sense, UnitCheck, NO_OPERATION,
};
use super::model::Model;
use super::pack::TrackAddress;
use super::{check_faults, Refusal};

pub const RESTARTED_LIMIT: usize = 8_192;

/// The areas that a run only reads, and the number of the pack's model.
#[derive(Clone, Copy, Debug)]
pub struct Lent<'a> {
    pub model: u8,
    pub chain: &'a [u8],
    pub arguments: &'a [u8],
    pub image: &'a [u8],
    pub faults: &'a [u8],
}

impl<'a> Lent<'a> {
    /// Question 1.
    pub fn check(&self, storage: usize, limit: usize) -> Result<Model, Refusal> {
        let model = Model::check(self.model)?;
        check_run(RunSizes {
            chain: self.chain.len(),
            arguments: self.arguments.len(),
            storage,
            image: self.image.len(),
            faults: self.faults.len(),
            limit,
        })?;
        Ok(model)
    }

    pub fn program(&self, restart: Option<Restart<'a>>) -> Program<'a> {
        Program {
            chain: self.chain,
            arguments: self.arguments,
            restart,
        }
    }
}

/// Why a run ended.
#[derive(Clone, Copy, Debug, PartialEq, Eq, PartialOrd, Ord)]
pub enum End {
    /// The last command had no CC.
    Chain,
    IncorrectLength,
    /// Data length 0, with incorrect length or without.
    UnitException,
    ProgramCheck(ProgramCheck),
    UnitCheck(UnitCheck),
    /// A faulted data area, with incorrect length or without.
    Cut,
    Limit,
}

impl End {
    pub fn all() -> Vec<End> {
        let alone = [
            End::Chain,
            End::IncorrectLength,
            End::UnitException,
            End::Cut,
            End::Limit,
        ];
        (alone.into_iter())
            .chain(ProgramCheck::ALL.iter().copied().map(End::ProgramCheck))
            .chain(UnitCheck::all().into_iter().map(End::UnitCheck))
            .collect()
    }
}

/// A data area that a 06, 0E or 1E took, or the multitrack form of one.
#[derive(Clone, Copy, Debug, PartialEq, Eq)]
pub struct TakenArea {
    pub track: TrackAddress,
    /// The record number R.
    pub number: u8,
    /// Whether the fault list names it.
    pub faulted: bool,
    /// How many of its bytes went to storage.
    pub stored: usize,
}

#[derive(Clone, Debug, PartialEq, Eq)]
pub struct Outcome {
    pub end: End,
    pub csw: [u8; 8],
    /// Zeros where no unit check ended the run.
    pub sense: Sense,
    /// None where no mask was set.
    pub mask: Option<u8>,
    /// Address of the first CCW of the read that a faulted data area cut.
    pub cut: Option<usize>,
    /// In the order in which they were taken.
    pub taken: Vec<TakenArea>,
}

/// Who is told what a run does while it does it; `()` does not listen.
pub trait Watch {
    /// A CCW was fetched for a command; whether it is a program check is asked next.
    fn begin(&mut self, _ccw: &Ccw, _drive: &Drive) {}

    /// The drive has seen a command, and is as that left it; the argument is that of a control or
    /// search command.
    fn command(
        &mut self,
        _ccw: &Ccw,
        _argument: &[u8],
        _done: &Result<Done, UnitCheck>,
        _drive: &Drive,
    ) {
    }

    /// A CCW has taken bytes of the read that the drive has just seen.
    fn stretch(&mut self, _stretch: &Stretch) {}

    /// That read has ended, and not in a program check.
    fn read_end(&mut self, _end: &ReadEnd) {}
}

impl Watch for () {}

/// Questions 1, 2 and 3, then a run from the chain's first CCW. A refusal leaves storage.
pub fn run(lent: Lent, storage: &mut [u8], limit: usize) -> Result<Outcome, Refusal> {
    run_watched(lent, storage, limit, &mut ())
}

/// The same, and `watch` is told of the run.
pub fn run_watched(
    lent: Lent,
    storage: &mut [u8],
    limit: usize,
    watch: &mut impl Watch,
) -> Result<Outcome, Refusal> {
    let model = lent.check(storage.len(), limit)?;
    let (pack, faults) = check_faults(lent.model, lent.image, lent.faults)?;
    let drive = Drive::new(&pack, &faults, model);
    Ok(run_drive(drive, lent.program(None), storage, limit, watch))
}

/// As `run`, from a restart program and with a restarted run's limit.
pub fn run_restarted(lent: Lent, restart: Restart, storage: &mut [u8]) -> Result<Outcome, Refusal> {
    run_restarted_watched(lent, restart, storage, &mut ())
}

/// The same, and `watch` is told of the run.
pub fn run_restarted_watched(
    lent: Lent,
    restart: Restart,
    storage: &mut [u8],
    watch: &mut impl Watch,
) -> Result<Outcome, Refusal> {
    // The chain's own limit is not lent here: 1 is as good as any.
    let model = lent.check(storage.len(), 1)?;
    check_restart(restart.program.len(), restart.arguments.len())?;
    let (pack, faults) = check_faults(lent.model, lent.image, lent.faults)?;
    let drive = Drive::new(&pack, &faults, model);
    let program = lent.program(Some(restart));
    Ok(run_drive(drive, program, storage, RESTARTED_LIMIT, watch))
}

/// A run with nothing left to ask: the drive is new, the areas are as they must be.
pub fn run_drive(
    drive: Drive,
    program: Program,
    storage: &mut [u8],
    limit: usize,
    watch: &mut impl Watch,
) -> Outcome {
    Machine {
        channel: Channel::new(program, storage.len()),
        drive,
        storage,
        watch,
        sense: [0; 24],
        cut: None,
        taken: Vec::new(),
    }
    .run(limit)
}

/// What a command leads to.
enum Then {
    /// The next CCW is at this address.
    GoOn(usize),
    End(End),
}

impl Then {
    fn chained(current: &Ccw, next: usize) -> Then {
        if current.has(FLAG_CHAIN_COMMAND) {
            Then::GoOn(next)
        } else {
            Then::End(End::Chain)
        }
    }
}

struct Machine<'a, W> {
    channel: Channel<'a>,
    drive: Drive<'a>,
    storage: &'a mut [u8],
    watch: &'a mut W,
    sense: Sense,
    cut: Option<usize>,
    taken: Vec<TakenArea>,
}

impl<W: Watch> Machine<'_, W> {
    fn run(mut self, limit: usize) -> Outcome {
        let mut fetched = self.channel.fetch_first();
        let mut begun = 0;
        loop {
            let done = fetched.and_then(|ccw| self.command(ccw));
            let (status, then) = done.unwrap_or_else(|check| {
                let end = End::ProgramCheck(check);
                (Status::PROGRAM_CHECK, Then::End(end))
            });
            begun += 1;
            match then {
                Then::End(end) => return self.outcome(end, status),
                Then::GoOn(_) if begun == limit => return self.outcome(End::Limit, status),
                Then::GoOn(at) => fetched = self.channel.fetch(at),
            }
        }
    }

    fn outcome(self, end: End, status: Status) -> Outcome {
        Outcome {
            end,
            csw: self.channel.csw(status),
            sense: self.sense,
            mask: self.drive.mask(),
            cut: self.cut,
            taken: self.taken,
        }
    }

    fn command(&mut self, ccw: Ccw) -> Result<(Status, Then), ProgramCheck> {
        self.watch.begin(&ccw, &self.drive);
        let argument = match Operand::of(ccw.command) {
            Operand::Nothing => &[],
            Operand::Argument => self.channel.argument(&ccw)?,
            Operand::Storage => {
                self.channel.check_storage(&ccw)?;
                &[]
            }
        };
        let chained_data = ccw.has(FLAG_CHAIN_DATA);
        let done = self.drive.execute(ccw.command, argument, chained_data);
        self.watch.command(&ccw, argument, &done, &self.drive);
        match done {
            Ok(Done::Control) => {
                let count_left = match ccw.command {
                    NO_OPERATION => ccw.count,
                    _ => 0,
                };
                let then = Then::chained(&ccw, ccw.behind());
                Ok((Status::ended(count_left), then))
            }
            Ok(Done::Search { equal }) => {
                let skipped = if equal { CCW_LENGTH } else { 0 };
                let then = Then::chained(&ccw, ccw.behind() + skipped);
                Ok((Status::ended(0), then))
            }
            Ok(Done::Read(arriving)) => self.read(ccw, arriving),
            Err(check) => {
                self.sense = check.sense(self.drive.track().head);
                let mut status = Status::ended(ccw.count);
                status.unit |= UNIT_CHECK;
                Ok((status, Then::End(End::UnitCheck(check))))
            }
        }
    }

    fn read(&mut self, first: Ccw, arriving: Arriving) -> Result<(Status, Then), ProgramCheck> {
        let mut stored = 0;
        let walked = self.channel.walk(first, arriving.length(), |stretch| {
            self.watch.stretch(&stretch);
            if let Some(at) = stretch.storage {
                arriving.copy_to(stretch.from, &mut self.storage[at..at + stretch.length]);
                stored += stretch.length_from(arriving.data_start());
            }
        });
        let fault = arriving.data_area.and_then(|area| area.fault);
        if let Some(area) = arriving.data_area {
            self.taken.push(TakenArea {
                track: area.track,
                number: area.number,
                faulted: fault.is_some(),
                stored,
            });
        }
        let end = walked?;
        self.watch.read_end(&end);
        let mut status = Status::ended(end.count_left);
        if end.is_incorrect_length() {
            status.channel |= CHANNEL_INCORRECT_LENGTH;
        }
        let then = if let Some(fault) = fault {
            status.unit |= UNIT_CHECK;
            self.sense = data_check_sense(fault, arriving.length(), end.bytes_left_over > 0);
            self.cut = Some(first.at);
            Then::End(End::Cut)
        } else if arriving.is_unit_exception() {
            status.unit |= UNIT_EXCEPTION;
            Then::End(End::UnitException)
        } else if end.is_incorrect_length() {
            Then::End(End::IncorrectLength)
        } else {
            Then::chained(&end.ccw, end.ccw.behind())
        };
        Ok((status, then))
    }
}

#[cfg(test)]
mod tests {
    use super::*;
    use crate::simulator::large::cylinder_of;
    use crate::simulator::{answer, encode, sample};

    const SAMPLE: Lent = Lent {
        model: 1,
        chain: &sample::CHAIN,
        arguments: &sample::ARGUMENTS,
        image: &sample::IMAGE,
        faults: &sample::FAULTS,
    };

    fn area(number: u8, faulted: bool) -> TakenArea {
        TakenArea {
            track: TrackAddress {
                cylinder: 0,
                head: 1,
            },
            number,
            faulted,
            stored: 4,
        }
    }

    /// The restart of the sample's cut, by action 5A.
    fn restart_areas() -> (Vec<u8>, [u8; 16]) {
        let mut program = [
            encode::ccw(0x07, 0x2000, 0x40, 6),
            encode::ccw(0x23, 0x2007, 0x40, 1),
            encode::ccw(0x31, 0x2008, 0x40, 5),
            encode::ccw(0x08, 0x1010, 0, 0),
            encode::ccw(0x12, 0, 0x50, 8),
            encode::ccw(0x08, 0x0020, 0, 0),
        ]
        .concat();
        program.resize(64, 0);
        let mut arguments = [0; 16];
        arguments[5] = 1;
        arguments[11..13].copy_from_slice(&[1, 1]);
        (program, arguments)
    }

    #[test]
    fn sample_is_cut() {
        let mut storage = [0; 16];
        let outcome = run(SAMPLE, &mut storage, 4_096).unwrap();
        assert_eq!(outcome.end, End::Cut);
        assert_eq!(outcome.csw, [0, 0, 0, 0x20, 0x0E, 0, 0, 0]);
        assert_eq!((outcome.cut, outcome.mask), (Some(0x18), None));
        assert_eq!(outcome.sense[..3], [0x08, 0, 0x40]);
        assert_eq!(outcome.taken, [area(1, true)]);
        assert_eq!(storage[..5], [0xC1, 0xC2, 0xC2, 0xC4, 0]);
    }

    #[test]
    fn sample_goes_on_behind_its_restart() {
        let (program, arguments) = restart_areas();
        let restart = Restart {
            program: &program,
            arguments: &arguments,
        };
        let mut storage = [0; 8];
        let outcome = run_restarted(SAMPLE, restart, &mut storage).unwrap();
        assert_eq!(outcome.end, End::Chain);
        assert_eq!(outcome.csw, [0, 0, 0, 0x28, 0x0C, 0, 0, 0]);
        assert_eq!((outcome.cut, outcome.sense), (None, [0; 24]));
        assert_eq!(outcome.taken, [area(2, false)]);
        assert_eq!(storage, [0, 0, 0, 0, 0xD1, 0xD2, 0xD3, 0xD4]);
    }

    #[test]
    fn refused_and_nothing_changed() {
        let number = |lent: Lent, limit| {
            let mut storage = [0xEE; 16];
            let number = answer(&run(lent, &mut storage, limit));
            assert!(number == 0 || storage == [0xEE; 16]);
            number
        };
        assert_eq!(number(SAMPLE, 4_096), 0);
        assert_eq!(number(SAMPLE, 0), 1);
        let torn = &sample::IMAGE[..56];
        assert_eq!(
            number(
                Lent {
                    image: torn,
                    ..SAMPLE
                },
                1
            ),
            2
        );
        assert_eq!(
            number(
                Lent {
                    faults: &[0],
                    ..SAMPLE
                },
                1
            ),
            3
        );
        assert_eq!(
            number(
                Lent {
                    chain: &[],
                    ..SAMPLE
                },
                1
            ),
            1
        );
        for model in [0, 2, 10, 12, 255] {
            let image = &sample::IMAGE[..56];
            assert_eq!(number(Lent { model, ..SAMPLE }, 1), 1);
            let torn = Lent {
                model,
                image,
                ..SAMPLE
            };
            assert_eq!(number(torn, 1), 1);
        }
    }

    #[test]
    fn restart_areas_are_asked_for() {
        let (program, arguments) = restart_areas();
        for (program, arguments) in [(&program[..63], &arguments[..]), (&program, &[])] {
            let restart = Restart { program, arguments };
            let refused = run_restarted(SAMPLE, restart, &mut [0; 8]);
            assert_eq!(answer(&refused), 1);
        }
        let restart = Restart {
            program: &program,
            arguments: &arguments,
        };
        for (model, number) in [(0, 1), (1, 0), (2, 1), (11, 0), (12, 1)] {
            let ran = run_restarted(Lent { model, ..SAMPLE }, restart, &mut [0; 8]);
            assert_eq!(answer(&ran), number);
        }
    }

    /// Two steps to R1 of a head, the last or not, then a mask, R1 again and one command more.
    #[test]
    fn head_in_the_sense_of_a_protected_step_alone() {
        let arguments = [&[0x18, 0, 0, 0, 0, 0, 16][..], &[0, 0, 0, 0, 0, 3]].concat();
        let [read, seek] = [encode::ccw(0x92, 0, 0x10, 8), encode::ccw(0x07, 7, 0, 6)];
        let [search, rejected] = [5, 4].map(|count| encode::ccw(0xB1, 0, 0, count));
        for (sought, head, last, on) in [
            (1, 18, read, &[(1, 0x20)][..]),
            (7, 5, read, &[(1, 0x04), (6, 5)]),
            (7, 5, search, &[(1, 0x04), (6, 5)]),
            (7, 5, seek, &[(1, 0x04)]),
            (7, 5, rejected, &[(0, 0x80)]),
        ] {
            let chain = [
                encode::ccw(0x07, sought, 0x40, 6),
                encode::ccw(0x92, 0, 0x50, 8),
                encode::ccw(0x1F, 0, 0x40, 1),
                encode::ccw(0x92, 0, 0x50, 8),
                last,
            ]
            .concat();
            let image = cylinder_of(|on| u8::from(on == head), 1);
            let lent = Lent {
                model: 1,
                chain: &chain,
                arguments: &arguments,
                image: &image,
                faults: &[],
            };
            let outcome = run(lent, &mut [], 4_096).unwrap();
            let mut sense = [0; 24];
            for &(byte, value) in on {
                sense[byte] = value;
            }
            assert_eq!((outcome.sense, outcome.csw[3]), (sense, 0x28));
        }
    }

    #[test]
    fn limit_is_the_callers() {
        let no_faults = Lent {
            faults: &[],
            ..SAMPLE
        };
        for (limit, end, csw) in [
            (1, End::Limit, [0, 0, 0, 0x08, 0x0C, 0, 0, 0]),
            (3, End::Limit, [0, 0, 0, 0x10, 0x0C, 0, 0, 0]),
            (4, End::Limit, [0, 0, 0, 0x20, 0x0C, 0, 0, 0]),
            (5, End::Chain, [0, 0, 0, 0x28, 0x0C, 0, 0, 0]),
        ] {
            let outcome = run(no_faults, &mut [0; 8], limit).unwrap();
            assert_eq!((outcome.end, outcome.csw), (end, csw));
        }
    }

    #[test]
    fn last_cylinder_is_the_models() {
        let chain = encode::ccw(0x07, 0, 0, 6);
        for (cylinder, one, eleven) in [
            (410, 0x0C, 0x0C),
            (411, 0x0E, 0x0C),
            (814, 0x0E, 0x0C),
            (815, 0x0E, 0x0E),
        ] {
            let [c0, c1] = u16::to_be_bytes(cylinder);
            for (model, unit) in [(1, one), (11, eleven)] {
                let lent = Lent {
                    model,
                    chain: &chain,
                    arguments: &[0, 0, c0, c1, 0, 18],
                    ..SAMPLE
                };
                let outcome = run(lent, &mut [], 1).unwrap();
                assert_eq!(outcome.csw[4], unit);
            }
        }
    }
}
