//! One whole reading given to library and simulator, and demand 3 asked of the library.

use super::{is_off_the_pack, is_sought_off_the_pack, Comparison, Disagreement, Left, Sides};
use crate::arena::Arena;
use crate::border_marks::Borders;
use crate::calls::READING;
use crate::demand::{self, Faultless};
use crate::lendings::GeneratedReading;
use crate::library::{self, ReadingAreas, RestartAreas, RunAreas, ACTION_5, ACTION_5A};
use crate::models::model_of;
use crate::random::Random;
use crate::reading_marks::{marks_of, ReadingMark};
use crate::simulator::channel::Ccw;
use crate::simulator::drive::{is_multitrack, Done, Drive, UnitCheck};
use crate::simulator::held::{READING_ANSWER, RECOVERY_ENTRY};
use crate::simulator::reading::{read_watched, Areas, End, Lent, Reading, Recovery};
use crate::simulator::recovery::RestartAction;
use crate::simulator::run::Watch;
use crate::simulator::{encode, run, Refusal};

/// The areas of a reading, in the order in which they are held here.
const NAMES: [&str; 10] = [
    "chain",
    "arguments",
    "storage",
    "image",
    "faults",
    "extent",
    "restart program",
    "restart arguments",
    "list",
    "answer",
];

type ReadingArena = Arena<10>;
type ReadingLeft = Left<10>;

impl ReadingLeft {
    fn for_demand(&self, lent: &GeneratedReading) -> demand::Left<'_> {
        let [_, _, storage, _, _, _, program, restart_arguments, list, answer] = self.arena.areas();
        let is_built = program != lent.program;
        demand::Left {
            ended: self.number == library::ENDED,
            storage,
            restart_arguments: is_built.then_some(restart_arguments),
            list,
            answer,
        }
    }
}

#[derive(Default)]
struct Watched {
    /// Whether a command of a multitrack code was begun, done or not.
    is_multitrack: bool,
    borders: Borders,
}

impl Watch for Watched {
    fn command(
        &mut self,
        ccw: &Ccw,
        argument: &[u8],
        done: &Result<Done, UnitCheck>,
        drive: &Drive,
    ) {
        self.is_multitrack |= is_multitrack(ccw.command);
        self.borders.command(ccw, argument, done, drive);
    }
}

impl Comparison {
    /// As `reading`, on a pack of either model.
    pub fn reading_on_any(
        &mut self,
        kind: &'static str,
        reading: &GeneratedReading,
    ) -> Result<(), Disagreement> {
        let model = self.any_model().number();
        let reading = GeneratedReading {
            model,
            ..reading.clone()
        };
        self.reading(kind, &reading)
    }

    /// Compares the answer, all areas and the bytes around them; then asks demand 3.
    pub fn reading(
        &mut self,
        kind: &'static str,
        reading: &GeneratedReading,
    ) -> Result<(), Disagreement> {
        let lent = lend(&mut Random::new(self.tally.compared), reading);
        let mut watched = Watched::default();
        let (by_simulator, read) = by_simulator(reading, lent.clone(), &mut watched);
        let sides = Sides {
            names: &NAMES,
            model: reading.model,
            limit: Some(reading.limit),
            by_library: by_library(reading, reading.model, lent.clone()),
            by_simulator,
            lent,
        };
        let before = self.tally.compared;
        if !sides.agree() {
            return Err(sides.told(READING, kind, "disagreement", before));
        }
        let is_by_the_end = match &read {
            Ok(Reading {
                end: End::Run(end), ..
            }) => is_sought_off_the_pack(*end),
            Err(ReadingMark::Refused(refusal)) => is_off_the_pack(*refusal),
            _ => false,
        };
        if !is_by_the_end {
            let again = |model, arena| by_library(reading, model, arena);
            if let Some(wrong) = self.wrong_on_model_11(&sides, again) {
                return Err(sides.told(READING, kind, wrong, before));
            }
        }
        let number = sides.by_simulator.number;
        let of_model = self.tally.count_on(READING, kind, reading.model, number);
        let read = match read {
            Ok(read) => read,
            Err(refused) => {
                if let Some(of_model) = of_model {
                    of_model.count_reading_marks([refused]);
                }
                if let ReadingMark::Refused(refusal) = refused {
                    self.see_areas(reading, Borders::default(), Some(refusal));
                }
                return Ok(());
            }
        };
        let faultless = Faultless::of(reading);
        if let Ok(faultless) = &faultless {
            if let Some(otherwise) = faultless.otherwise(sides.by_library.for_demand(reading)) {
                let what = format!("demand 3, {otherwise},");
                return Err(sides.told(READING, kind, &what, before));
            }
        }
        let Watched {
            is_multitrack,
            mut borders,
        } = watched;
        borders.see_reading(&read, faultless.is_ok());
        self.see_areas(reading, borders, None);
        let of_model = self.tally.on(model_of(reading.model));
        of_model.count_reading(read.recoveries.len(), faultless.is_ok(), is_multitrack);
        of_model.count_reading_marks(marks_of(reading, &read, &faultless));
        Ok(())
    }

    /// Counts these borders with those of image and extent.
    fn see_areas(
        &mut self,
        reading: &GeneratedReading,
        borders: Borders,
        refusal: Option<Refusal>,
    ) {
        self.see_borders(READING, reading.model, |seen, model| {
            *seen = borders;
            seen.see_image(model, &reading.image, refusal);
            seen.see_extent(model, &reading.extent, refusal);
        });
    }
}

fn lend(random: &mut Random, reading: &GeneratedReading) -> ReadingArena {
    let list = random.bytes(reading.list_length);
    let answer = random.bytes(reading.answer_length);
    let areas = [
        &reading.chain[..],
        &reading.arguments,
        &reading.storage,
        &reading.image,
        &reading.faults,
        &reading.extent,
        &reading.program,
        &reading.restart_arguments,
        &list,
        &answer,
    ];
    Arena::new(random, areas)
}

fn by_library(reading: &GeneratedReading, model: u8, mut arena: ReadingArena) -> ReadingLeft {
    let [chain, arguments, storage, image, faults, extent, program, restart_arguments, list, answer] =
        arena.lent();
    let areas = ReadingAreas {
        run: RunAreas {
            chain,
            arguments,
            storage,
            image,
            faults,
        },
        extent,
        restart: RestartAreas {
            program,
            arguments: restart_arguments,
        },
        list,
    };
    let number = library::read(model, areas, reading.limit, answer);
    Left { number, arena }
}

/// Beside what is left: the reading, or what it was refused for.
fn by_simulator(
    reading: &GeneratedReading,
    mut arena: ReadingArena,
    watch: &mut impl Watch,
) -> (ReadingLeft, Result<Reading, ReadingMark>) {
    let [chain, arguments, storage, image, faults, extent, program, restart_arguments, list, answer] =
        arena.lent();
    let needed = RECOVERY_ENTRY.saturating_mul(reading.limit);
    let short_by = needed.saturating_sub(list.len());
    let lent = Lent {
        run: run::Lent {
            model: reading.model,
            chain,
            arguments,
            image,
            faults,
        },
        extent,
    };
    let areas = Areas {
        storage,
        program,
        restart_arguments,
    };
    let (number, read) = if answer.len() != READING_ANSWER {
        (1, Err(ReadingMark::AnswerArea(answer.len())))
    } else if short_by > 0 {
        (1, Err(ReadingMark::ListShortBy(short_by)))
    } else {
        match read_watched(lent, areas, reading.limit, watch) {
            Ok(read) => (write(&read, list, answer), Ok(read)),
            Err(refusal) => (refusal.number(), Err(ReadingMark::Refused(refusal))),
        }
    };
    (Left { number, arena }, read)
}

/// Writes a reading as the library does, and gives its number.
fn write(read: &Reading, list: &mut [u8], answer: &mut [u8]) -> u8 {
    let entries = list.chunks_mut(RECOVERY_ENTRY);
    for (recovery, entry) in read.recoveries.iter().zip(entries) {
        entry.copy_from_slice(&written(recovery));
    }
    let (number, stopped) = match read.end {
        End::Run(_) | End::Finished | End::CorrectedOnly => (library::ENDED, 0),
        End::Limit(_) => (library::LIMIT, 0),
        End::Stopped(stop) => (library::STOPPED, stop.number()),
    };
    let made = read.recoveries.len() as u16;
    answer[..8].copy_from_slice(&read.csw);
    answer[8..10].copy_from_slice(&made.to_be_bytes());
    answer[10] = stopped;
    number
}

fn written(recovery: &Recovery) -> [u8; RECOVERY_ENTRY] {
    let action = match recovery.action() {
        RestartAction::FiveA => ACTION_5A,
        _ => ACTION_5,
    };
    let [c0, c1, h0, h1] = encode::track_address(recovery.track());
    [action, c0, c1, h0, h1, recovery.number()]
}
