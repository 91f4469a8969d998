//! One run given to library and simulator.

use super::{is_off_the_pack, is_sought_off_the_pack, Comparison, Disagreement, Left, Sides};
use crate::arena::Arena;
use crate::calls::{RUN, RUN_RESTART};
use crate::chains::{GeneratedRestart, GeneratedRun};
use crate::library::{self, RestartAreas, RunAreas, ANSWER, ENDED, LIMIT};
use crate::marks::{Mark, Marks};
use crate::random::Random;
use crate::simulator::run::{End, Outcome};
use crate::simulator::Refusal;
use std::mem;

/// The areas of a run, in the order in which they are held here.
const NAMES: [&str; 8] = [
    "chain",
    "arguments",
    "restart program",
    "restart arguments",
    "storage",
    "image",
    "faults",
    "answer",
];

type RunArena = Arena<8>;
type RunLeft = Left<8>;

impl Comparison {
    /// As `run`, on a pack of either model.
    pub fn run_on_any(
        &mut self,
        kind: &'static str,
        run: GeneratedRun,
    ) -> Result<(), Disagreement> {
        let model = self.any_model().number();
        self.run(kind, GeneratedRun { model, ..run })
    }

    /// Compares the answer, all areas and the bytes around them.
    pub fn run(&mut self, kind: &'static str, run: GeneratedRun) -> Result<(), Disagreement> {
        self.run_answering_in(kind, run, ANSWER)
    }

    /// The same with an area of any length to answer in.
    pub fn run_answering_in(
        &mut self,
        kind: &'static str,
        mut run: GeneratedRun,
        answer_length: usize,
    ) -> Result<(), Disagreement> {
        self.run_compared(kind, &mut run, answer_length).map(|_| ())
    }

    /// The same; storage is left as the run leaves it. No outcome where it is refused.
    pub(super) fn run_compared(
        &mut self,
        kind: &'static str,
        run: &mut GeneratedRun,
        answer_length: usize,
    ) -> Result<Option<Outcome>, Disagreement> {
        let call = match run.restart {
            None => RUN,
            Some(_) => RUN_RESTART,
        };
        let lent = lend(&mut Random::new(self.tally.compared), run, answer_length);
        let mut marks = Marks::default();
        let left = by_library(run, run.model, lent.clone());
        let (by_simulator, ran) = by_simulator(run, lent.clone(), &mut marks);
        let sides = Sides {
            names: &NAMES,
            model: run.model,
            limit: (call == RUN).then_some(run.limit),
            by_library: left,
            by_simulator,
            lent,
        };
        if !sides.agree() {
            return Err(sides.told(call, kind, "disagreement", self.tally.compared));
        }
        let is_by_the_end = match &ran {
            Some(Ok(outcome)) => is_sought_off_the_pack(outcome.end),
            Some(Err(refusal)) => is_off_the_pack(*refusal),
            None => false,
        };
        if !is_by_the_end {
            let wrong =
                self.wrong_on_model_11(&sides, |model, arena| by_library(run, model, arena));
            if let Some(wrong) = wrong {
                return Err(sides.told(call, kind, wrong, self.tally.compared));
            }
        }
        let borders = mem::take(&mut marks.borders);
        let number = sides.by_simulator.number;
        if let Some(of_model) = self.tally.count_on(call, kind, run.model, number) {
            of_model.count_marks(call, marks);
        }
        let Some(ran) = ran else {
            return Ok(None);
        };
        let refusal = ran.as_ref().err().copied();
        self.count_rule(Some(run.model), refusal);
        self.see_borders(call, run.model, |seen, model| {
            *seen = borders;
            seen.see_image(model, &run.image, refusal);
            if let Ok(Outcome {
                cut: Some(_),
                sense,
                ..
            }) = &ran
            {
                seen.see_cut(sense);
            }
        });
        Ok(ran.ok())
    }
}

/// Nothing is told of the run where the area to answer in has another length.
fn by_simulator(
    run: &mut GeneratedRun,
    mut arena: RunArena,
    marks: &mut Marks,
) -> (RunLeft, Option<Result<Outcome, Refusal>>) {
    let [.., storage, _, _, answer] = arena.lent();
    if answer.len() != ANSWER {
        marks.see(Mark::AnswerArea(answer.len()));
        return (Left { number: 1, arena }, None);
    }
    let ran = run.watched(marks);
    let number = match &ran {
        Ok(outcome) => {
            marks.see_end(outcome);
            storage.copy_from_slice(&run.storage);
            answer.copy_from_slice(&written(outcome));
            match outcome.end {
                End::Limit => LIMIT,
                _ => ENDED,
            }
        }
        Err(refusal) => refusal.number(),
    };
    (Left { number, arena }, Some(ran))
}

fn lend(random: &mut Random, run: &GeneratedRun, answer_length: usize) -> RunArena {
    let answer = random.bytes(answer_length);
    let (program, restart_arguments): (&[u8], &[u8]) = match &run.restart {
        None => (&[], &[]),
        Some(GeneratedRestart { program, arguments }) => (program, arguments),
    };
    let areas = [
        &run.chain,
        &run.arguments,
        program,
        restart_arguments,
        &run.storage,
        &run.image,
        &run.faults,
        &answer,
    ];
    Arena::new(random, areas)
}

fn by_library(run: &GeneratedRun, model: u8, mut arena: RunArena) -> RunLeft {
    let [chain, arguments, program, restart_arguments, storage, image, faults, answer] =
        arena.lent();
    let areas = RunAreas {
        chain,
        arguments,
        storage,
        image,
        faults,
    };
    let number = match run.restart {
        None => library::run(model, areas, run.limit, answer),
        Some(_) => {
            let restart = RestartAreas {
                program,
                arguments: restart_arguments,
            };
            library::run_restart(model, areas, restart, answer)
        }
    };
    Left { number, arena }
}

/// An outcome as the library writes it.
fn written(outcome: &Outcome) -> [u8; ANSWER] {
    let cut = outcome.cut.unwrap_or(0) as u16;
    let mut answer = [0; ANSWER];
    answer[..8].copy_from_slice(&outcome.csw);
    answer[8..32].copy_from_slice(&outcome.sense);
    answer[32] = outcome.mask.is_some().into();
    answer[33] = outcome.mask.unwrap_or(0);
    answer[34..].copy_from_slice(&cut.to_be_bytes());
    answer
}
