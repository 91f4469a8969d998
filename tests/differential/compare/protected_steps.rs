//! A chain whose steps the file mask forbids, run on by library and simulator.

use super::{Comparison, Disagreement, Hexadecimal};
use crate::border_marks::AboveEvent;
use crate::calls::RECOVER;
use crate::chains::{ForbiddenSteps, GeneratedRun};
use crate::library::ANSWER;
use crate::models::{is_above_model_1, model_of};
use crate::protected_steps::{run_on, Failed, Machine};
use crate::random::Random;
use crate::reports::GeneratedRecovery;
use crate::simulator::recovery::Answer;
use crate::simulator::run::Outcome;

const KIND: &str = "protected steps";

impl Machine for Comparison {
    type Wrong = Disagreement;

    fn run_held(&mut self, run: &mut GeneratedRun) -> Result<Option<Outcome>, Disagreement> {
        self.run_compared(KIND, run, ANSWER)
    }

    fn recover_held(
        &mut self,
        recovery: &mut GeneratedRecovery,
    ) -> Result<Option<Answer>, Disagreement> {
        let (left, answer) = self.recovery_compared(KIND, recovery)?;
        let [_, _, _, storage, program, restart_arguments, _] = left.arena.areas();
        recovery.storage = storage.to_vec();
        recovery.program = program.to_vec();
        recovery.restart_arguments = restart_arguments.to_vec();
        Ok(answer)
    }
}

impl Comparison {
    /// Compares each run and each recovery, then the end with that of the chain whose steps are allowed.
    pub fn protected_steps(
        &mut self,
        random: &mut Random,
        chain: &ForbiddenSteps,
    ) -> Result<(), Disagreement> {
        match run_on(self, random, chain) {
            Ok(run_on) => {
                let answered = run_on.steps > 0 && is_above_model_1(chain.sought.cylinder);
                self.see_borders(RECOVER, chain.run.model, |borders, _| {
                    borders.meet_if(answered, AboveEvent::ProtectedStepAnswered);
                });
                let of_model = self.tally.on(model_of(chain.run.model));
                of_model.protected_steps.count(run_on);
                Ok(())
            }
            Err(Failed::Machine(disagreement)) => Err(disagreement),
            Err(Failed::Otherwise(what)) => Err(told(&chain.run, what, self.tally.compared)),
        }
    }
}

/// What is wrong with a run on after so many inputs.
fn told(run: &GeneratedRun, what: &str, before: u64) -> Disagreement {
    let mut text = format!("{KIND}: {what} after {before} inputs");
    text += &format!("\n  model {}", run.model);
    for (name, area) in [
        ("chain", &run.chain),
        ("arguments", &run.arguments),
        ("storage", &run.storage),
        ("image", &run.image),
    ] {
        text += &format!("\n  {name} {}", Hexadecimal(area));
    }
    Disagreement(text)
}
