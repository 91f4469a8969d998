//! One input given to library and simulator.

mod protected_steps;
mod reading;
mod recovery;
mod run;

use crate::arena::Arena;
use crate::border_marks::Borders;
use crate::calls::{
    Call, CHECK_AREAS, CHECK_EXTENT, CHECK_FAULTS, CHECK_IMAGE, CHECK_RESTART_AREAS,
};
use crate::library;
use crate::models::borders_on;
use crate::random::Random;
use crate::simulator::areas::{check_restart, check_run, RunSizes};
use crate::simulator::drive::{RejectRule, UnitCheck};
use crate::simulator::extent::ExtentRule;
use crate::simulator::interrupted::InterruptedRule;
use crate::simulator::model::Model;
use crate::simulator::pack::ImageRule;
use crate::simulator::run::End;
use crate::simulator::{check_extent, check_faults, check_image, Refusal};
use crate::tally::Tally;
use std::fmt;

/// Bytes in hexadecimal, the middle of many left out.
struct Hexadecimal<'a>(&'a [u8]);

impl fmt::Display for Hexadecimal<'_> {
    fn fmt(&self, out: &mut fmt::Formatter) -> fmt::Result {
        const SHOWN: usize = 512;
        let bytes = self.0;
        let cut = bytes.len() > 2 * SHOWN;
        let front = if cut { SHOWN } else { bytes.len() };
        bytes[..front]
            .iter()
            .try_for_each(|byte| write!(out, "{byte:02X}"))?;
        if cut {
            write!(out, " .. ")?;
            let back = &bytes[bytes.len() - SHOWN..];
            back.iter().try_for_each(|byte| write!(out, "{byte:02X}"))?;
        }
        write!(out, " ({} bytes)", bytes.len())
    }
}

/// What is told of an input on which library and simulator differ.
pub struct Disagreement(String);

impl fmt::Display for Disagreement {
    fn fmt(&self, out: &mut fmt::Formatter) -> fmt::Result {
        out.write_str(&self.0)
    }
}

/// An input: its kind, the number of a model where the call takes one, the bytes lent and the numbers
/// given.
struct Input<'a> {
    kind: &'static str,
    model: Option<u8>,
    lent: &'a [(&'static str, &'a [u8])],
    numbers: &'a [(&'static str, usize)],
}

/// All comparisons so far.
#[derive(Default)]
pub struct Comparison {
    pub tally: Tally,
}

impl Comparison {
    /// A model for the next input, where any will do.
    pub fn any_model(&self) -> Model {
        Random::new(self.tally.compared).pick(Model::ALL)
    }

    /// The same, and its first cylinder or one at the end of a pack.
    pub fn any_cylinder(&self) -> (Model, u16) {
        let mut random = Random::new(self.tally.compared);
        let model = random.pick(Model::ALL);
        let cylinder = random.pick(borders_on(model));
        (model, random.pick(&[0, cylinder]))
    }

    pub fn image(
        &mut self,
        kind: &'static str,
        model: u8,
        image: &[u8],
    ) -> Result<(), Disagreement> {
        let refusal = check_image(model, image).err();
        let input = Input {
            kind,
            model: Some(model),
            lent: &[("image", image)],
            numbers: &[],
        };
        self.checked(CHECK_IMAGE, input, refusal, |lent| {
            library::check_image(model, &mut lent[0])
        })?;
        self.see_borders(CHECK_IMAGE, model, |borders, model| {
            borders.see_image(model, image, refusal);
        });
        Ok(())
    }

    pub fn faults(
        &mut self,
        kind: &'static str,
        model: u8,
        image: &[u8],
        faults: &[u8],
    ) -> Result<(), Disagreement> {
        let refusal = check_faults(model, image, faults).err();
        let input = Input {
            kind,
            model: Some(model),
            lent: &[("image", image), ("faults", faults)],
            numbers: &[],
        };
        self.checked(CHECK_FAULTS, input, refusal, |lent| {
            let [image, faults] = lent else {
                unreachable!("two areas are lent")
            };
            library::check_faults(model, image, faults)
        })?;
        self.see_borders(CHECK_FAULTS, model, |borders, model| {
            borders.see_image(model, image, refusal);
        });
        Ok(())
    }

    pub fn extent(
        &mut self,
        kind: &'static str,
        model: u8,
        extent: &[u8],
    ) -> Result<(), Disagreement> {
        let refusal = check_extent(model, extent).err();
        let input = Input {
            kind,
            model: Some(model),
            lent: &[("extent", extent)],
            numbers: &[],
        };
        self.checked(CHECK_EXTENT, input, refusal, |lent| {
            library::check_extent(model, &mut lent[0])
        })?;
        self.see_borders(CHECK_EXTENT, model, |borders, model| {
            borders.see_extent(model, extent, refusal);
        });
        Ok(())
    }

    pub fn areas(&mut self, kind: &'static str, sizes: RunSizes) -> Result<(), Disagreement> {
        let input = Input {
            kind,
            model: None,
            lent: &[],
            numbers: &[
                ("chain", sizes.chain),
                ("arguments", sizes.arguments),
                ("storage", sizes.storage),
                ("image", sizes.image),
                ("faults", sizes.faults),
                ("limit", sizes.limit),
            ],
        };
        self.checked(CHECK_AREAS, input, check_run(sizes).err(), |_| {
            library::check_areas(sizes)
        })
    }

    pub fn restart_areas(
        &mut self,
        kind: &'static str,
        [program, arguments]: [usize; 2],
    ) -> Result<(), Disagreement> {
        let input = Input {
            kind,
            model: None,
            lent: &[],
            numbers: &[("program", program), ("arguments", arguments)],
        };
        self.checked(
            CHECK_RESTART_AREAS,
            input,
            check_restart(program, arguments).err(),
            |_| library::check_restart_areas(program, arguments),
        )
    }

    /// Calls the library with a copy of what is lent, and compares the answers and the copy: a check
    /// answers a question's number and writes nothing. The simulator refuses for this or not at all.
    fn checked(
        &mut self,
        call: Call,
        input: Input,
        refusal: Option<Refusal>,
        library: impl FnOnce(&mut [Vec<u8>]) -> u8,
    ) -> Result<(), Disagreement> {
        let simulator = refusal.map_or(0, Refusal::number);
        let mut copies: Vec<Vec<u8>> = input.lent.iter().map(|(_, lent)| lent.to_vec()).collect();
        let library = library(&mut copies);
        let changed = input
            .lent
            .iter()
            .zip(&copies)
            .find(|((_, lent), copy)| lent != copy)
            .map(|((name, _), _)| *name);
        if library != simulator || changed.is_some() {
            let before = self.tally.compared;
            let text = describe(call, &input, before, simulator, library, changed);
            return Err(Disagreement(text));
        }
        match input.model {
            Some(model) => {
                self.tally.count_on(call, input.kind, model, simulator);
            }
            None => self.tally.count(call, input.kind, simulator),
        }
        self.count_rule(input.model, refusal);
        Ok(())
    }

    fn count_rule(&mut self, model: Option<u8>, refusal: Option<Refusal>) {
        let model = model.and_then(|number| Model::check(number).ok());
        if let Some(refusal) = refusal {
            self.tally.count_rule(model, refusal);
        }
    }

    /// Of an input to which it makes no difference where the pack ends. Once in eight on model 1 the library
    /// is given it on model 11 too: what is wrong with what it leaves.
    fn wrong_on_model_11<const AREAS: usize>(
        &mut self,
        sides: &Sides<AREAS>,
        by_library: impl FnOnce(u8, Arena<AREAS>) -> Left<AREAS>,
    ) -> Option<&'static str> {
        let is_one = Model::check(sides.model) == Ok(Model::One);
        if !is_one || self.tally.compared % 8 != 0 {
            return None;
        }
        self.tally.alike += 1;
        let left = by_library(Model::Eleven.number(), sides.lent.clone());
        (left != sides.by_library).then_some("another answer on model 11")
    }

    /// Counts what a call judged at the ends of packs.
    fn see_borders(&mut self, call: Call, model: u8, see: impl FnOnce(&mut Borders, Model)) {
        if let Ok(model) = Model::check(model) {
            let mut borders = Borders::default();
            see(&mut borders, model);
            self.tally.on(model).borders.count(call, borders);
        }
    }
}

/// Whether a pack with more cylinders may be answered otherwise.
fn is_off_the_pack(refusal: Refusal) -> bool {
    matches!(
        refusal,
        Refusal::Image(ImageRule::OffThePack)
            | Refusal::Extent(ExtentRule::OffThePack)
            | Refusal::Interrupted(InterruptedRule::SeekOffThePack)
    )
}

/// The same of how a run ended.
fn is_sought_off_the_pack(end: End) -> bool {
    end == End::UnitCheck(UnitCheck::Reject(RejectRule::SeekOffThePack))
}

fn describe(
    call: Call,
    input: &Input,
    before: u64,
    simulator: u8,
    library: u8,
    changed: Option<&str>,
) -> String {
    let mut text = format!(
        "{}, {}: disagreement after {before} inputs\n",
        call.name, input.kind
    );
    if let Some(model) = input.model {
        text += &format!("  model {model}\n");
    }
    for (name, lent) in input.lent {
        text += &format!("  {name} {}\n", Hexadecimal(lent));
    }
    for (name, number) in input.numbers {
        text += &format!("  {name} {number}\n");
    }
    text += &format!("  simulator {simulator}\n  library   {library}");
    if let Some(name) = changed {
        text += &format!("\n  the call changed the lent {name}");
    }
    text
}

/// What a call answered, and all bytes as it left them.
#[derive(PartialEq)]
struct Left<const AREAS: usize> {
    number: u8,
    arena: Arena<AREAS>,
}

/// The same areas, lent to simulator and library.
struct Sides<const AREAS: usize> {
    names: &'static [&'static str; AREAS],
    model: u8,
    lent: Arena<AREAS>,
    limit: Option<usize>,
    by_simulator: Left<AREAS>,
    by_library: Left<AREAS>,
}

impl<const AREAS: usize> Sides<AREAS> {
    /// Whether answer, all areas and the bytes around them are the same.
    fn agree(&self) -> bool {
        self.by_simulator == self.by_library
    }

    /// What is told of them, and what is wrong after so many inputs.
    fn told(&self, call: Call, kind: &str, what: &str, before: u64) -> Disagreement {
        let mut text = format!("{}, {kind}: {what} after {before} inputs\n", call.name);
        text += &format!("  model {}\n", self.model);
        for (name, area) in self.names.iter().zip(self.lent.areas()) {
            text += &format!("  {name} {}\n", Hexadecimal(area));
        }
        if let Some(limit) = self.limit {
            text += &format!("  limit {limit}\n");
        }
        text += &format!("  simulator {}\n", self.by_simulator.number);
        text += &format!("  library   {}", self.by_library.number);
        Disagreement(text + &self.differences())
    }

    /// The areas that simulator and library left otherwise than each other, a line for each.
    fn differences(&self) -> String {
        let mut text = String::new();
        let [by_simulator, by_library] = [&self.by_simulator.arena, &self.by_library.arena];
        let areas = by_simulator.areas().into_iter().zip(by_library.areas());
        for (name, (simulator, library)) in self.names.iter().zip(areas) {
            if simulator != library {
                let [simulator, library] = [simulator, library].map(Hexadecimal);
                text += &format!("\n  {name} left by the simulator {simulator}");
                text += &format!("\n  {name} left by the library   {library}");
            }
        }
        if text.is_empty() && by_simulator != by_library {
            text += "\n  the call changed bytes outside the areas";
        }
        text
    }
}
