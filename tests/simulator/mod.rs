//! Document 01 with Tickets 1, 3, 4 and 5 of document 02 written a second time, in plain Rust, to be
//! compared with the proved library.
//!
//! Decoded values borrow from the lent bytes. Where a call is refused the rule that decided is
//! named beside the question's number, so that a test can tell the rules of one question apart;
//! the rule that ends a run is named beside its CSW and sense.

// Each program that includes the simulator uses a part of it.
#![allow(dead_code)]

/// An enum of the rules of a question or a check, and the list of them all.
macro_rules! rules {
    ($(#[$about:meta])* $name:ident { $($rule:ident),* $(,)? }) => {
        $(#[$about])*
        #[derive(Clone, Copy, Debug, PartialEq, Eq, PartialOrd, Ord)]
        pub enum $name { $($rule),* }

        impl $name {
            pub const ALL: &'static [$name] = &[$($name::$rule),*];
        }
    };
}

pub mod areas;
pub mod channel;
pub mod correct;
pub mod cut;
pub mod drive;
pub mod encode;
pub mod extent;
pub mod faults;
pub mod fields;
pub mod held;
pub mod interrupted;
pub mod large;
pub mod model;
pub mod overflow;
pub mod pack;
pub mod reading;
pub mod recovery;
pub mod report;
pub mod restart;
pub mod run;
pub mod sample;
pub mod table;

use areas::Area;
use channel::ProgramCheck;
use cut::CutRule;
use extent::{Extent, ExtentRule};
use faults::{FaultList, FaultRule};
use interrupted::InterruptedRule;
use model::Model;
use overflow::OverflowRule;
use pack::{ImageRule, Pack};
use report::ReportRule;
use table::Action;

/// A question answered no, and the rule of it that was broken.
#[derive(Clone, Copy, Debug, PartialEq, Eq, PartialOrd, Ord)]
pub enum Refusal {
    /// Neither 1 nor 11.
    Model,
    Areas(Area),
    Image(ImageRule),
    Faults(FaultRule),
    Report(ReportRule),
    Extent(ExtentRule),
    NoRow,
    /// The table's action is none that a recovery knows.
    Action(Action),
    /// Sense 7 is not 53.
    SenseFormat,
    Cut(CutRule),
    /// Found in the walk of the read's data chain.
    Walk(ProgramCheck),
    /// Why there is no next CCW where one is needed.
    Next(ProgramCheck),
    Interrupted(InterruptedRule),
    Overflow(OverflowRule),
}

impl Refusal {
    /// The question's number.
    pub fn number(self) -> u8 {
        match self {
            Refusal::Model | Refusal::Areas(_) => 1,
            Refusal::Image(_) => 2,
            Refusal::Faults(_) => 3,
            Refusal::Report(_) => 4,
            Refusal::Extent(_) => 5,
            Refusal::NoRow => 6,
            Refusal::Action(_) => 7,
            Refusal::SenseFormat => 8,
            Refusal::Cut(_)
            | Refusal::Walk(_)
            | Refusal::Next(_)
            | Refusal::Interrupted(_)
            | Refusal::Overflow(_) => 9,
        }
    }
}

/// 0 for what is accepted, else the number of the question.
pub fn answer<T>(checked: &Result<T, Refusal>) -> u8 {
    match checked {
        Ok(_) => 0,
        Err(refusal) => refusal.number(),
    }
}

/// Questions 1 and 2 of an image.
pub fn check_image(model: u8, image: &[u8]) -> Result<(), Refusal> {
    let model = Model::check(model)?;
    Area::Image.check(image.len())?;
    pack::check(image, model).map_err(Refusal::Image)
}

/// Questions 1, 2 and 3 of an image and its fault list.
pub fn check_faults<'a>(
    model: u8,
    image: &'a [u8],
    faults: &[u8],
) -> Result<(Pack<'a>, FaultList), Refusal> {
    let model = Model::check(model)?;
    Area::Image.check(image.len())?;
    Area::FaultList.check(faults.len())?;
    let pack = Pack::decode(image, model).map_err(Refusal::Image)?;
    let faults = FaultList::decode(faults, &pack).map_err(Refusal::Faults)?;
    Ok((pack, faults))
}

/// Questions 1 and 5 of an extent.
pub fn check_extent(model: u8, extent: &[u8]) -> Result<Extent, Refusal> {
    let model = Model::check(model)?;
    Area::Extent.check(extent.len())?;
    Extent::decode(extent, model).map_err(Refusal::Extent)
}
