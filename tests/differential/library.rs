//! The proved library's C functions.
//!
//! Lent bytes are taken as mutable even where the library only reads them: a caller can then see
//! whether they stayed as they were, and the compiler may not assume that they did.

// Each program that includes this uses a part of it.
#![allow(dead_code)]

use crate::simulator::areas::RunSizes;
use crate::simulator::held::{HeldReading, HeldRecovery, HeldRun};

/// Declares functions of the pack's model and of areas, each given by its address and its length; a
/// limit and more areas may stand behind them.
macro_rules! declare {
    ($($function:ident($($area:ident)* $(; $limit:ident $($behind:ident)*)?);)*) => {
        extern "C" {
            $(fn $function(
                model: u8,
                $($area: *mut u8, _: usize,)*
                $($limit: usize, $($behind: *mut u8, _: usize,)*)?
            ) -> u8;)*
        }
    };
}

declare! {
    giruve_check_image(image);
    giruve_check_faults(image faults);
    giruve_check_extent(extent);
    giruve_run(chain arguments storage image faults; limit answer);
    giruve_run_restart(chain arguments program restart_arguments storage image faults answer);
    giruve_recover(chain report extent storage program restart_arguments answer);
    giruve_reading(
        chain arguments storage image faults extent; limit program restart_arguments list answer
    );
}

extern "C" {
    fn giruve_check_areas(
        chain: usize,
        arguments: usize,
        storage: usize,
        image: usize,
        faults: usize,
        limit: usize,
    ) -> u8;
    fn giruve_check_restart_areas(program: usize, restart_arguments: usize) -> u8;
}

/// What a run answers where no question refuses it.
pub const ENDED: u8 = 0;
pub const LIMIT: u8 = 64;

/// Bytes of the area that a run answers in: CSW, sense, whether a mask was set, that mask, address
/// of the first CCW of a read that was cut.
pub const ANSWER: usize = 8 + 24 + 1 + 1 + 2;

/// The areas of a run but the one that it answers in.
pub struct RunAreas<'a> {
    pub chain: &'a mut [u8],
    pub arguments: &'a mut [u8],
    pub storage: &'a mut [u8],
    pub image: &'a mut [u8],
    pub faults: &'a mut [u8],
}

/// The areas of a restart: a restarted run has them besides, a recovery writes them.
pub struct RestartAreas<'a> {
    pub program: &'a mut [u8],
    pub arguments: &'a mut [u8],
}

/// What a recovery answers where no question refuses it.
pub const ANSWERED: u8 = 0;

/// The first byte of a recovery's answer.
pub const ACTION_1: u8 = 1;
pub const ACTION_2: u8 = 2;
pub const REPEAT: u8 = 3;
pub const CORRECTED_ONLY: u8 = 4;
pub const FINISHED: u8 = 5;
pub const RESTART: u8 = 6;

/// The areas of a recovery but the one that it answers in.
pub struct RecoveryAreas<'a> {
    pub chain: &'a mut [u8],
    pub report: &'a mut [u8],
    pub extent: &'a mut [u8],
    pub storage: &'a mut [u8],
    pub restart: RestartAreas<'a>,
}

/// What a reading answers besides `ENDED` and `LIMIT` where no question refuses it.
pub const STOPPED: u8 = 65;

/// The first byte of an entry of its list.
pub const ACTION_5: u8 = 0x05;
pub const ACTION_5A: u8 = 0x15;

/// The areas of a reading but the one that it answers in.
pub struct ReadingAreas<'a> {
    pub run: RunAreas<'a>,
    pub extent: &'a mut [u8],
    pub restart: RestartAreas<'a>,
    pub list: &'a mut [u8],
}

/// Calls a function with a model and areas, each given by its address and its length; a limit and more
/// areas may stand behind them.
///
/// Every call below is given areas that are valid for these lengths and do not overlap; the library
/// asks nothing else of its caller.
macro_rules! call {
    ($function:ident, $model:expr, [$($area:expr),*] $(, $limit:expr, [$($behind:expr),*])?) => {
        unsafe {
            $function(
                $model,
                $($area.as_mut_ptr(), $area.len(),)*
                $($limit, $($behind.as_mut_ptr(), $behind.len(),)*)?
            )
        }
    };
}

pub fn check_image(model: u8, image: &mut [u8]) -> u8 {
    call!(giruve_check_image, model, [image])
}

pub fn check_faults(model: u8, image: &mut [u8], faults: &mut [u8]) -> u8 {
    call!(giruve_check_faults, model, [image, faults])
}

pub fn check_extent(model: u8, extent: &mut [u8]) -> u8 {
    call!(giruve_check_extent, model, [extent])
}

pub fn check_areas(sizes: RunSizes) -> u8 {
    unsafe {
        giruve_check_areas(
            sizes.chain,
            sizes.arguments,
            sizes.storage,
            sizes.image,
            sizes.faults,
            sizes.limit,
        )
    }
}

pub fn check_restart_areas(program: usize, arguments: usize) -> u8 {
    unsafe { giruve_check_restart_areas(program, arguments) }
}

pub fn run(model: u8, areas: RunAreas, limit: usize, answer: &mut [u8]) -> u8 {
    call!(
        giruve_run,
        model,
        [
            areas.chain,
            areas.arguments,
            areas.storage,
            areas.image,
            areas.faults
        ],
        limit,
        [answer]
    )
}

pub fn run_restart(model: u8, run: RunAreas, restart: RestartAreas, answer: &mut [u8]) -> u8 {
    call!(
        giruve_run_restart,
        model,
        [
            run.chain,
            run.arguments,
            restart.program,
            restart.arguments,
            run.storage,
            run.image,
            run.faults,
            answer
        ]
    )
}

pub fn recover(model: u8, areas: RecoveryAreas, answer: &mut [u8]) -> u8 {
    call!(
        giruve_recover,
        model,
        [
            areas.chain,
            areas.report,
            areas.extent,
            areas.storage,
            areas.restart.program,
            areas.restart.arguments,
            answer
        ]
    )
}

pub fn read(model: u8, areas: ReadingAreas, limit: usize, answer: &mut [u8]) -> u8 {
    let (run, restart) = (areas.run, areas.restart);
    call!(
        giruve_reading,
        model,
        [
            run.chain,
            run.arguments,
            run.storage,
            run.image,
            run.faults,
            areas.extent
        ],
        limit,
        [restart.program, restart.arguments, areas.list, answer]
    )
}

/// A run of what is held, restarted where a restart is held.
pub fn run_held(held: &mut HeldRun, answer: &mut [u8]) -> u8 {
    let areas = RunAreas {
        chain: &mut held.chain,
        arguments: &mut held.arguments,
        storage: &mut held.storage,
        image: &mut held.image,
        faults: &mut held.faults,
    };
    match &mut held.restart {
        None => run(held.model, areas, held.limit, answer),
        Some(restart) => {
            let restart = RestartAreas {
                program: &mut restart.program,
                arguments: &mut restart.arguments,
            };
            run_restart(held.model, areas, restart, answer)
        }
    }
}

pub fn recover_held(held: &mut HeldRecovery, answer: &mut [u8]) -> u8 {
    let areas = RecoveryAreas {
        chain: &mut held.chain,
        report: &mut held.report,
        extent: &mut held.extent,
        storage: &mut held.storage,
        restart: RestartAreas {
            program: &mut held.program,
            arguments: &mut held.restart_arguments,
        },
    };
    recover(held.model, areas, answer)
}

pub fn read_held(held: &mut HeldReading, list: &mut [u8], answer: &mut [u8]) -> u8 {
    let areas = ReadingAreas {
        run: RunAreas {
            chain: &mut held.chain,
            arguments: &mut held.arguments,
            storage: &mut held.storage,
            image: &mut held.image,
            faults: &mut held.faults,
        },
        extent: &mut held.extent,
        restart: RestartAreas {
            program: &mut held.program,
            arguments: &mut held.restart_arguments,
        },
        list,
    };
    read(held.model, areas, held.limit, answer)
}
