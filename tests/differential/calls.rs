//! The library's calls.

use crate::library::{LIMIT, STOPPED};

/// A call, and the answers that it has.
#[derive(Clone, Copy, PartialEq, Eq, PartialOrd, Ord)]
pub struct Call {
    pub name: &'static str,
    pub answers: &'static [u8],
}

pub const CHECK_IMAGE: Call = Call {
    name: "giruve_check_image",
    answers: &[0, 1, 2],
};
pub const CHECK_FAULTS: Call = Call {
    name: "giruve_check_faults",
    answers: &[0, 1, 2, 3],
};
pub const CHECK_EXTENT: Call = Call {
    name: "giruve_check_extent",
    answers: &[0, 1, 5],
};
pub const CHECK_AREAS: Call = Call {
    name: "giruve_check_areas",
    answers: &[0, 1],
};
pub const CHECK_RESTART_AREAS: Call = Call {
    name: "giruve_check_restart_areas",
    answers: &[0, 1],
};

pub const RUN: Call = Call {
    name: "giruve_run",
    answers: &[0, 1, 2, 3, LIMIT],
};
pub const RUN_RESTART: Call = Call {
    name: "giruve_run_restart",
    answers: &[0, 1, 2, 3, LIMIT],
};

pub const RECOVER: Call = Call {
    name: "giruve_recover",
    answers: &[0, 1, 4, 5, 6, 7, 8, 9],
};

pub const READING: Call = Call {
    name: "giruve_reading",
    answers: &[0, 1, 2, 3, 5, LIMIT, STOPPED],
};

/// The calls that take no model, and those that take one.
pub const AREA_CALLS: [Call; 2] = [CHECK_AREAS, CHECK_RESTART_AREAS];
pub const MODEL_CALLS: [Call; 7] = [
    CHECK_IMAGE,
    CHECK_FAULTS,
    CHECK_EXTENT,
    RUN,
    RUN_RESTART,
    RECOVER,
    READING,
];
pub const RUN_CALLS: [Call; 2] = [RUN, RUN_RESTART];
