//! Hand-written cases of the simulator and of what the tests are made of; they stand beside the
//! code they are about.

#[macro_use]
mod simulator;

#[path = "differential/arena.rs"]
mod arena;
#[allow(dead_code)]
#[path = "differential/border_marks.rs"]
mod border_marks;
#[allow(dead_code)]
#[path = "differential/calls.rs"]
mod calls;
mod cases;
#[path = "differential/chains/mod.rs"]
mod chains;
#[allow(dead_code, unused_imports)]
#[path = "differential/damage/mod.rs"]
mod damage;
#[path = "differential/demand.rs"]
mod demand;
#[allow(dead_code)]
#[path = "differential/generate.rs"]
mod generate;
#[path = "differential/in_place.rs"]
mod in_place;
#[allow(dead_code, unused_imports)]
#[path = "differential/lendings/mod.rs"]
mod lendings;
#[path = "differential/library.rs"]
mod library;
#[allow(dead_code)]
#[path = "differential/marks.rs"]
mod marks;
#[allow(dead_code)]
#[path = "differential/models.rs"]
mod models;
#[allow(dead_code, unused_imports)]
#[path = "differential/overflow_marks/mod.rs"]
mod overflow_marks;
#[allow(dead_code)]
#[path = "differential/protected_steps.rs"]
mod protected_steps;
#[path = "differential/random.rs"]
mod random;
#[allow(dead_code, unused_imports)]
#[path = "differential/reading_marks/mod.rs"]
mod reading_marks;
#[allow(dead_code, unused_imports)]
#[path = "differential/recovery_marks/mod.rs"]
mod recovery_marks;
#[allow(dead_code)]
#[path = "differential/reports/mod.rs"]
mod reports;
#[path = "differential/rest_of_read.rs"]
mod rest_of_read;
#[path = "differential/step_marks.rs"]
mod step_marks;
