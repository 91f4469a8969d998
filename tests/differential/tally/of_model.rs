//! What was seen on packs of one model. Each answer and each mark must be.

use super::{missing, Answers, Counts};
use crate::border_marks::BorderTally;
use crate::calls::{Call, MODEL_CALLS, READING, RECOVER, RUN_CALLS};
use crate::marks::{Event, Mark};
use crate::overflow_marks::OverflowTally;
use crate::protected_steps::RunOnTally;
use crate::reading_marks::ReadingMark;
use crate::recovery_marks::RecoveryMark;
use crate::simulator::model::Model;
use std::collections::BTreeMap;

/// The fewest readings that are enough, and the fewest runs and readings with multitrack commands; of
/// those readings that begin, of those that meet the provisos of demand 3 and of those with multitrack
/// commands one in three makes two recoveries or more.
const FEWEST_READINGS: u64 = 50_000;
const FEWEST_MET: u64 = 30_000;
const FEWEST_MULTITRACK: u64 = 50_000;
const TWO_RECOVERIES_ONCE_IN: u64 = 3;

/// Readings, and those of them with two recoveries or more.
#[derive(Clone, Copy, Default)]
pub struct Readings {
    pub all: u64,
    pub of_two: u64,
}

impl Readings {
    fn count(&mut self, recoveries: usize) {
        self.all += 1;
        self.of_two += u64::from(recoveries >= 2);
    }

    fn have_two_often(self) -> bool {
        self.of_two * TWO_RECOVERIES_ONCE_IN >= self.all
    }
}

#[derive(Default)]
pub struct OfModel {
    answers: BTreeMap<Call, Answers>,
    marks: BTreeMap<(Call, Mark), u64>,
    recovery_marks: BTreeMap<RecoveryMark, u64>,
    reading_marks: BTreeMap<ReadingMark, u64>,
    /// Not refused.
    pub begun: Readings,
    /// Of these, where the provisos of demand 3 are met.
    pub met: Readings,
    /// Of those begun, where a multitrack command was begun.
    pub multitrack: Readings,
    pub protected_steps: RunOnTally,
    pub overflow: OverflowTally,
    pub borders: BorderTally,
}

impl OfModel {
    pub fn count(&mut self, call: Call, answer: u8) {
        let answers = self.answers.entry(call).or_default();
        *answers.entry(answer).or_default() += 1;
    }

    /// Counts a run of which these are the marks.
    pub fn count_marks(&mut self, call: Call, marks: impl IntoIterator<Item = Mark>) {
        for mark in marks {
            *self.marks.entry((call, mark)).or_default() += 1;
        }
    }

    /// Counts a recovery of which these are the marks.
    pub fn count_recovery_marks(&mut self, marks: impl IntoIterator<Item = RecoveryMark>) {
        for mark in marks {
            *self.recovery_marks.entry(mark).or_default() += 1;
        }
    }

    /// Counts what a reading was marked by.
    pub fn count_reading_marks(&mut self, marks: impl IntoIterator<Item = ReadingMark>) {
        for mark in marks {
            *self.reading_marks.entry(mark).or_default() += 1;
        }
    }

    /// Counts a reading that was not refused.
    pub fn count_reading(&mut self, recoveries: usize, provisos_met: bool, is_multitrack: bool) {
        self.begun.count(recoveries);
        if provisos_met {
            self.met.count(recoveries);
        }
        if is_multitrack {
            self.multitrack.count(recoveries);
        }
    }

    /// Inputs compared.
    pub fn compared(&self) -> u64 {
        self.answers.values().flat_map(BTreeMap::values).sum()
    }

    /// Runs in which a multitrack command was begun.
    pub fn multitrack_runs(&self) -> u64 {
        let mark = Mark::Met(Event::Multitrack);
        let runs = RUN_CALLS.iter().map(|&call| self.runs_with(call, mark));
        runs.sum()
    }

    pub fn recoveries_changing(&self) -> u64 {
        let changing = self.recovery_marks.iter().filter(|(mark, _)| match mark {
            RecoveryMark::Changed(_, number) => *number > 0,
            _ => false,
        });
        changing.map(|(_, times)| times).sum()
    }

    /// Prints how often each answer was seen, and in how many runs, recoveries and readings each mark was.
    pub fn print(&self, model: Model) {
        for (call, answers) in &self.answers {
            println!("{:<36}{}", call.name, Counts(answers));
        }
        println!("{:<50}{:>9}{:>11}", "runs with", "chain", "restarted");
        for mark in Mark::all() {
            let [chain, restarted] = RUN_CALLS.map(|call| self.runs_with(call, mark));
            let mark = mark.to_string();
            println!("  {mark:<48}{chain:>9}{restarted:>11}");
        }
        println!("recoveries with");
        for mark in RecoveryMark::all() {
            let times = self.recoveries_with(mark);
            println!("  {:<58}{times:>10}", mark.to_string());
        }
        println!("readings with");
        for mark in ReadingMark::all() {
            let times = self.readings_with(mark);
            println!("  {:<58}{times:>10}", mark.to_string());
        }
        println!("chains under a mask that forbids steps");
        print!("{}", self.protected_steps);
        print!("{}", self.overflow);
        self.borders.print(model);
    }

    fn readings_with(&self, mark: ReadingMark) -> u64 {
        self.reading_marks.get(&mark).copied().unwrap_or(0)
    }

    fn recoveries_with(&self, mark: RecoveryMark) -> u64 {
        self.recovery_marks.get(&mark).copied().unwrap_or(0)
    }

    fn runs_with(&self, call: Call, mark: Mark) -> u64 {
        self.marks.get(&(call, mark)).copied().unwrap_or(0)
    }

    /// Answers and marks that no input brought out.
    pub fn never_seen(&self) -> Vec<String> {
        let none = Answers::new();
        let answers = MODEL_CALLS
            .iter()
            .flat_map(|&call| missing(call, self.answers.get(&call).unwrap_or(&none)));
        let marks = RUN_CALLS.iter().flat_map(|&call| {
            let missing = Mark::all().into_iter();
            let missing = missing.filter(move |&mark| self.runs_with(call, mark) == 0);
            missing.map(move |mark| format!("{} with {mark}", call.name))
        });
        let recovery_marks = RecoveryMark::all()
            .into_iter()
            .filter(|&mark| self.recoveries_with(mark) == 0)
            .map(|mark| format!("{} with {mark}", RECOVER.name));
        let reading_marks = ReadingMark::all()
            .into_iter()
            .filter(|&mark| self.readings_with(mark) == 0)
            .map(|mark| format!("{} with {mark}", READING.name));
        let protected_steps = self
            .protected_steps
            .never_seen()
            .map(|mark| format!("protected step, {mark}"));
        answers
            .chain(marks)
            .chain(recovery_marks)
            .chain(reading_marks)
            .chain(protected_steps)
            .collect()
    }

    /// What there are too few of.
    pub fn too_few(&self, model: Model) -> Vec<String> {
        let overflow = self
            .overflow
            .seldom_seen()
            .map(|(action, mark)| format!("action {action:?}, {mark}"));
        let readings = self.answers.get(&READING);
        let readings: u64 = readings.into_iter().flat_map(BTreeMap::values).sum();
        [
            (readings >= FEWEST_READINGS, "readings"),
            (
                self.begun.have_two_often(),
                "readings with two recoveries or more",
            ),
            (
                self.met.all >= FEWEST_MET,
                "readings that meet the provisos of demand 3",
            ),
            (
                self.met.have_two_often(),
                "such readings with two recoveries or more",
            ),
            (
                self.multitrack_runs() >= FEWEST_MULTITRACK,
                "runs with multitrack commands",
            ),
            (
                self.multitrack.all >= FEWEST_MULTITRACK,
                "readings with multitrack commands",
            ),
            (
                self.multitrack.have_two_often(),
                "of these with two recoveries or more",
            ),
            (
                self.protected_steps.are_enough(),
                "chains under a mask that forbids steps",
            ),
            (
                self.overflow.are_enough(),
                "reports that send to action 9 or 11",
            ),
        ]
        .into_iter()
        .filter_map(|(enough, of)| (!enough).then(|| of.to_string()))
        .chain(overflow)
        .chain(self.borders.seldom_seen(model))
        .collect()
    }
}
