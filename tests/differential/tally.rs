//! How often each answer and each broken rule was seen, and on packs of each model each mark.

mod of_model;

pub use of_model::OfModel;

use crate::calls::{Call, AREA_CALLS, MODEL_CALLS, READING, RECOVER, RUN_CALLS};
use crate::models;
use crate::simulator::areas::Area;
use crate::simulator::extent::ExtentRule;
use crate::simulator::faults::FaultRule;
use crate::simulator::model::Model;
use crate::simulator::pack::ImageRule;
use crate::simulator::Refusal;
use std::collections::{BTreeMap, BTreeSet};
use std::fmt;

type Answers = BTreeMap<u8, u64>;

/// Of answers from which some are missing.
fn missing(call: Call, seen: &Answers) -> impl Iterator<Item = String> + '_ {
    let answers = call.answers.iter();
    let missing = answers.filter(|answer| !seen.contains_key(answer));
    missing.map(move |answer| format!("{} answering {answer}", call.name))
}

#[derive(Default)]
pub struct Tally {
    /// Inputs compared.
    pub compared: u64,
    answers: BTreeMap<(Call, &'static str), Answers>,
    /// By model; none where a call takes none, or a number of no model.
    rules: BTreeMap<(Refusal, Option<Model>), u64>,
    models: BTreeMap<Model, OfModel>,
    /// Numbers of no model, and how often each call was given them.
    others: BTreeMap<(Call, u8), u64>,
    /// Inputs on packs of model 1 that were answered alike on model 11.
    pub alike: u64,
}

impl Tally {
    /// Counts a call that takes no model.
    pub fn count(&mut self, call: Call, kind: &'static str, answer: u8) {
        self.compared += 1;
        let answers = self.answers.entry((call, kind)).or_default();
        *answers.entry(answer).or_default() += 1;
    }

    /// Counts a call that takes one; what is seen on packs of it, unless it is the number of none.
    pub fn count_on(
        &mut self,
        call: Call,
        kind: &'static str,
        number: u8,
        answer: u8,
    ) -> Option<&mut OfModel> {
        self.count(call, kind, answer);
        let Ok(model) = Model::check(number) else {
            *self.others.entry((call, number)).or_default() += 1;
            return None;
        };
        let of_model = self.models.entry(model).or_default();
        of_model.count(call, answer);
        Some(of_model)
    }

    pub fn count_rule(&mut self, model: Option<Model>, refusal: Refusal) {
        *self.rules.entry((refusal, model)).or_default() += 1;
    }

    /// What was seen on packs of a model.
    pub fn on(&mut self, model: Model) -> &mut OfModel {
        self.models.entry(model).or_default()
    }

    /// The sum over both models.
    pub fn sum(&self, of: impl Fn(&OfModel) -> u64) -> u64 {
        self.models.values().map(of).sum()
    }

    /// Inputs on packs of a model.
    pub fn compared_on(&self, model: Model) -> u64 {
        self.models.get(&model).map_or(0, OfModel::compared)
    }

    /// Inputs with the number of no model.
    pub fn compared_on_none(&self) -> u64 {
        self.others.values().sum()
    }

    /// Runs compared.
    pub fn runs(&self) -> u64 {
        RUN_CALLS.iter().map(|&call| self.calls(call)).sum()
    }

    /// Recoveries compared.
    pub fn recoveries(&self) -> u64 {
        self.calls(RECOVER)
    }

    /// Readings compared.
    pub fn readings(&self) -> u64 {
        self.calls(READING)
    }

    fn calls(&self, call: Call) -> u64 {
        self.total(call).into_values().sum()
    }

    /// Prints how often each answer was seen, by call and by kind, and each broken rule; then what was seen
    /// on packs of each model.
    pub fn print(&self) {
        for call in MODEL_CALLS.into_iter().chain(AREA_CALLS) {
            println!("{:<36}{}", call.name, Counts(&self.total(call)));
            for ((_, kind), answers) in self.kinds(call) {
                println!("  {kind:<34}{}", Counts(answers));
            }
        }
        println!(
            "{:<36}{:>9}{:>10}{:>10}",
            "rules broken, named by the simulator", "no model", "model 1", "model 11"
        );
        for rule in self
            .rules
            .keys()
            .map(|(rule, _)| rule)
            .collect::<BTreeSet<_>>()
        {
            let models = [None, Some(Model::One), Some(Model::Eleven)];
            let [none, one, eleven] = models.map(|model| self.times_broken(*rule, model));
            let rule = format!("{rule:?}");
            println!("  {rule:<34}{none:>9}{one:>10}{eleven:>10}");
        }
        println!("numbers of no model, each of them refused");
        for call in MODEL_CALLS {
            let numbers = self.others.range((call, 0)..=(call, 255));
            let (how_many, times) = numbers.fold((0, 0), |(how_many, sum), (_, times)| {
                (how_many + 1, sum + times)
            });
            println!("  {:<34}{how_many:>9}{times:>10} times", call.name);
        }
        for (model, of_model) in &self.models {
            println!("on packs of model {}", model.number());
            of_model.print(*model);
        }
    }

    fn times_broken(&self, rule: Refusal, model: Option<Model>) -> u64 {
        self.rules.get(&(rule, model)).copied().unwrap_or(0)
    }

    /// Answers, rules, marks and numbers of no model that no input brought out.
    pub fn never_seen(&self) -> Vec<String> {
        let rules = || {
            (Area::ALL.iter().copied().map(Refusal::Areas))
                .chain(ImageRule::ALL.iter().copied().map(Refusal::Image))
                .chain(FaultRule::ALL.iter().copied().map(Refusal::Faults))
                .chain(ExtentRule::ALL.iter().copied().map(Refusal::Extent))
        };
        let mut never = Vec::new();
        for call in AREA_CALLS {
            never.extend(missing(call, &self.total(call)));
        }
        for &model in Model::ALL {
            let on = |what: String| format!("model {}: {what}", model.number());
            let rules = rules().filter(|&rule| self.times_broken(rule, Some(model)) == 0);
            never.extend(rules.map(|rule| on(format!("{rule:?}"))));
            let of_model = self.models.get(&model);
            let of_model = of_model.map_or_else(|| vec!["inputs".into()], OfModel::never_seen);
            never.extend(of_model.into_iter().map(on));
        }
        for call in MODEL_CALLS {
            let numbers = models::others();
            let numbers = numbers.filter(|&number| !self.others.contains_key(&(call, number)));
            never.extend(numbers.map(|number| format!("{} of model {number}", call.name)));
        }
        never
    }

    /// What there are too few of.
    pub fn too_few(&self) -> Vec<String> {
        let models = self.models.iter().flat_map(|(model, of_model)| {
            let on = move |what: String| format!("model {}: {what}", model.number());
            let too_few = of_model.too_few(*model).into_iter();
            let half = 5 * of_model.compared() >= 2 * self.compared;
            let inputs = (!half).then(|| "two inputs of five".to_string());
            too_few.chain(inputs).map(on)
        });
        models.collect()
    }

    fn kinds(&self, call: Call) -> impl Iterator<Item = (&(Call, &'static str), &Answers)> {
        self.answers.iter().filter(move |((of, _), _)| *of == call)
    }

    fn total(&self, call: Call) -> Answers {
        let mut total = Answers::new();
        for (answer, times) in self.kinds(call).flat_map(|(_, answers)| answers) {
            *total.entry(*answer).or_default() += times;
        }
        total
    }
}

/// Each answer and how often it was seen.
struct Counts<'a>(&'a Answers);

impl fmt::Display for Counts<'_> {
    fn fmt(&self, out: &mut fmt::Formatter) -> fmt::Result {
        self.0
            .iter()
            .try_for_each(|(answer, times)| write!(out, "  {answer}: {times:<7}"))
    }
}
