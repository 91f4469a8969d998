//! What is looked for at the ends of packs. Wherever a call judges a cylinder, each of `BORDERS` must be seen
//! often: taken on packs that have it, refused on the others.

use crate::calls::{
    Call, CHECK_EXTENT, CHECK_FAULTS, CHECK_IMAGE, READING, RECOVER, RUN, RUN_RESTART,
};
use crate::models::{is_above_model_1, BORDERS};
use crate::reports::GeneratedRecovery;
use crate::simulator::channel::Ccw;
use crate::simulator::drive::{Done, Drive, RejectRule, UnitCheck, SEEK};
use crate::simulator::extent::ExtentRule;
use crate::simulator::fields::Fields;
use crate::simulator::interrupted::InterruptedRule;
use crate::simulator::model::Model;
use crate::simulator::pack::{ImageRule, TrackAddress, HOME_ADDRESS, LAST_HEAD};
use crate::simulator::reading::{End, Reading, Recovery, Stop};
use crate::simulator::recovery::{Answer, NotBuilt, Recovered, RestartAction};
use crate::simulator::report::Report;
use crate::simulator::run::Watch;
use crate::simulator::table::{row_of, Action, TABLE};
use crate::simulator::Refusal;
use std::collections::{BTreeMap, BTreeSet};
use std::fmt;

/// Where a cylinder is judged.
#[derive(Clone, Copy, Debug, PartialEq, Eq, PartialOrd, Ord)]
pub enum Place {
    /// A track of the image.
    Image,
    ExtentFirst,
    ExtentLast,
    /// The drive's.
    Seek,
    /// A data area that cuts a run.
    Cut,
    /// Tag 14, where the table sends to this action.
    SeekArgument(Action),
    /// The seek of a restart, on the cylinder that the report names or on the next one.
    Restart(RestartAction, On),
}

#[derive(Clone, Copy, Debug, PartialEq, Eq, PartialOrd, Ord)]
pub enum On {
    ItsCylinder,
    TheNext,
}

impl Place {
    fn is_of_the_next(self) -> bool {
        matches!(self, Place::Restart(_, On::TheNext))
    }

    /// Whether a cylinder that the pack lacks does not come so far: the image has none, or tag 14 was
    /// asked for before.
    fn is_on_the_pack(self) -> bool {
        match self {
            Place::Cut => true,
            Place::Restart(action, _) => {
                !matches!(action, RestartAction::Five | RestartAction::FiveA)
            }
            _ => false,
        }
    }
}

const PLACES: [(Place, &[Call]); 18] = [
    (
        Place::Image,
        &[CHECK_IMAGE, CHECK_FAULTS, RUN, RUN_RESTART, READING],
    ),
    (Place::ExtentFirst, &[CHECK_EXTENT, RECOVER, READING]),
    (Place::ExtentLast, &[CHECK_EXTENT, RECOVER, READING]),
    (Place::Seek, &[RUN, RUN_RESTART, READING]),
    (Place::Cut, &[RUN, RUN_RESTART, READING]),
    (Place::SeekArgument(Action::Eight), &[RECOVER]),
    (Place::SeekArgument(Action::Nine), &[RECOVER]),
    (Place::SeekArgument(Action::Ten), &[RECOVER]),
    (Place::SeekArgument(Action::Eleven), &[RECOVER]),
    (
        Place::Restart(RestartAction::Five, On::ItsCylinder),
        &[RECOVER],
    ),
    (
        Place::Restart(RestartAction::FiveA, On::ItsCylinder),
        &[RECOVER],
    ),
    (
        Place::Restart(RestartAction::Eight, On::TheNext),
        &[RECOVER],
    ),
    (Place::Restart(RestartAction::Nine, On::TheNext), &[RECOVER]),
    (
        Place::Restart(RestartAction::Ten, On::ItsCylinder),
        &[RECOVER],
    ),
    (
        Place::Restart(RestartAction::TenA, On::ItsCylinder),
        &[RECOVER],
    ),
    (Place::Restart(RestartAction::TenA, On::TheNext), &[RECOVER]),
    (
        Place::Restart(RestartAction::Eleven, On::ItsCylinder),
        &[RECOVER],
    ),
    (
        Place::Restart(RestartAction::Eleven, On::TheNext),
        &[RECOVER],
    ),
];

rules! {
    /// What there is above the last cylinder of model 1, on packs that have more.
    AboveEvent {
        RestartOutsideTheExtent,
        ProtectedStepAnswered,
        ReadingCut,
        ReadingCutTwice,
        ReadingCutBelowToo,
        ReadingStopped,
        DemandThree,
        DemandThreeCutBelowToo,
    }
}

/// A cylinder judged, and whether it was taken.
#[derive(Clone, Copy, Debug, PartialEq, Eq, PartialOrd, Ord)]
pub struct Judged {
    pub place: Place,
    pub cylinder: u16,
    pub taken: bool,
}

/// What one call judged.
#[derive(Default)]
pub struct Borders {
    judged: BTreeSet<Judged>,
    above: BTreeSet<AboveEvent>,
    /// The track of the data area that cut the last run.
    cut: Option<TrackAddress>,
}

impl Borders {
    fn see(&mut self, place: Place, track: TrackAddress, taken: bool) {
        // Off the pack by the head, it tells nothing of the cylinder.
        if BORDERS.contains(&track.cylinder) && track.head <= LAST_HEAD {
            self.judged.insert(Judged {
                place,
                cylinder: track.cylinder,
                taken,
            });
        }
    }

    pub fn meet_if(&mut self, met: bool, event: AboveEvent) {
        if met {
            self.above.insert(event);
        }
    }

    /// Of an image that was not refused, or for this.
    pub fn see_image(&mut self, model: Model, image: &[u8], refusal: Option<Refusal>) {
        match refusal {
            Some(Refusal::Image(ImageRule::OffThePack)) => {
                let off = home_addresses(image).find(|track| !track.on_pack(model));
                self.see(Place::Image, off.expect("a track off the pack"), false);
            }
            Some(Refusal::Model | Refusal::Areas(_) | Refusal::Image(_)) => (),
            _ => {
                for track in home_addresses(image) {
                    self.see(Place::Image, track, true);
                }
            }
        }
    }

    /// Of an extent that was not refused, or for this.
    pub fn see_extent(&mut self, model: Model, extent: &[u8], refusal: Option<Refusal>) {
        let refused = match refusal {
            Some(Refusal::Extent(ExtentRule::OffThePack)) => true,
            Some(refusal) if refusal.number() <= 5 => return,
            _ => false,
        };
        for (place, at) in [(Place::ExtentFirst, 0), (Place::ExtentLast, 4)] {
            let track = TrackAddress::decode(&extent[at..at + 4]);
            if !refused || !track.on_pack(model) {
                self.see(place, track, !refused);
            }
        }
    }

    pub fn see_cut(&mut self, sense: &[u8; 24]) {
        self.see(Place::Cut, TrackAddress::decode(&sense[8..12]), true);
    }

    /// Of tag 14 and of the restart.
    pub fn see_recovery(
        &mut self,
        recovery: &GeneratedRecovery,
        recovered: &Result<Recovered, Refusal>,
    ) {
        let Ok(report) = Report::decode(&recovery.report) else {
            return;
        };
        let off_the_pack = Refusal::Interrupted(InterruptedRule::SeekOffThePack);
        let taken = match recovered {
            Ok(_) => true,
            Err(refusal) if *refusal == off_the_pack => false,
            Err(_) => return,
        };
        let sought = report.seek_argument.unwrap_or_default();
        let sought = TrackAddress::decode(&sought[2..]);
        let action = row_of(&report.sense).map(|row| TABLE[row].action);
        if let Some(action @ (Action::Eight | Action::Nine | Action::Ten | Action::Eleven)) = action
        {
            self.see(Place::SeekArgument(action), sought, taken);
        }
        let answer = recovered.as_ref().map(|recovered| &recovered.answer);
        let (action, built) = match answer {
            Ok(Answer::Restart(action)) => (*action, true),
            Ok(Answer::NotBuilt(action, NotBuilt::OffThePack)) => (*action, false),
            Ok(Answer::NotBuilt(action, NotBuilt::OutsideTheExtent)) => {
                let (track, _) = named(*action, &report, sought);
                self.meet_if(
                    is_above_model_1(track.cylinder),
                    AboveEvent::RestartOutsideTheExtent,
                );
                return;
            }
            _ => return,
        };
        let (track, on) = named(action, &report, sought);
        self.see(Place::Restart(action, on), track, built);
    }

    /// Of the cuts of a reading that began, and of demand 3 where it was asked.
    pub fn see_reading(&mut self, read: &Reading, is_demanded: bool) {
        for recovery in &read.recoveries {
            self.see(Place::Cut, recovery.track(), true);
        }
        let cylinders = read.recoveries.iter().map(Recovery::track);
        let (above, below): (Vec<_>, Vec<_>) =
            cylinders.partition(|track| is_above_model_1(track.cylinder));
        let (cut, both) = (!above.is_empty(), !above.is_empty() && !below.is_empty());
        let stopped = read.end == End::Stopped(Stop::Action2)
            && self
                .cut
                .is_some_and(|track| is_above_model_1(track.cylinder));
        self.meet_if(cut, AboveEvent::ReadingCut);
        self.meet_if(above.len() > 1, AboveEvent::ReadingCutTwice);
        self.meet_if(both, AboveEvent::ReadingCutBelowToo);
        self.meet_if(stopped, AboveEvent::ReadingStopped);
        self.meet_if(cut && is_demanded, AboveEvent::DemandThree);
        self.meet_if(both && is_demanded, AboveEvent::DemandThreeCutBelowToo);
    }
}

impl Watch for Borders {
    fn command(&mut self, ccw: &Ccw, argument: &[u8], done: &Result<Done, UnitCheck>, _: &Drive) {
        if let Ok(Done::Read(arriving)) = done {
            let faulted = arriving.data_area.filter(|area| area.fault.is_some());
            self.cut = faulted.map(|area| area.track);
        }
        let &[0, 0, c0, c1, h0, h1] = argument else {
            return;
        };
        let taken = match done {
            Ok(_) => true,
            Err(UnitCheck::Reject(RejectRule::SeekOffThePack)) => false,
            Err(_) => return,
        };
        if ccw.command == SEEK {
            let track = TrackAddress::decode(&[c0, c1, h0, h1]);
            self.see(Place::Seek, track, taken);
        }
    }
}

/// Of each field that is a home address.
fn home_addresses(image: &[u8]) -> impl Iterator<Item = TrackAddress> + '_ {
    let fields = Fields::of(image).map_while(Result::ok);
    fields.filter_map(|field| match (field.tag, field.contents) {
        (HOME_ADDRESS, &[_, c0, c1, zero, head]) => {
            Some(TrackAddress::decode(&[c0, c1, zero, head]))
        }
        _ => None,
    })
}

/// The track that a report names for a restart by this action, and which cylinder the restart seeks.
fn named(action: RestartAction, report: &Report, sought: TrackAddress) -> (TrackAddress, On) {
    match action {
        RestartAction::Five | RestartAction::FiveA => {
            let track = TrackAddress::decode(&report.sense[8..12]);
            (track, On::ItsCylinder)
        }
        RestartAction::Eight | RestartAction::Nine => (sought, On::TheNext),
        RestartAction::Ten => (sought, On::ItsCylinder),
        RestartAction::TenA | RestartAction::Eleven if report.head_reached() < LAST_HEAD => {
            (sought, On::ItsCylinder)
        }
        RestartAction::TenA | RestartAction::Eleven => (sought, On::TheNext),
    }
}

/// The fewest of each that are enough; a cylinder is judged once for each head, at least.
const FEWEST_JUDGED: u64 = LAST_HEAD as u64 + 1;
const FEWEST_ABOVE: u64 = 50;

/// How often calls on packs of one model judged these cylinders.
#[derive(Default)]
pub struct BorderTally {
    judged: BTreeMap<(Call, Judged), u64>,
    above: BTreeMap<AboveEvent, u64>,
}

impl BorderTally {
    pub fn count(&mut self, call: Call, borders: Borders) {
        for judged in borders.judged {
            *self.judged.entry((call, judged)).or_default() += 1;
        }
        for event in borders.above {
            *self.above.entry(event).or_default() += 1;
        }
    }

    pub fn times_above(&self, event: AboveEvent) -> u64 {
        self.above.get(&event).copied().unwrap_or(0)
    }

    fn times(&self, call: Call, judged: Judged) -> u64 {
        self.judged.get(&(call, judged)).copied().unwrap_or(0)
    }

    /// What was not seen often enough on packs of this model.
    pub fn seldom_seen(&self, model: Model) -> Vec<String> {
        let judged = wanted(model).into_iter();
        let judged = judged
            .filter(|&(call, judged)| self.times(call, judged) < FEWEST_JUDGED)
            .map(|(call, judged)| format!("{}, {judged}", call.name));
        let above = above(model).iter();
        let above = above
            .filter(|&&event| self.times_above(event) < FEWEST_ABOVE)
            .map(|event| format!("above model 1, {event:?}"));
        judged.chain(above).collect()
    }

    pub fn print(&self, model: Model) {
        println!("cylinders at the ends of packs");
        for (call, judged) in wanted(model) {
            let (times, name) = (self.times(call, judged), call.name);
            println!("  {name:<22}{:<36}{times:>10}", judged.to_string());
        }
        for &event in above(model) {
            let times = self.times_above(event);
            println!("  {:<58}{times:>10}", format!("above model 1, {event:?}"));
        }
    }
}

/// All that packs of this model must be judged by, taken or refused as it must be.
fn wanted(model: Model) -> Vec<(Call, Judged)> {
    let last = model.last_cylinder();
    let all = PLACES.iter().flat_map(|&(place, calls)| {
        let cylinders = BORDERS.iter().copied();
        let comes = move |cylinder: &u16| *cylinder <= last || !place.is_on_the_pack();
        cylinders.filter(comes).flat_map(move |cylinder| {
            let judged = Judged {
                place,
                cylinder,
                taken: cylinder + u16::from(place.is_of_the_next()) <= last,
            };
            calls.iter().map(move |&call| (call, judged))
        })
    });
    all.collect()
}

fn above(model: Model) -> &'static [AboveEvent] {
    match model {
        Model::One => &[],
        Model::Eleven => AboveEvent::ALL,
    }
}

impl fmt::Display for Judged {
    fn fmt(&self, out: &mut fmt::Formatter) -> fmt::Result {
        let how = match self.taken {
            true => "taken",
            false => "refused",
        };
        match self.place {
            Place::SeekArgument(action) => write!(out, "tag 14 for {action:?}")?,
            Place::Restart(action, On::ItsCylinder) => write!(out, "restart {action:?} at")?,
            Place::Restart(action, On::TheNext) => write!(out, "restart {action:?} behind")?,
            place => write!(out, "{place:?}")?,
        }
        write!(out, " {} {how}", self.cylinder)
    }
}

#[cfg(test)]
mod tests {
    use super::*;
    use crate::simulator::encode::{self, ccw};
    use crate::simulator::extent::whole_pack;
    use crate::simulator::{check_extent, check_image, sample};

    fn at(cylinder: u16, head: u16) -> TrackAddress {
        TrackAddress { cylinder, head }
    }

    fn seen(borders: Borders) -> Vec<(Place, u16, bool)> {
        let judged = borders.judged.into_iter();
        judged
            .map(|judged| (judged.place, judged.cylinder, judged.taken))
            .collect()
    }

    fn of_image(model: Model, tracks: &[TrackAddress]) -> Vec<(Place, u16, bool)> {
        let mut image = Vec::new();
        for &track in tracks {
            encode::put_home_address(&mut image, track);
            encode::put_record(&mut image, track, 0, &[], &[]);
        }
        let refusal = check_image(model.number(), &image).err();
        let mut borders = Borders::default();
        borders.see_image(model, &image, refusal);
        seen(borders)
    }

    #[test]
    fn images() {
        let tracks = [at(0, 0), at(410, 18), at(411, 0), at(814, 3)];
        let refused = [(Place::Image, 411, false)];
        assert_eq!(of_image(Model::One, &tracks), refused);
        let taken = [410, 411, 814].map(|cylinder| (Place::Image, cylinder, true));
        assert_eq!(of_image(Model::Eleven, &tracks), taken);
        assert_eq!(of_image(Model::Eleven, &[at(814, 19)]), []);
        assert_eq!(of_image(Model::One, &[at(815, 0)])[0].1, 815);
        assert_eq!(of_image(Model::One, &[at(1, 1), at(1, 1)]), []);
    }

    #[test]
    fn extents() {
        let judged = |model: Model, first, last| {
            let extent = [first, last].map(encode::track_address).concat();
            let refusal = check_extent(model.number(), &extent).err();
            let mut borders = Borders::default();
            borders.see_extent(model, &extent, refusal);
            seen(borders)
        };
        let (first, last) = (Place::ExtentFirst, Place::ExtentLast);
        let over = (at(410, 0), at(411, 0));
        assert_eq!(judged(Model::One, over.0, over.1), [(last, 411, false)]);
        let taken = [(first, 410, true), (last, 411, true)];
        assert_eq!(judged(Model::Eleven, over.0, over.1), taken);
        assert_eq!(judged(Model::Eleven, over.1, over.0), []);
        let behind = at(815, 0);
        let refused = [(first, 815, false), (last, 815, false)];
        assert_eq!(judged(Model::Eleven, behind, behind), refused);
    }

    /// Of the search at 0010, or of its seek, interrupted on this model.
    fn of_report(model: Model, front: [u8; 3], sought: u16, head: u8) -> Vec<(Place, u16, bool)> {
        let mut sense = [0; 24];
        sense[..3].copy_from_slice(&front);
        sense[6] = head;
        let [c0, c1] = sought.to_be_bytes();
        let report = Report {
            sense,
            csw: [0, 0, 0, 0x10, 0x0E, 0, 0, 0],
            seek_argument: Some([0, 0, c0, c1, 0, 3]),
            ..Report::default()
        };
        let recovery = GeneratedRecovery {
            model: model.number(),
            chain: sample::CHAIN.to_vec(),
            report: encode::report(&report),
            extent: whole_pack(model).to_vec(),
            ..GeneratedRecovery::default()
        };
        let mut borders = Borders::default();
        borders.see_recovery(&recovery, &recovery.clone().simulated());
        seen(borders)
    }

    #[test]
    fn restarts() {
        const EIGHT: [u8; 3] = [0, 0x20, 0];
        const TEN: [u8; 3] = [0, 0x04, 0];
        let eight = Place::Restart(RestartAction::Eight, On::TheNext);
        let tag_14 = Place::SeekArgument(Action::Eight);
        for (model, sought, built) in [
            (Model::One, 410, false),
            (Model::Eleven, 410, true),
            (Model::Eleven, 411, true),
            (Model::Eleven, 814, false),
        ] {
            let expected = [(tag_14, sought, true), (eight, sought, built)];
            assert_eq!(of_report(model, EIGHT, sought, 0), expected);
        }
        let refused = [(tag_14, 411, false)];
        assert_eq!(of_report(Model::One, EIGHT, 411, 0), refused);
        let tag_14 = Place::SeekArgument(Action::Ten);
        for (head, on) in [(17, On::ItsCylinder), (18, On::TheNext)] {
            let ten_a = Place::Restart(RestartAction::TenA, on);
            for (model, sought, last) in [
                (Model::One, 410, true),
                (Model::Eleven, 410, false),
                (Model::Eleven, 814, true),
            ] {
                let built = on == On::ItsCylinder || !last;
                let expected = [(tag_14, sought, true), (ten_a, sought, built)];
                assert_eq!(of_report(model, TEN, sought, head), expected);
            }
        }
    }

    #[test]
    fn seeks() {
        for (model, taken) in [(1, false), (11, true)] {
            for (argument, judged) in [([0, 0, 1, 0x9B, 0, 18], 1), ([0, 1, 1, 0x9B, 0, 18], 0)] {
                let mut run = crate::chains::GeneratedRun {
                    model,
                    chain: ccw(0x07, 0, 0, 6).to_vec(),
                    arguments: argument.to_vec(),
                    ..sample::run()
                };
                let mut borders = Borders::default();
                run.watched(&mut borders).expect("the run is not refused");
                let expected = [(Place::Seek, 411, taken)];
                assert_eq!(seen(borders), expected[..judged]);
            }
        }
    }

    #[test]
    fn what_is_wanted() {
        let wanted = |model, place| {
            let all = super::wanted(model).into_iter();
            let all = all.filter(move |(_, judged)| judged.place == place);
            all.map(|(_, judged)| (judged.cylinder, judged.taken))
                .collect::<BTreeSet<_>>()
        };
        let carried = Place::Restart(RestartAction::TenA, On::TheNext);
        let [one, eleven] = [Model::One, Model::Eleven];
        assert_eq!(wanted(one, carried), BTreeSet::from([(410, false)]));
        let expected = [(410, true), (411, true), (814, false)];
        assert_eq!(wanted(eleven, carried), BTreeSet::from(expected));
        let expected = [(410, true), (411, false), (814, false), (815, false)];
        assert_eq!(wanted(one, Place::Seek), BTreeSet::from(expected));
        let expected = [(410, true), (411, true), (814, true), (815, false)];
        assert_eq!(wanted(eleven, Place::Image), BTreeSet::from(expected));
    }
}
