//! The models of inputs, the cylinders at the ends of their packs, and numbers that are no model's.

use crate::random::Random;
use crate::simulator::model::Model;
use crate::simulator::pack::{TrackAddress, LAST_HEAD};

/// The last cylinder of each model's pack and the one behind it, ascending.
pub const BORDERS: [u16; 4] = [
    Model::One.last_cylinder(),
    Model::One.last_cylinder() + 1,
    Model::Eleven.last_cylinder(),
    Model::Eleven.last_cylinder() + 1,
];

/// Those that a pack of this model has.
pub fn borders_on(model: Model) -> &'static [u16] {
    let behind = |cylinder: &u16| *cylinder > model.last_cylinder();
    let end = BORDERS.iter().position(behind);
    &BORDERS[..end.unwrap_or(BORDERS.len())]
}

/// Whether only packs of model 11 have this cylinder.
pub fn is_above_model_1(cylinder: u16) -> bool {
    cylinder > Model::One.last_cylinder()
}

/// Every track of these cylinders, on packs of each model.
pub fn border_tracks() -> impl Iterator<Item = (Model, TrackAddress)> {
    let tracks = BORDERS.iter().flat_map(|&cylinder| {
        let heads = 0..=LAST_HEAD;
        heads.map(move |head| TrackAddress { cylinder, head })
    });
    Model::ALL
        .iter()
        .flat_map(move |&model| tracks.clone().map(move |track| (model, track)))
}

/// A track at the end of one pack or another, or behind it.
pub fn border_track(random: &mut Random) -> TrackAddress {
    on_cylinder(random, &BORDERS)
}

/// A track at the end of a pack of this model, or where one of a smaller model would end.
pub fn border_track_on(random: &mut Random, model: Model) -> TrackAddress {
    on_cylinder(random, borders_on(model))
}

fn on_cylinder(random: &mut Random, cylinders: &[u16]) -> TrackAddress {
    let any = random.within(0..=LAST_HEAD.into()) as u16;
    TrackAddress {
        cylinder: random.pick(cylinders),
        head: random.pick(&[0, LAST_HEAD - 1, LAST_HEAD, any]),
    }
}

/// The model of an input that is not refused for it.
pub fn model_of(number: u8) -> Model {
    Model::check(number).expect("the number of a model")
}

/// Every number that is no model's.
pub fn others() -> impl Iterator<Item = u8> {
    (0..=255).filter(|&number| Model::check(number).is_err())
}

/// Any of them, often one that a slip would take for a model's.
pub fn any_other(random: &mut Random) -> u8 {
    let others: Vec<u8> = others().collect();
    let any = random.pick(&others);
    random.pick(&[0, 2, 10, 12, 17, 129, 139, 255, any, any])
}

#[cfg(test)]
mod tests {
    use super::*;

    #[test]
    fn borders() {
        assert_eq!(BORDERS, [410, 411, 814, 815]);
        assert_eq!(borders_on(Model::One), [410]);
        assert_eq!(borders_on(Model::Eleven), [410, 411, 814]);
        assert_eq!(BORDERS.map(is_above_model_1), [false, true, true, true]);
    }

    #[test]
    fn other_numbers() {
        let all: Vec<u8> = others().collect();
        assert_eq!(all.len(), 254);
        assert!(!all.contains(&1) && !all.contains(&11));
        let mut random = Random::new(1);
        assert!((0..1_000).all(|_| all.contains(&any_other(&mut random))));
    }
}
