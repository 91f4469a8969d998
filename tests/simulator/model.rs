//! The models of pack: 3336 model 1 and model 11.

use super::Refusal;

rules! {
    Model {
        One,
        Eleven,
    }
}

impl Model {
    /// Question 1 of the number that a caller gives.
    pub fn check(number: u8) -> Result<Model, Refusal> {
        let named = |model: &&Model| model.number() == number;
        Model::ALL.iter().find(named).copied().ok_or(Refusal::Model)
    }

    pub const fn number(self) -> u8 {
        match self {
            Model::One => 1,
            Model::Eleven => 11,
        }
    }

    pub const fn last_cylinder(self) -> u16 {
        match self {
            Model::One => 410,
            Model::Eleven => 814,
        }
    }
}

#[cfg(test)]
mod tests {
    use super::*;
    use crate::simulator::answer;
    use crate::simulator::pack::TrackAddress;

    #[test]
    fn numbers_1_and_11() {
        assert_eq!(Model::check(1), Ok(Model::One));
        assert_eq!(Model::check(11), Ok(Model::Eleven));
        for number in (0..=255).filter(|number| ![1, 11].contains(number)) {
            assert_eq!(Model::check(number), Err(Refusal::Model));
            assert_eq!(answer(&Model::check(number)), 1);
        }
    }

    #[test]
    fn cylinders_of_a_pack() {
        for (cylinder, one, eleven) in [
            (0, true, true),
            (410, true, true),
            (411, false, true),
            (814, false, true),
            (815, false, false),
            (0xFFFF, false, false),
        ] {
            let [first, last, behind] = [0, 18, 19].map(|head| TrackAddress { cylinder, head });
            for track in [first, last] {
                assert_eq!(track.on_pack(Model::One), one);
                assert_eq!(track.on_pack(Model::Eleven), eleven);
            }
            assert!(Model::ALL.iter().all(|&model| !behind.on_pack(model)));
        }
    }
}
