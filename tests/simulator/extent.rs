//! Question 5: the extent, first and last track as cylinder 2, head 2.

use super::model::Model;
use super::pack::{TrackAddress, LAST_HEAD};

/// From the pack's first track to its last.
pub fn whole_pack(model: Model) -> [u8; 8] {
    let [c0, c1] = model.last_cylinder().to_be_bytes();
    let [h0, h1] = LAST_HEAD.to_be_bytes();
    [0, 0, 0, 0, c0, c1, h0, h1]
}

#[derive(Clone, Copy, Debug, PartialEq, Eq)]
pub struct Extent {
    pub first: TrackAddress,
    pub last: TrackAddress,
}

rules! {
    ExtentRule {
        OffThePack,
        FirstAfterLast,
    }
}

impl Extent {
    /// Takes 8 bytes: question 1 has been asked.
    pub fn decode(bytes: &[u8], model: Model) -> Result<Extent, ExtentRule> {
        let [first, last] = [0, 4].map(|at| TrackAddress::decode(&bytes[at..at + 4]));
        if !first.on_pack(model) || !last.on_pack(model) {
            return Err(ExtentRule::OffThePack);
        }
        if first > last {
            return Err(ExtentRule::FirstAfterLast);
        }
        Ok(Extent { first, last })
    }

    pub fn contains(&self, track: TrackAddress) -> bool {
        (self.first..=self.last).contains(&track)
    }
}

#[cfg(test)]
mod tests {
    use super::*;
    use crate::simulator::areas::Area;
    use crate::simulator::{answer, check_extent, sample, Refusal};

    fn checked(first: (u16, u16), last: (u16, u16)) -> Result<(), Refusal> {
        check_extent(1, &written(first, last)).map(|_| ())
    }

    fn written(first: (u16, u16), last: (u16, u16)) -> Vec<u8> {
        let words = [first.0, first.1, last.0, last.1];
        words.iter().flat_map(|word| word.to_be_bytes()).collect()
    }

    #[test]
    fn sample_is_track_1_only() {
        let extent = check_extent(1, &sample::EXTENT).unwrap();
        let only = TrackAddress {
            cylinder: 0,
            head: 1,
        };
        assert_eq!((extent.first, extent.last), (only, only));
    }

    #[test]
    fn edges_of_the_pack() {
        assert_eq!(checked((0, 0), (410, 18)), Ok(()));
        let off = Err(Refusal::Extent(ExtentRule::OffThePack));
        assert_eq!(checked((0, 0), (411, 0)), off);
        assert_eq!(checked((0, 0), (0, 19)), off);
        assert_eq!(checked((0, 19), (1, 0)), off);
        assert_eq!(checked((0, 0), (0, 256)), off);
        assert_eq!(checked((411, 0), (411, 0)), off);
    }

    #[test]
    fn first_not_after_last() {
        let after = Err(Refusal::Extent(ExtentRule::FirstAfterLast));
        assert_eq!(checked((9, 18), (9, 18)), Ok(()));
        assert_eq!(checked((9, 18), (10, 0)), Ok(()));
        assert_eq!(checked((9, 18), (9, 17)), after);
        assert_eq!(checked((10, 0), (9, 18)), after);
    }

    #[test]
    fn tracks_from_first_to_last() {
        let extent = check_extent(1, &[0, 1, 0, 17, 0, 3, 0, 0]).unwrap();
        for (cylinder, head, inside) in [
            (1, 16, false),
            (1, 17, true),
            (1, 18, true),
            (2, 0, true),
            (2, 18, true),
            (3, 0, true),
            (3, 1, false),
            (0, 18, false),
            (4, 0, false),
        ] {
            let track = TrackAddress { cylinder, head };
            assert_eq!(extent.contains(track), inside);
        }
    }

    #[test]
    fn another_length_is_question_1() {
        for length in [0, 4, 7, 9, 16] {
            let refused = Err(Refusal::Areas(Area::Extent));
            assert_eq!(check_extent(1, &vec![0; length]), refused);
        }
    }

    #[test]
    fn last_cylinder_is_the_models() {
        for (cylinder, one, eleven) in [
            (0, 0, 0),
            (410, 0, 0),
            (411, 5, 0),
            (814, 5, 0),
            (815, 5, 5),
        ] {
            let track = (cylinder, 18);
            for extent in [written((0, 0), track), written(track, track)] {
                assert_eq!(answer(&check_extent(1, &extent)), one);
                assert_eq!(answer(&check_extent(11, &extent)), eleven);
            }
        }
    }

    #[test]
    fn whole_packs() {
        assert_eq!(whole_pack(Model::One), [0, 0, 0, 0, 0x01, 0x9A, 0, 18]);
        assert_eq!(whole_pack(Model::Eleven), [0, 0, 0, 0, 0x03, 0x2E, 0, 18]);
    }

    #[test]
    fn another_model_is_question_1() {
        for model in [0, 2, 10, 12, 255] {
            assert_eq!(check_extent(model, &sample::EXTENT), Err(Refusal::Model));
            assert_eq!(check_extent(model, &[]), Err(Refusal::Model));
        }
    }
}
