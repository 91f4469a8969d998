//! Question 3: the fault list.

use super::fields::Fields;
use super::pack::{Pack, TrackAddress};
use std::collections::btree_map::{BTreeMap, Entry};

pub const FAULT: u8 = 0x20;

/// A data area that arrives changed.
#[derive(Clone, Copy, Debug, PartialEq, Eq)]
pub struct Fault {
    pub track: TrackAddress,
    /// The record number R.
    pub number: u8,
    /// From the end of the data area.
    pub error_displacement: u16,
    pub pattern: [u8; 3],
}

rules! {
    /// What is not well formed in a fault list; the first that a pass from the front meets.
    FaultRule {
        Torn,
        Tag,
        Length,
        R0,
        NotInImage,
        Displacement,
        RecordTwice,
    }
}

impl Fault {
    fn decode(contents: &[u8]) -> Result<Fault, FaultRule> {
        let &[c0, c1, h0, h1, number, e0, e1, p0, p1, p2] = contents else {
            return Err(FaultRule::Length);
        };
        Ok(Fault {
            track: TrackAddress::decode(&[c0, c1, h0, h1]),
            number,
            error_displacement: u16::from_be_bytes([e0, e1]),
            pattern: [p0, p1, p2],
        })
    }

    fn check(&self, pack: &Pack) -> Result<(), FaultRule> {
        if self.number == 0 {
            return Err(FaultRule::R0);
        }
        let record = pack
            .record(self.track, self.number)
            .ok_or(FaultRule::NotInImage)?;
        if !(1..=record.data.len()).contains(&self.error_displacement.into()) {
            return Err(FaultRule::Displacement);
        }
        Ok(())
    }
}

/// At most one fault for each record.
#[derive(Debug, Default)]
pub struct FaultList {
    by_record: BTreeMap<(TrackAddress, u8), Fault>,
}

impl FaultList {
    /// The faults may stand in any order.
    pub fn decode(list: &[u8], pack: &Pack) -> Result<FaultList, FaultRule> {
        let mut faults = FaultList::default();
        for field in Fields::of(list) {
            let field = field.map_err(|_| FaultRule::Torn)?;
            if field.tag != FAULT {
                return Err(FaultRule::Tag);
            }
            let fault = Fault::decode(field.contents)?;
            fault.check(pack)?;
            match faults.by_record.entry((fault.track, fault.number)) {
                Entry::Occupied(_) => return Err(FaultRule::RecordTwice),
                Entry::Vacant(entry) => entry.insert(fault),
            };
        }
        Ok(faults)
    }

    /// The fault of a record; none where the list does not name it.
    pub fn of(&self, track: TrackAddress, number: u8) -> Option<&Fault> {
        self.by_record.get(&(track, number))
    }

    /// Every fault, ascending by track and R.
    pub fn iter(&self) -> impl Iterator<Item = &Fault> {
        self.by_record.values()
    }
}

#[cfg(test)]
mod tests {
    use super::*;
    use crate::simulator::areas::Area;
    use crate::simulator::{answer, check_faults, encode, sample, Refusal};

    /// The sample's fault.
    const R1: Fault = Fault {
        track: TrackAddress {
            cylinder: 0,
            head: 1,
        },
        number: 1,
        error_displacement: 3,
        pattern: [0, 1, 0],
    };

    /// The sample's fault with another displacement, for R1 or another record.
    fn displaced(number: u8, error_displacement: u16) -> Fault {
        Fault {
            number,
            error_displacement,
            ..R1
        }
    }

    fn list(faults: &[Fault]) -> Vec<u8> {
        let mut bytes = Vec::new();
        for &fault in faults {
            encode::put_fault(&mut bytes, fault);
        }
        bytes
    }

    /// Checked over the sample image.
    fn checked(list: &[u8]) -> Result<FaultList, Refusal> {
        check_faults(1, &sample::IMAGE, list).map(|(_, faults)| faults)
    }

    fn refused(list: &[u8], rule: FaultRule) {
        assert_eq!(checked(list).err(), Some(Refusal::Faults(rule)));
    }

    #[test]
    fn sample_is_well_formed() {
        let faults = checked(&sample::FAULTS).unwrap();
        assert_eq!(faults.of(R1.track, 1), Some(&R1));
        assert_eq!(faults.of(R1.track, 2), None);
        assert_eq!(list(&[R1]), sample::FAULTS);
    }

    #[test]
    fn no_faults() {
        assert!(checked(&[]).is_ok());
    }

    #[test]
    fn any_order() {
        let r2 = displaced(2, 3);
        assert_eq!(checked(&list(&[r2, R1])).unwrap().iter().count(), 2);
        assert_eq!(checked(&list(&[R1, r2])).unwrap().iter().count(), 2);
    }

    #[test]
    fn displacement_is_1_to_the_data_length() {
        for displacement in [1, 4] {
            assert!(checked(&list(&[displaced(1, displacement)])).is_ok());
        }
        for displacement in [0, 5, 0x0104] {
            let list = list(&[displaced(1, displacement)]);
            refused(&list, FaultRule::Displacement);
        }
    }

    #[test]
    fn no_fault_without_data() {
        // The sample with R2's data taken away: field length 8, data length 0.
        let mut image = sample::IMAGE[..53].to_vec();
        image[44] = 8;
        image[52] = 0;
        for displacement in [0, 1] {
            let list = list(&[displaced(2, displacement)]);
            let refusal = check_faults(1, &image, &list).err();
            assert_eq!(refusal, Some(Refusal::Faults(FaultRule::Displacement)));
        }
    }

    #[test]
    fn any_pattern() {
        for pattern in [[0; 3], [0xFF; 3]] {
            assert!(checked(&list(&[Fault { pattern, ..R1 }])).is_ok());
        }
    }

    #[test]
    fn r_from_1() {
        refused(&list(&[Fault { number: 0, ..R1 }]), FaultRule::R0);
    }

    #[test]
    fn record_not_in_the_image() {
        refused(&list(&[Fault { number: 3, ..R1 }]), FaultRule::NotInImage);
        for (cylinder, head) in [(0, 0), (1, 1), (0, 0x0101), (0x0100, 1)] {
            let track = TrackAddress { cylinder, head };
            refused(&list(&[Fault { track, ..R1 }]), FaultRule::NotInImage);
        }
    }

    #[test]
    fn one_per_record() {
        let [r2, other_error] = [displaced(2, 3), displaced(1, 1)];
        refused(&list(&[R1, R1]), FaultRule::RecordTwice);
        refused(&list(&[R1, r2, other_error]), FaultRule::RecordTwice);
    }

    #[test]
    fn other_length() {
        for length in [0, 9, 11] {
            let mut contents = encode::fault(R1).to_vec();
            contents.resize(length, 0);
            let mut bytes = Vec::new();
            encode::put_field(&mut bytes, FAULT, &contents);
            refused(&bytes, FaultRule::Length);
        }
    }

    #[test]
    fn torn_or_other_tag() {
        for length in 1..sample::FAULTS.len() {
            refused(&sample::FAULTS[..length], FaultRule::Torn);
        }
        let mut bytes = sample::FAULTS;
        bytes[0] = 0x02;
        refused(&bytes, FaultRule::Tag);
    }

    #[test]
    fn lowest_number_wins() {
        let bad_image = &sample::IMAGE[..20];
        let number = |image: &[u8], list: &[u8]| answer(&check_faults(1, image, list));
        assert_eq!(number(bad_image, &[0xFF]), 2);
        assert_eq!(number(&sample::IMAGE, &[0xFF]), 3);
        assert_eq!(number(bad_image, &vec![0; 65_537]), 1);
        assert_eq!(number(&vec![0; 1_048_577], &[0xFF]), 1);
        for model in [0, 2, 10, 12, 255] {
            let refused = check_faults(model, bad_image, &[0xFF]);
            assert_eq!(refused.err(), Some(Refusal::Model));
        }
        let past = check_faults(1, &sample::IMAGE, &vec![0x20; 65_537]);
        assert_eq!(past.err(), Some(Refusal::Areas(Area::FaultList)));
    }
}
