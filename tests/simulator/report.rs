//! Question 4: the report of a unit check, fields with ascending tags.

use super::channel::{CHANNEL_INCORRECT_LENGTH, UNIT_CHECK};
use super::drive::{Sense, MASK_REJECTED};
use super::fields::Fields;
use super::run::Outcome;

pub const SENSE: u8 = 0x10;
pub const CSW: u8 = 0x11;
pub const FIRST_CCW: u8 = 0x12;
pub const FILE_MASK: u8 = 0x13;
pub const SEEK_ARGUMENT: u8 = 0x14;
pub const TRIES: u8 = 0x15;

/// Bit 7: PCI fetch mode.
pub const MASK_PCI_FETCH: u8 = 0x01;

/// Bits 3 to 7 of sense 6.
pub const HEAD_REACHED: u8 = 0x1F;

/// By default of zeros, and without what there may be none of.
#[derive(Clone, Debug, Default, PartialEq, Eq)]
pub struct Report {
    pub sense: Sense,
    pub csw: [u8; 8],
    /// Address of the read's first CCW.
    pub first: usize,
    /// None where no mask was set.
    pub mask: Option<u8>,
    /// The user's.
    pub seek_argument: Option<[u8; 6]>,
    /// Tries made.
    pub tries: u8,
}

rules! {
    /// What is not well formed in a report: first the fields, then what they hold.
    ReportRule {
        Torn,
        Tag,
        NotAscending,
        Missing,
        Length,
        CswFirstByte,
        MaskBits,
    }
}

impl Report {
    /// Of a run that a faulted data area cut; none where nothing did.
    pub fn of_cut(outcome: &Outcome) -> Option<Report> {
        outcome.cut.map(|first| Report {
            sense: outcome.sense,
            csw: outcome.csw,
            first,
            mask: outcome.mask,
            ..Report::default()
        })
    }

    pub fn decode(bytes: &[u8]) -> Result<Report, ReportRule> {
        let [sense, csw, first, mask, seek_argument, tries] = by_tag(bytes)?;
        let report = Report {
            sense: needed(sense)?,
            csw: needed(csw)?,
            first: u16::from_be_bytes(needed(first)?).into(),
            mask: optional(mask)?.map(u8::from_be_bytes),
            seek_argument: optional(seek_argument)?,
            tries: optional(tries)?.map_or(0, u8::from_be_bytes),
        };
        if report.csw[0] != 0 {
            return Err(ReportRule::CswFirstByte);
        }
        if report.mask.is_some_and(|mask| mask & MASK_REJECTED != 0) {
            return Err(ReportRule::MaskBits);
        }
        Ok(report)
    }

    /// The CSW's address: that of the last CCW, plus 8.
    pub fn address(&self) -> usize {
        u32::from_be_bytes([0, self.csw[1], self.csw[2], self.csw[3]]) as usize
    }

    pub fn count_left(&self) -> usize {
        u16::from_be_bytes([self.csw[6], self.csw[7]]).into()
    }

    pub fn shows_incorrect_length(&self) -> bool {
        self.csw[5] & CHANNEL_INCORRECT_LENGTH != 0
    }

    pub fn csw_less_unit_check(&self) -> [u8; 8] {
        let mut csw = self.csw;
        csw[4] &= !UNIT_CHECK;
        csw
    }

    /// Counts from the front of the read to the end of the data area.
    pub fn restart_displacement(&self) -> usize {
        u32::from_be_bytes([0, self.sense[15], self.sense[16], self.sense[17]]) as usize
    }

    /// Counts from the end of the data area.
    pub fn error_displacement(&self) -> usize {
        u16::from_be_bytes([self.sense[18], self.sense[19]]).into()
    }

    pub fn pattern(&self) -> [u8; 3] {
        [self.sense[20], self.sense[21], self.sense[22]]
    }

    /// Sense 3: the command of restart CCW 1.
    pub fn restart_command(&self) -> u8 {
        self.sense[3]
    }

    pub fn sector(&self) -> u8 {
        self.sense[13]
    }

    /// "the head from sense byte 6, bits 3 to 7".
    pub fn head_reached(&self) -> u16 {
        u16::from(self.sense[6] & HEAD_REACHED)
    }

    pub fn is_pci_fetch_mode(&self) -> bool {
        self.mask.unwrap_or(0) & MASK_PCI_FETCH != 0
    }
}

/// Contents of the fields, tags 10 to 15 in order.
fn by_tag(bytes: &[u8]) -> Result<[Option<&[u8]>; 6], ReportRule> {
    let mut contents = [None; 6];
    let mut least = SENSE;
    for field in Fields::of(bytes) {
        let field = field.map_err(|_| ReportRule::Torn)?;
        if !(SENSE..=TRIES).contains(&field.tag) {
            return Err(ReportRule::Tag);
        }
        if field.tag < least {
            return Err(ReportRule::NotAscending);
        }
        contents[usize::from(field.tag - SENSE)] = Some(field.contents);
        least = field.tag + 1;
    }
    Ok(contents)
}

fn needed<const LENGTH: usize>(contents: Option<&[u8]>) -> Result<[u8; LENGTH], ReportRule> {
    optional(contents)?.ok_or(ReportRule::Missing)
}

fn optional<const LENGTH: usize>(
    contents: Option<&[u8]>,
) -> Result<Option<[u8; LENGTH]>, ReportRule> {
    let fixed = |contents: &[u8]| contents.try_into().map_err(|_| ReportRule::Length);
    contents.map(fixed).transpose()
}

#[cfg(test)]
mod tests {
    use super::*;
    use crate::simulator::encode::{self, put_field};

    /// All fields, each byte its own tag but the CSW's first and the mask.
    fn fields() -> Vec<(u8, Vec<u8>)> {
        vec![
            (SENSE, vec![SENSE; 24]),
            (CSW, vec![0, 1, 2, 3, 0x0E, 0x40, 4, 5]),
            (FIRST_CCW, vec![0x01, 0x20]),
            (FILE_MASK, vec![0xD9]),
            (SEEK_ARGUMENT, vec![SEEK_ARGUMENT; 6]),
            (TRIES, vec![9]),
        ]
    }

    fn written(fields: &[(u8, Vec<u8>)]) -> Vec<u8> {
        let mut bytes = Vec::new();
        for (tag, contents) in fields {
            put_field(&mut bytes, *tag, contents);
        }
        bytes
    }

    fn rule(fields: &[(u8, Vec<u8>)]) -> Option<ReportRule> {
        Report::decode(&written(fields)).err()
    }

    #[test]
    fn all_fields() {
        let report = Report::decode(&written(&fields())).unwrap();
        assert_eq!(report.sense, [SENSE; 24]);
        assert_eq!((report.first, report.mask), (0x0120, Some(0xD9)));
        assert_eq!(report.seek_argument, Some([SEEK_ARGUMENT; 6]));
        assert_eq!(report.tries, 9);
        assert_eq!((report.address(), report.count_left()), (0x01_0203, 0x0405));
        assert!(report.shows_incorrect_length() && report.is_pci_fetch_mode());
        assert_eq!(report.csw_less_unit_check(), [0, 1, 2, 3, 0x0C, 0x40, 4, 5]);
        assert_eq!(encode::report(&report), written(&fields()));
    }

    #[test]
    fn places_in_the_sense() {
        let mut fields = fields();
        for (at, byte) in fields[0].1.iter_mut().enumerate() {
            *byte = at as u8;
        }
        let report = Report::decode(&written(&fields)).unwrap();
        assert_eq!(report.restart_command(), 3);
        assert_eq!(report.sector(), 13);
        assert_eq!(report.head_reached(), 6);
        assert_eq!(report.restart_displacement(), 0x0F_1011);
        assert_eq!(report.error_displacement(), 0x1213);
        assert_eq!(report.pattern(), [20, 21, 22]);
    }

    #[test]
    fn the_last_three_may_be_absent() {
        for left_out in 0..8 {
            let mut some = fields();
            for place in (0..3).rev() {
                if left_out & 1 << place != 0 {
                    some.remove(3 + place);
                }
            }
            assert_eq!(rule(&some), None);
        }
        let report = Report::decode(&written(&fields()[..3])).unwrap();
        assert_eq!((report.mask, report.seek_argument), (None, None));
        assert_eq!(report.tries, 0);
        assert!(!report.is_pci_fetch_mode());
    }

    #[test]
    fn the_first_three_may_not() {
        for missing in 0..3 {
            let mut some = fields();
            some.remove(missing);
            assert_eq!(rule(&some), Some(ReportRule::Missing));
        }
        assert_eq!(rule(&[]), Some(ReportRule::Missing));
    }

    #[test]
    fn tags_ascend() {
        for place in 0..5 {
            let mut traded = fields();
            traded.swap(place, place + 1);
            assert_eq!(rule(&traded), Some(ReportRule::NotAscending));
        }
        for place in 0..6 {
            let mut doubled = fields();
            doubled.insert(place, doubled[place].clone());
            assert_eq!(rule(&doubled), Some(ReportRule::NotAscending));
        }
    }

    #[test]
    fn no_other_tag() {
        for tag in [0x00, 0x0F, 0x16, 0x20, 0xFF] {
            for place in 0..=6 {
                let mut more = fields();
                more.insert(place, (tag, vec![0]));
                assert_eq!(rule(&more), Some(ReportRule::Tag));
            }
        }
    }

    #[test]
    fn each_field_has_one_length() {
        for place in 0..6 {
            let mut longer = fields();
            longer[place].1.push(0);
            assert_eq!(rule(&longer), Some(ReportRule::Length));
            let mut shorter = fields();
            shorter[place].1.pop();
            assert_eq!(rule(&shorter), Some(ReportRule::Length));
        }
    }

    #[test]
    fn torn_anywhere() {
        let bytes = written(&fields());
        let mut end = 0;
        let ends: Vec<usize> = fields()
            .iter()
            .map(|(_, contents)| {
                end += 3 + contents.len();
                end
            })
            .collect();
        for length in 1..bytes.len() {
            let torn = Report::decode(&bytes[..length]).err() == Some(ReportRule::Torn);
            assert_eq!(torn, !ends.contains(&length));
        }
        let mut behind = bytes;
        behind.push(0x16);
        assert_eq!(Report::decode(&behind), Err(ReportRule::Torn));
    }

    #[test]
    fn what_fields_hold() {
        let mut wrong = fields();
        wrong[1].1[0] = 1;
        assert_eq!(rule(&wrong), Some(ReportRule::CswFirstByte));
        for mask in 0..=255 {
            let mut masked = fields();
            masked[3].1[0] = mask;
            let refused = mask & 0x26 != 0;
            assert_eq!(rule(&masked), refused.then_some(ReportRule::MaskBits));
        }
    }
}
