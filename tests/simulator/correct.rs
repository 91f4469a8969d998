//! The error correction of action 5.

use super::channel::Stretch;
use super::cut::CutRead;
use super::report::Report;

/// What becomes of a pattern byte.
#[derive(Clone, Copy, Debug, PartialEq, Eq, PartialOrd, Ord)]
pub enum Fate {
    /// Exclusive-ored into this byte of storage.
    Stored(usize),
    /// It does not lie below the error displacement.
    PastTheDataArea,
    PastTheCounts,
    Skipped,
    /// A later byte of the same read lies where it lay.
    Overwritten,
}

/// Of the pattern bytes in order.
pub fn fates(read: &CutRead, report: &Report) -> [Fate; 3] {
    let (restart, error) = (report.restart_displacement(), report.error_displacement());
    [0, 1, 2].map(|i| {
        if i < error {
            fate_of(restart - error + i, &read.stretches)
        } else {
            Fate::PastTheDataArea
        }
    })
}

/// Of the pattern byte that belongs to this byte of the read.
fn fate_of(place: usize, stretches: &[Stretch]) -> Fate {
    let holds = |stretch: &Stretch| stretch.length_from(place) > 0 && stretch.from <= place;
    let Some(at) = stretches.iter().position(holds) else {
        return Fate::PastTheCounts;
    };
    let Some(storage) = stretches[at].storage else {
        return Fate::Skipped;
    };
    let byte = storage + place - stretches[at].from;
    let overwrites = |later: &Stretch| {
        let first = later.storage;
        first.is_some_and(|first| (first..first + later.length).contains(&byte))
    };
    if stretches[at + 1..].iter().any(overwrites) {
        Fate::Overwritten
    } else {
        Fate::Stored(byte)
    }
}

pub fn mend(storage: &mut [u8], fates: [Fate; 3], pattern: [u8; 3]) {
    for (fate, pattern) in fates.into_iter().zip(pattern) {
        if let Fate::Stored(at) = fate {
            storage[at] ^= pattern;
        }
    }
}

#[cfg(test)]
mod tests {
    use super::*;
    use crate::simulator::channel::{CCW_LENGTH, FLAG_CHAIN_DATA as CD};
    use crate::simulator::encode::ccw;

    use Fate::{Overwritten, PastTheCounts, PastTheDataArea, Skipped, Stored};

    /// Of a read by these CCWs with these displacements; the CSW is as it must be.
    fn fates_of(ccws: &[[u8; CCW_LENGTH]], restart: u16, error: u16, csw: [u8; 8]) -> [Fate; 3] {
        let mut sense = [0; 24];
        sense[16..18].copy_from_slice(&restart.to_be_bytes());
        sense[18..20].copy_from_slice(&error.to_be_bytes());
        let report = Report {
            sense,
            csw,
            ..Report::default()
        };
        let read = CutRead::of(&ccws.concat(), &report, 600).unwrap();
        fates(&read, &report)
    }

    const BEHIND_TWO: [u8; 8] = [0, 0, 0, 0x10, 0x0E, 0, 0, 0];

    #[test]
    fn t9_to_t11() {
        let apart = [ccw(0x06, 100, CD, 78), ccw(0x06, 500, 0, 2)];
        let t9 = fates_of(&apart, 80, 3, BEHIND_TWO);
        assert_eq!(t9, [Stored(177), Stored(500), Stored(501)]);
        let t10 = fates_of(&apart, 80, 1, BEHIND_TWO);
        assert_eq!(t10, [Stored(501), PastTheDataArea, PastTheDataArea]);
        let overlapping = [ccw(0x06, 100, CD, 4), ccw(0x06, 102, 0, 4)];
        let t11 = fates_of(&overlapping, 8, 6, BEHIND_TWO);
        assert_eq!(t11, [Overwritten, Overwritten, Stored(102)]);
    }

    #[test]
    fn displacement_of_two() {
        let one = [ccw(0x06, 100, 0, 4)];
        let csw = [0, 0, 0, 8, 0x0E, 0, 0, 0];
        let fates = fates_of(&one, 4, 2, csw);
        assert_eq!(fates, [Stored(102), Stored(103), PastTheDataArea]);
        let fates = fates_of(&one, 4, 4, csw);
        assert_eq!(fates, [Stored(100), Stored(101), Stored(102)]);
    }

    /// The example of document 000: A at 100, B at 200, C at 300.
    #[test]
    fn worked_example_of_the_3880() {
        let ccws = [
            ccw(0x0E, 100, CD, 2),
            ccw(0x08, 0x10, 0, 0),
            ccw(0x00, 200, CD | 0x10, 4),
            ccw(0x00, 300, 0x20, 1),
        ];
        let csw = [0, 0, 0, 0x20, 0x0E, 0, 0, 0];
        let fates = fates_of(&ccws, 12, 7, csw);
        assert_eq!(fates, [Skipped, Stored(300), PastTheCounts]);
        let mut storage = [0; 600];
        mend(&mut storage, fates, [0x03, 0xE0, 0x80]);
        assert_eq!(storage[300], 0xE0);
        assert_eq!(storage.iter().filter(|&&byte| byte != 0).count(), 1);
    }

    #[test]
    fn skipped_bytes_overwrite_nothing() {
        let ccws = [ccw(0x06, 100, CD, 4), ccw(0x06, 100, 0x10, 4)];
        let fates = fates_of(&ccws, 8, 8, BEHIND_TWO);
        assert_eq!(fates, [Stored(100), Stored(101), Stored(102)]);
    }

    #[test]
    fn only_bytes_that_arrived_overwrite() {
        let ccws = [ccw(0x06, 100, CD, 4), ccw(0x06, 100, 0x20, 4)];
        let csw = [0, 0, 0, 0x10, 0x0E, 0, 0, 3];
        let fates = fates_of(&ccws, 5, 5, csw);
        assert_eq!(fates, [Overwritten, Stored(101), Stored(102)]);
    }

    #[test]
    fn byte_before_the_pattern_overwrites_nothing() {
        let ccws = [ccw(0x06, 102, CD, 4), ccw(0x06, 100, 0, 4)];
        let fates = fates_of(&ccws, 8, 4, BEHIND_TWO);
        assert_eq!(fates, [Stored(100), Stored(101), Stored(102)]);
    }

    #[test]
    fn mending_twice_changes_nothing() {
        let fates = [Stored(1), Stored(2), Overwritten];
        let mut storage = [7; 4];
        mend(&mut storage, fates, [1, 2, 4]);
        assert_eq!(storage, [7, 6, 5, 7]);
        mend(&mut storage, fates, [1, 2, 4]);
        assert_eq!(storage, [7; 4]);
    }
}
