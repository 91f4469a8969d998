//! Questions 6 and 7: the error table.

use super::drive::Sense;

rules! {
    /// What the table sends to. 10A is chosen from 10 by the interrupted CCW, 5A from 5 by the next.
    Action {
        One,
        Two,
        Three,
        Four,
        Five,
        Six,
        SixA,
        Seven,
        Eight,
        Nine,
        Ten,
        Eleven,
    }
}

impl Action {
    /// Whether a recovery knows the action.
    pub fn is_known(self) -> bool {
        !matches!(self, Action::Six | Action::SixA | Action::Seven)
    }
}

pub struct Row {
    /// Byte and bit.
    pub bits: &'static [(usize, u8)],
    pub action: Action,
}

const fn row(bits: &'static [(usize, u8)], action: Action) -> Row {
    Row { bits, action }
}

pub const TABLE: [Row; 20] = [
    row(&[(0, 0), (1, 6)], Action::One),
    row(&[(0, 0)], Action::Two),
    row(&[(0, 1)], Action::Three),
    row(&[(0, 2)], Action::Three),
    row(&[(0, 3), (1, 0)], Action::One),
    row(&[(0, 3)], Action::Four),
    row(&[(0, 4), (1, 0)], Action::One),
    row(&[(0, 4), (1, 7), (2, 1)], Action::Six),
    row(&[(0, 4), (1, 7)], Action::SixA),
    row(&[(0, 4), (2, 1)], Action::Five),
    row(&[(0, 5), (1, 0)], Action::One),
    row(&[(0, 5)], Action::Four),
    row(&[(1, 1)], Action::Two),
    row(&[(1, 2), (1, 7)], Action::Nine),
    row(&[(1, 2)], Action::Eight),
    row(&[(1, 4)], Action::Two),
    row(&[(1, 5), (1, 7)], Action::Eleven),
    row(&[(1, 5)], Action::Ten),
    row(&[(1, 7)], Action::Seven),
    row(&[(2, 3)], Action::Three),
];

impl Row {
    fn has_all_on(&self, sense: &Sense) -> bool {
        self.bits.iter().all(|&(byte, bit)| is_on(sense, byte, bit))
    }
}

/// Bit 0 is a byte's highest.
pub fn is_on(sense: &Sense, byte: usize, bit: u8) -> bool {
    sense[byte] & 0x80 >> bit != 0
}

/// Place in the table of the first row that has all its bits on.
pub fn row_of(sense: &Sense) -> Option<usize> {
    TABLE.iter().position(|row| row.has_all_on(sense))
}

#[cfg(test)]
mod tests {
    use super::*;

    fn action(front: [u8; 3]) -> Option<Action> {
        let mut sense = [0; 24];
        sense[..3].copy_from_slice(&front);
        row_of(&sense).map(|row| TABLE[row].action)
    }

    #[test]
    fn t1_to_t8_rows() {
        assert_eq!(action([0x08, 0x00, 0x40]), Some(Action::Five));
        assert_eq!(action([0x08, 0x01, 0x40]), Some(Action::Six));
        assert!(!Action::Six.is_known());
        assert_eq!(action([0x08, 0x80, 0x40]), Some(Action::One));
        assert_eq!(action([0x08, 0x00, 0x00]), None);
        assert_eq!(action([0x00, 0x20, 0x00]), Some(Action::Eight));
        assert_eq!(action([0x80, 0x02, 0x00]), Some(Action::One));
        assert_eq!(action([0x10, 0x00, 0x00]), Some(Action::Four));
    }

    #[test]
    fn each_row_by_its_own_bits() {
        let rows = [
            ([0x80, 0x02, 0x00], Action::One),
            ([0x80, 0x00, 0x00], Action::Two),
            ([0x40, 0x00, 0x00], Action::Three),
            ([0x20, 0x00, 0x00], Action::Three),
            ([0x10, 0x80, 0x00], Action::One),
            ([0x10, 0x00, 0x00], Action::Four),
            ([0x08, 0x80, 0x00], Action::One),
            ([0x08, 0x01, 0x40], Action::Six),
            ([0x08, 0x01, 0x00], Action::SixA),
            ([0x08, 0x00, 0x40], Action::Five),
            ([0x04, 0x80, 0x00], Action::One),
            ([0x04, 0x00, 0x00], Action::Four),
            ([0x00, 0x40, 0x00], Action::Two),
            ([0x00, 0x21, 0x00], Action::Nine),
            ([0x00, 0x20, 0x00], Action::Eight),
            ([0x00, 0x08, 0x00], Action::Two),
            ([0x00, 0x05, 0x00], Action::Eleven),
            ([0x00, 0x04, 0x00], Action::Ten),
            ([0x00, 0x01, 0x00], Action::Seven),
            ([0x00, 0x00, 0x10], Action::Three),
        ];
        for (place, (front, expected)) in rows.into_iter().enumerate() {
            let mut sense = [0; 24];
            sense[..3].copy_from_slice(&front);
            assert_eq!(row_of(&sense), Some(place));
            assert_eq!(TABLE[place].action, expected);
        }
    }

    #[test]
    fn first_row_wins() {
        assert_eq!(action([0xFF, 0xFF, 0xFF]), Some(Action::One));
        assert_eq!(action([0xFF, 0xFD, 0xFF]), Some(Action::Two));
        assert_eq!(action([0x0C, 0x00, 0x00]), Some(Action::Four));
        assert_eq!(action([0x0C, 0x80, 0x00]), Some(Action::One));
        assert_eq!(action([0x00, 0x2D, 0x00]), Some(Action::Nine));
        assert_eq!(action([0x00, 0x0D, 0x00]), Some(Action::Two));
        assert_eq!(action([0x00, 0x01, 0x10]), Some(Action::Seven));
    }

    #[test]
    fn bits_of_no_row() {
        for front in [[0, 0, 0], [0x03, 0x92, 0xEF], [0x0B, 0x12, 0xAF]] {
            assert_eq!(action(front), None);
        }
    }

    #[test]
    fn bytes_behind_the_third_choose_nothing() {
        let mut sense = [0xFF; 24];
        sense[..3].fill(0);
        assert_eq!(row_of(&sense), None);
    }
}
