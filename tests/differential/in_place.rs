//! Which bytes of storage a recovery may change, asked of what it left there.

/// Pattern bytes of a report.
pub const MOST_CHANGED: usize = 3;

/// How many bytes of storage are not as they were.
pub fn changed(before: &[u8], after: &[u8]) -> usize {
    before
        .iter()
        .zip(after)
        .filter(|(old, new)| old != new)
        .count()
}

/// What is wrong with so many bytes changed by an answer that corrects, or by one that does not.
pub fn wrong(changed: usize, corrects: bool) -> Option<&'static str> {
    if !corrects && changed > 0 {
        return Some("storage changed without a correction");
    }
    (changed > MOST_CHANGED).then_some("more than three bytes of storage changed")
}

#[cfg(test)]
mod tests {
    use super::*;

    #[test]
    fn three_bytes_by_a_correction() {
        for (after, corrects, is_wrong) in [
            ([1, 2, 3, 4, 5], false, false),
            ([1, 2, 3, 4, 0], false, true),
            ([1, 2, 3, 4, 5], true, false),
            ([0, 2, 0, 4, 0], true, false),
            ([0, 2, 0, 0, 0], true, true),
        ] {
            let changed = changed(&[1, 2, 3, 4, 5], &after);
            assert_eq!(wrong(changed, corrects).is_some(), is_wrong, "{after:?}");
        }
    }
}
