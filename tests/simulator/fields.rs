//! Tagged fields: one-byte tag, two-byte length of what follows, contents.

#[derive(Clone, Copy, Debug, PartialEq, Eq)]
pub struct Field<'a> {
    pub tag: u8,
    pub contents: &'a [u8],
}

/// The bytes end before the field does.
#[derive(Clone, Copy, Debug, PartialEq, Eq)]
pub struct Torn;

/// The first field and the bytes behind it.
pub fn split_field(bytes: &[u8]) -> Result<(Field<'_>, &[u8]), Torn> {
    let (&[tag, high, low], behind) = bytes.split_first_chunk().ok_or(Torn)?;
    let length = u16::from_be_bytes([high, low]).into();
    let (contents, rest) = behind.split_at_checked(length).ok_or(Torn)?;
    Ok((Field { tag, contents }, rest))
}

/// The fields in order. A torn one is the last.
pub struct Fields<'a> {
    rest: &'a [u8],
}

impl<'a> Fields<'a> {
    pub fn of(bytes: &'a [u8]) -> Fields<'a> {
        Fields { rest: bytes }
    }
}

impl<'a> Iterator for Fields<'a> {
    type Item = Result<Field<'a>, Torn>;

    fn next(&mut self) -> Option<Self::Item> {
        if self.rest.is_empty() {
            return None;
        }
        let split = split_field(self.rest);
        self.rest = split.map_or(&[], |(_, rest)| rest);
        Some(split.map(|(field, _)| field))
    }
}

#[cfg(test)]
mod tests {
    use super::*;

    #[test]
    fn fields_in_order() {
        let bytes = [0x01, 0, 2, 0xAA, 0xBB, 0x02, 0, 0];
        let fields: Vec<_> = Fields::of(&bytes).collect();
        let first = Field {
            tag: 0x01,
            contents: &[0xAA, 0xBB],
        };
        let second = Field {
            tag: 0x02,
            contents: &[],
        };
        assert_eq!(fields, [Ok(first), Ok(second)]);
    }

    #[test]
    fn no_bytes_no_fields() {
        assert_eq!(Fields::of(&[]).next(), None);
    }

    #[test]
    fn length_is_big_endian() {
        let mut bytes = vec![0x10, 1, 0];
        bytes.resize(3 + 256, 7);
        let (field, rest) = split_field(&bytes).unwrap();
        assert_eq!((field.contents.len(), rest.len()), (256, 0));
    }

    #[test]
    fn torn_in_head_or_contents() {
        for bytes in [&[1][..], &[1, 0], &[1, 0, 1], &[1, 1, 0, 0]] {
            let fields: Vec<_> = Fields::of(bytes).collect();
            assert_eq!(fields, [Err(Torn)]);
        }
    }
}
