//! Question 2: the pack image, tracks in ascending order, each a home address and its records.

use super::fields::Fields;
use super::model::Model;
use std::ops::Range;

pub const HOME_ADDRESS: u8 = 0x01;
pub const RECORD: u8 = 0x02;

pub const LAST_HEAD: u16 = 18;

/// The most bytes that a record's key and data have together.
pub const LONGEST_RECORD: usize = 13_030;

/// Tracks are ordered by cylinder, then by head.
#[derive(Clone, Copy, Debug, PartialEq, Eq, PartialOrd, Ord)]
pub struct TrackAddress {
    pub cylinder: u16,
    pub head: u16,
}

impl TrackAddress {
    /// From cylinder 2, head 2: four bytes.
    pub fn decode(bytes: &[u8]) -> TrackAddress {
        TrackAddress {
            cylinder: u16::from_be_bytes([bytes[0], bytes[1]]),
            head: u16::from_be_bytes([bytes[2], bytes[3]]),
        }
    }

    pub fn on_pack(self, model: Model) -> bool {
        self.cylinder <= model.last_cylinder() && self.head <= LAST_HEAD
    }
}

#[derive(Clone, Copy, Debug, PartialEq, Eq)]
pub struct Record<'a> {
    pub count_area: &'a [u8; 8],
    pub key: &'a [u8],
    pub data: &'a [u8],
}

impl<'a> Record<'a> {
    fn decode(contents: &'a [u8]) -> Result<Record<'a>, ImageRule> {
        let (count_area, rest) = contents
            .split_first_chunk::<8>()
            .ok_or(ImageRule::CountAreaCut)?;
        let key_length = usize::from(count_area[5]);
        let data_length = usize::from(u16::from_be_bytes([count_area[6], count_area[7]]));
        if rest.len() != key_length + data_length {
            return Err(ImageRule::Lengths);
        }
        if rest.len() > LONGEST_RECORD {
            return Err(ImageRule::RecordTooLong);
        }
        let (key, data) = rest.split_at(key_length);
        Ok(Record {
            count_area,
            key,
            data,
        })
    }

    pub fn track(&self) -> TrackAddress {
        TrackAddress::decode(&self.count_area[..4])
    }

    /// The record number R.
    pub fn number(&self) -> u8 {
        self.count_area[4]
    }
}

rules! {
    /// What is not well formed in an image; the first that a pass from the front meets.
    ImageRule {
        Torn,
        Tag,
        HomeAddressLength,
        FlagByte,
        ZeroByte,
        OffThePack,
        TracksNotAscending,
        RecordOutsideTrack,
        CountAreaCut,
        Lengths,
        RecordTooLong,
        OtherTrack,
        R0NotFirst,
        NumberTwice,
        TrackWithoutR0,
    }
}

fn decode_home_address(contents: &[u8], model: Model) -> Result<TrackAddress, ImageRule> {
    let &[flag, c0, c1, zero, head] = contents else {
        return Err(ImageRule::HomeAddressLength);
    };
    if flag != 0 {
        return Err(ImageRule::FlagByte);
    }
    if zero != 0 {
        return Err(ImageRule::ZeroByte);
    }
    let address = TrackAddress::decode(&[c0, c1, 0, head]);
    if !address.on_pack(model) {
        return Err(ImageRule::OffThePack);
    }
    Ok(address)
}

/// The track whose records are being met.
struct OpenTrack {
    address: TrackAddress,
    /// One bit for each R met.
    numbers: [u64; 4],
}

impl OpenTrack {
    fn new(address: TrackAddress) -> OpenTrack {
        OpenTrack {
            address,
            numbers: [0; 4],
        }
    }

    /// R0 comes first, so a track without it has no records.
    fn has_r0(&self) -> bool {
        self.numbers[0] & 1 != 0
    }

    fn admit(&mut self, record: &Record) -> Result<(), ImageRule> {
        if record.track() != self.address {
            return Err(ImageRule::OtherTrack);
        }
        let number = record.number();
        if !self.has_r0() && number != 0 {
            return Err(ImageRule::R0NotFirst);
        }
        let word = &mut self.numbers[usize::from(number / 64)];
        let bit = 1 << (number % 64);
        if *word & bit != 0 {
            return Err(ImageRule::NumberTwice);
        }
        *word |= bit;
        Ok(())
    }

    fn close(&self) -> Result<(), ImageRule> {
        if self.has_r0() {
            Ok(())
        } else {
            Err(ImageRule::TrackWithoutR0)
        }
    }
}

/// One pass over an image; `visit` gets every record that is well formed so far, in order.
fn walk<'a>(
    image: &'a [u8],
    model: Model,
    mut visit: impl FnMut(Record<'a>),
) -> Result<(), ImageRule> {
    let mut open: Option<OpenTrack> = None;
    for field in Fields::of(image) {
        let field = field.map_err(|_| ImageRule::Torn)?;
        match field.tag {
            HOME_ADDRESS => {
                let address = decode_home_address(field.contents, model)?;
                if let Some(track) = &open {
                    track.close()?;
                    if track.address >= address {
                        return Err(ImageRule::TracksNotAscending);
                    }
                }
                open = Some(OpenTrack::new(address));
            }
            RECORD => {
                let track = open.as_mut().ok_or(ImageRule::RecordOutsideTrack)?;
                let record = Record::decode(field.contents)?;
                track.admit(&record)?;
                visit(record);
            }
            _ => return Err(ImageRule::Tag),
        }
    }
    open.map_or(Ok(()), |track| track.close())
}

/// Whether the image is well formed, with nothing kept.
pub fn check(image: &[u8], model: Model) -> Result<(), ImageRule> {
    walk(image, model, |_| ())
}

/// A well formed image taken apart.
#[derive(Debug, Default)]
pub struct Pack<'a> {
    /// All records as they stand in the image.
    records: Vec<Record<'a>>,
    /// Ascending, each with the places of its records in `records`.
    tracks: Vec<(TrackAddress, Range<usize>)>,
}

impl<'a> Pack<'a> {
    pub fn decode(image: &'a [u8], model: Model) -> Result<Pack<'a>, ImageRule> {
        let mut pack = Pack::default();
        walk(image, model, |record| pack.push(record))?;
        Ok(pack)
    }

    /// R0 opens a track.
    fn push(&mut self, record: Record<'a>) {
        let place = self.records.len();
        if record.number() == 0 {
            self.tracks.push((record.track(), place..place));
        }
        self.records.push(record);
        if let Some((_, places)) = self.tracks.last_mut() {
            places.end = self.records.len();
        }
    }

    /// Every track, ascending, with its records.
    pub fn tracks(&self) -> impl Iterator<Item = (TrackAddress, &[Record<'a>])> {
        self.tracks
            .iter()
            .map(|(address, places)| (*address, &self.records[places.clone()]))
    }

    /// The records of a track, R0 first; none where the track is not in the image.
    pub fn track(&self, address: TrackAddress) -> Option<&[Record<'a>]> {
        let at = self
            .tracks
            .binary_search_by_key(&address, |(address, _)| *address)
            .ok()?;
        Some(&self.records[self.tracks[at].1.clone()])
    }

    pub fn record(&self, track: TrackAddress, number: u8) -> Option<&Record<'a>> {
        self.track(track)?
            .iter()
            .find(|record| record.number() == number)
    }
}

#[cfg(test)]
mod tests {
    use super::*;
    use crate::simulator::areas::Area;
    use crate::simulator::{check_image, encode, large, sample, Refusal};

    fn at(cylinder: u16, head: u16) -> TrackAddress {
        TrackAddress { cylinder, head }
    }

    /// An image written field by field.
    #[derive(Default)]
    struct Written(Vec<u8>);

    impl Written {
        fn field(mut self, tag: u8, contents: &[u8]) -> Written {
            encode::put_field(&mut self.0, tag, contents);
            self
        }

        fn home(mut self, track: TrackAddress) -> Written {
            encode::put_home_address(&mut self.0, track);
            self
        }

        /// A record with no key and two bytes of data.
        fn record(self, track: TrackAddress, number: u8) -> Written {
            self.sized(track, number, 0, 2)
        }

        fn sized(mut self, track: TrackAddress, number: u8, key: usize, data: usize) -> Written {
            let (key, data) = (vec![0xEE; key], vec![0xDD; data]);
            encode::put_record(&mut self.0, track, number, &key, &data);
            self
        }

        /// Home address and R0.
        fn track(self, track: TrackAddress) -> Written {
            self.home(track).record(track, 0)
        }

        fn checked(&self) -> Result<(), ImageRule> {
            self.checked_of(Model::One)
        }

        fn checked_of(&self, model: Model) -> Result<(), ImageRule> {
            check(&self.0, model)
        }
    }

    fn image() -> Written {
        Written::default()
    }

    #[test]
    fn sample_is_well_formed() {
        let pack = Pack::decode(&sample::IMAGE, Model::One).unwrap();
        let tracks: Vec<_> = pack.tracks().collect();
        let [(address, [r0, r1, r2])] = tracks[..] else {
            panic!("one track of three records");
        };
        assert_eq!(address, at(0, 1));
        assert_eq!((r0.number(), r0.key, r0.data), (0, &[][..], &[0; 8][..]));
        assert_eq!((r1.number(), r1.data), (1, &[0xC1, 0xC2, 0xC3, 0xC4][..]));
        assert_eq!((r2.number(), r2.data), (2, &[0xD1, 0xD2, 0xD3, 0xD4][..]));
        assert_eq!(r2.count_area, &[0, 0, 0, 1, 2, 0, 0, 4]);
    }

    #[test]
    fn sample_written_again() {
        let track = at(0, 1);
        let mut image = Vec::new();
        encode::put_home_address(&mut image, track);
        encode::put_record(&mut image, track, 0, &[], &[0; 8]);
        encode::put_record(&mut image, track, 1, &[], b"\xC1\xC2\xC3\xC4");
        encode::put_record(&mut image, track, 2, &[], b"\xD1\xD2\xD3\xD4");
        assert_eq!(image, sample::IMAGE);
    }

    #[test]
    fn no_tracks() {
        assert_eq!(image().checked(), Ok(()));
    }

    #[test]
    fn r0_alone() {
        assert_eq!(image().track(at(0, 0)).checked(), Ok(()));
        assert_eq!(image().track(at(0, 0)).track(at(0, 1)).checked(), Ok(()));
    }

    #[test]
    fn others_in_any_order() {
        let track = at(3, 4);
        let mut written = image().track(track);
        for number in (1..=255).rev() {
            written = written.record(track, number);
        }
        assert_eq!(written.checked(), Ok(()));
        let pack = Pack::decode(&written.0, Model::One).unwrap();
        assert_eq!(pack.track(track).unwrap().len(), 256);
        assert_eq!(pack.track(track).unwrap()[1].number(), 255);
    }

    #[test]
    fn same_numbers_on_other_tracks() {
        let [a, b] = [at(0, 0), at(0, 1)];
        let written = image().track(a).record(a, 1).track(b).record(b, 1);
        assert_eq!(written.checked(), Ok(()));
    }

    #[test]
    fn key_and_data_borrow_from_the_image() {
        let track = at(0, 0);
        let written = image()
            .home(track)
            .sized(track, 0, 3, 0)
            .sized(track, 9, 2, 5);
        let pack = Pack::decode(&written.0, Model::One).unwrap();
        let record = pack.record(track, 9).unwrap();
        assert_eq!((record.key, record.data), (&[0xEE; 2][..], &[0xDD; 5][..]));
        let end = written.0.as_ptr_range().end;
        assert_eq!(record.data.as_ptr_range().end, end);
        assert_eq!(pack.record(track, 0).unwrap().key.len(), 3);
    }

    #[test]
    fn what_is_not_in_the_image() {
        let pack = Pack::decode(&sample::IMAGE, Model::One).unwrap();
        assert!(pack.track(at(0, 0)).is_none());
        assert!(pack.track(at(1, 1)).is_none());
        assert!(pack.record(at(0, 1), 3).is_none());
    }

    #[test]
    fn torn() {
        // At 0, 27 and 42 a field ends and the track has its R0, or there is none.
        for length in (0..sample::IMAGE.len()).filter(|length| ![0, 27, 42].contains(length)) {
            let expected = match length {
                8 => ImageRule::TrackWithoutR0,
                _ => ImageRule::Torn,
            };
            let checked = check(&sample::IMAGE[..length], Model::One);
            assert_eq!(checked, Err(expected));
        }
    }

    #[test]
    fn other_tag() {
        for tag in [0x00, 0x03, 0x20, 0xFF] {
            let written = image().track(at(0, 0)).field(tag, &[]);
            assert_eq!(written.checked(), Err(ImageRule::Tag));
        }
    }

    #[test]
    fn home_address_of_another_length() {
        for contents in [&[][..], &[0; 4], &[0; 6]] {
            let written = image().field(HOME_ADDRESS, contents).record(at(0, 0), 0);
            assert_eq!(written.checked(), Err(ImageRule::HomeAddressLength));
        }
    }

    #[test]
    fn flag_and_zero_byte() {
        let flagged = image()
            .field(HOME_ADDRESS, &[1, 0, 0, 0, 0])
            .record(at(0, 0), 0);
        assert_eq!(flagged.checked(), Err(ImageRule::FlagByte));
        let nonzero = image().track(at(0, 256));
        assert_eq!(nonzero.checked(), Err(ImageRule::ZeroByte));
    }

    #[test]
    fn edges_of_the_pack() {
        assert_eq!(image().track(at(0, 0)).track(at(410, 18)).checked(), Ok(()));
        let off = Err(ImageRule::OffThePack);
        assert_eq!(image().track(at(411, 0)).checked(), off);
        assert_eq!(image().track(at(0, 19)).checked(), off);
        assert_eq!(image().track(at(0xFFFF, 0)).checked(), off);
    }

    #[test]
    fn last_cylinder_is_the_models() {
        let off = Err(ImageRule::OffThePack);
        for (cylinder, one, eleven) in [
            (0, Ok(()), Ok(())),
            (410, Ok(()), Ok(())),
            (411, off, Ok(())),
            (814, off, Ok(())),
            (815, off, off),
        ] {
            for head in [0, 18] {
                let written = image().track(at(cylinder, head));
                assert_eq!(written.checked_of(Model::One), one);
                assert_eq!(written.checked_of(Model::Eleven), eleven);
            }
            let written = image().track(at(cylinder, 19));
            assert_eq!(written.checked_of(Model::Eleven), off);
        }
    }

    #[test]
    fn another_model_is_question_1() {
        for model in [0, 2, 10, 12, 255] {
            assert_eq!(check_image(model, &sample::IMAGE), Err(Refusal::Model));
            assert_eq!(check_image(model, &[0]), Err(Refusal::Model));
        }
    }

    #[test]
    fn tracks_strictly_ascending() {
        assert_eq!(image().track(at(0, 18)).track(at(1, 0)).checked(), Ok(()));
        for (first, second) in [
            (at(1, 1), at(1, 1)),
            (at(1, 2), at(1, 1)),
            (at(2, 0), at(1, 18)),
        ] {
            let written = image().track(first).track(second);
            assert_eq!(written.checked(), Err(ImageRule::TracksNotAscending));
        }
    }

    #[test]
    fn record_before_any_home_address() {
        let written = image().record(at(0, 0), 0).track(at(0, 0));
        assert_eq!(written.checked(), Err(ImageRule::RecordOutsideTrack));
    }

    #[test]
    fn count_area_cut() {
        for length in 0..8 {
            let written = image().track(at(0, 0)).field(RECORD, &vec![0; length]);
            assert_eq!(written.checked(), Err(ImageRule::CountAreaCut));
        }
    }

    #[test]
    fn lengths_are_those_of_key_and_data() {
        for (key_length, data_length) in [(2, 3), (4, 3), (3, 2), (3, 4), (3, 259)] {
            let mut contents = encode::record(at(0, 0), 1, &[1; 3], &[2; 3]);
            contents[5] = key_length;
            contents[6..8].copy_from_slice(&u16::to_be_bytes(data_length));
            let written = image().track(at(0, 0)).field(RECORD, &contents);
            assert_eq!(written.checked(), Err(ImageRule::Lengths));
        }
    }

    #[test]
    fn key_plus_data_at_most_13030() {
        let track = at(0, 0);
        for (key, data) in [(0, 13_030), (255, 12_775)] {
            assert_eq!(
                image().track(track).sized(track, 1, key, data).checked(),
                Ok(())
            );
            let longer = image().track(track).sized(track, 1, key, data + 1);
            assert_eq!(longer.checked(), Err(ImageRule::RecordTooLong));
        }
        let long_r0 = image().home(track).sized(track, 0, 0, 13_031);
        assert_eq!(long_r0.checked(), Err(ImageRule::RecordTooLong));
    }

    #[test]
    fn no_sum_over_a_track() {
        let track = at(0, 0);
        let mut written = image().track(track);
        for number in 1..=4 {
            written = written.sized(track, number, 30, 13_000);
        }
        assert_eq!(written.checked(), Ok(()));
    }

    #[test]
    fn record_of_another_track() {
        for other in [at(1, 2), at(2, 1), at(0x101, 1), at(1, 0x101)] {
            let written = image().track(at(1, 1)).record(other, 1);
            assert_eq!(written.checked(), Err(ImageRule::OtherTrack));
        }
    }

    #[test]
    fn r0_first_and_once() {
        let track = at(0, 0);
        let behind = image().home(track).record(track, 1).record(track, 0);
        assert_eq!(behind.checked(), Err(ImageRule::R0NotFirst));
        let missing = image().home(track).record(track, 1);
        assert_eq!(missing.checked(), Err(ImageRule::R0NotFirst));
        let again = image().track(track).record(track, 1).record(track, 0);
        assert_eq!(again.checked(), Err(ImageRule::NumberTwice));
    }

    #[test]
    fn number_twice() {
        let track = at(0, 0);
        for number in [1, 63, 64, 255] {
            let written = image()
                .track(track)
                .record(track, number)
                .record(track, 2)
                .record(track, number);
            assert_eq!(written.checked(), Err(ImageRule::NumberTwice));
        }
    }

    #[test]
    fn track_without_records() {
        let without = Err(ImageRule::TrackWithoutR0);
        assert_eq!(image().home(at(0, 0)).checked(), without);
        assert_eq!(image().home(at(0, 0)).track(at(0, 1)).checked(), without);
    }

    #[test]
    fn past_the_limit_is_question_1() {
        let full = large::image_of(1_048_576, large::TracksOf::TWO_RECORDS);
        assert_eq!(check_image(1, &full), Ok(()));
        let past = large::image_of(1_048_577, large::TracksOf::TWO_RECORDS);
        assert_eq!(check(&past, Model::One), Ok(()));
        let refused = Err(Refusal::Areas(Area::Image));
        assert_eq!(check_image(1, &past), refused);
    }
}
