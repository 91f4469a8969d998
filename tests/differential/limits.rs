//! Images and fault lists as long as they may be, and longer. Few, since they take their time.

use crate::compare::{Comparison, Disagreement};
use crate::generate::decoded;
use crate::random::Random;
use crate::simulator::encode;
use crate::simulator::faults::{Fault, FAULT};
use crate::simulator::large::{image_of, TracksOf};
use crate::simulator::model::Model;
use crate::simulator::pack::Pack;

const LONGEST_IMAGE: usize = 1_048_576;
const LONGEST_LIST: usize = 65_536;

/// Bytes of a fault's field, and the most faults that a list has room for.
const FAULT_FIELD: usize = 3 + 10;
pub const MOST_FAULTS: usize = LONGEST_LIST / FAULT_FIELD;

pub fn compare_all(comparison: &mut Comparison, random: &mut Random) -> Result<(), Disagreement> {
    for &model in Model::ALL {
        images(comparison, random, model.number())?;
        fault_lists(comparison, model)?;
    }
    Ok(())
}

fn images(comparison: &mut Comparison, random: &mut Random, model: u8) -> Result<(), Disagreement> {
    for tracks in [
        TracksOf::TWO_RECORDS,
        TracksOf::SHORT_RECORDS,
        TracksOf::MANY_RECORDS,
        TracksOf::LONG_RECORD,
    ] {
        let full = image_of(LONGEST_IMAGE, tracks);
        comparison.image("of 1,048,576 bytes", model, &full)?;
        let torn = &full[..LONGEST_IMAGE - 1];
        comparison.image("torn, of 1,048,575 bytes", model, torn)?;
        let past = image_of(LONGEST_IMAGE + 1, tracks);
        comparison.image("of 1,048,577 bytes", model, &past)?;
        comparison.image("torn, of 1,048,576 bytes", model, &past[..LONGEST_IMAGE])?;
    }
    comparison.image("of 1,048,577 bytes", model, &vec![0; LONGEST_IMAGE + 1])?;
    let bytes = random.bytes(LONGEST_IMAGE);
    comparison.image("random, of 1,048,576 bytes", model, &bytes)?;
    comparison.image("of 2,097,152 bytes", model, &vec![0; 2 * LONGEST_IMAGE])
}

fn fault_lists(comparison: &mut Comparison, model: Model) -> Result<(), Disagreement> {
    let mut compare =
        |kind, image: &[u8], list: &[u8]| comparison.faults(kind, model.number(), image, list);
    let image = image_of(65_000, TracksOf::MANY_RECORDS);
    let list = faults_of_last_records(&decoded(model, &image), MOST_FAULTS + 1);
    let (most, past) = (&list[..MOST_FAULTS * FAULT_FIELD], &list[..]);
    let mut doubled = most.to_vec();
    doubled.copy_within(..FAULT_FIELD, (MOST_FAULTS - 1) * FAULT_FIELD);
    let mut torn = most.to_vec();
    torn.resize(LONGEST_LIST, FAULT);
    let bad_image = &image[..image.len() - 1];
    compare("5,041 faults", &image, most)?;
    compare("5,041 faults, one record twice", &image, &doubled)?;
    compare("5,041 faults, image torn", bad_image, most)?;
    compare("list of 65,536 bytes, torn", &image, &torn)?;
    compare("5,042 faults", &image, past)?;
    compare("5,042 faults, image torn", bad_image, past)?;
    compare("list of 65,537 bytes", &image, &vec![0; LONGEST_LIST + 1])?;
    let past_image = vec![0; LONGEST_IMAGE + 1];
    compare("image of 1,048,577 bytes", &past_image, &[0])?;
    let full = image_of(LONGEST_IMAGE, TracksOf::MANY_RECORDS);
    let last = faults_of_last_records(&decoded(model, &full), MOST_FAULTS);
    compare("5,041 faults, full image", &full, &last)
}

/// A list of the last records that have data, the last first.
pub fn faults_of_last_records(pack: &Pack, how_many: usize) -> Vec<u8> {
    let records: Vec<_> = pack.tracks().flat_map(|(_, records)| records).collect();
    let mut list = Vec::new();
    let last = records.iter().rev();
    for record in last
        .filter(|record| record.number() != 0 && !record.data.is_empty())
        .take(how_many)
    {
        let fault = Fault {
            track: record.track(),
            number: record.number(),
            error_displacement: 1,
            pattern: [0x01, 0x02, 0x03],
        };
        encode::put_fault(&mut list, fault);
    }
    assert_eq!(list.len(), how_many * FAULT_FIELD, "records enough");
    list
}
