//! Answer areas and entries: each part holds what its row says.

use super::book::{Book, KEPT};
use super::bytes::Checked;
use crate::simulator::held::HeldRun;

const COLUMNS: [&str; 4] = ["offset", "length", "contents", "C name"];

pub fn check(book: &Book) -> Checked {
    for (heading, contents) in [
        (
            "Answer of a run",
            &[
                "CSW",
                "sense; zeros where no unit check ended the run",
                "01 where a mask is set, else 00",
                "that mask, else 00",
                "address of the cut read's first CCW, else 0000",
            ][..],
        ),
        (
            "Answer of a recovery",
            &[
                "number of the answer",
                "action code",
                "CSW of \"finished\", else zeros",
            ],
        ),
        (
            "Answer of a reading",
            &[
                "CSW",
                "number of recoveries",
                "02 or 09 where it was stopped, else 00",
            ],
        ),
        (
            "List",
            &["action code: 05, or 15 for 5A", "cylinder", "head", "R"],
        ),
    ] {
        let table = book.page.table(heading, &COLUMNS)?;
        let found: Vec<&str> = table.each::<4>().map(|row| row[2]).collect();
        ensure!(found == contents, "{heading}: {found:?}");
    }
    run(book)
}

/// A run with a mask and one without; each ends well, by a reject, and by a cut.
fn run(book: &Book) -> Checked {
    let cc = book.flag("CC")?;
    let no_sense = vec![0; 24];
    for mask in [None, Some(0x00), Some(0xD8)] {
        let front = match mask {
            None => book.ccw(0x03, 0, cc, 1)?,
            Some(_) => book.ccw(0x1F, 0, cc, 1)?,
        };
        let lasts = [
            (book.ccw(0x03, 0, 0, 1)?, 0),
            (book.ccw(0x02, 0, 0, 1)?, 0),
            (book.ccw(0x06, 0, 0, 4)?, 8),
        ];
        for (at, (last, first)) in lasts.into_iter().enumerate() {
            let ran = book.run(HeldRun {
                chain: [front.clone(), last].concat(),
                arguments: vec![mask.unwrap_or(0)],
                storage: vec![KEPT; 64],
                image: book.pack()?,
                faults: book.fault((0, 0), 1, 1, 0)?,
                ..HeldRun::default()
            })?;
            let seen = (ran.mask_set, ran.mask, ran.first);
            let expected = (mask.is_some().into(), mask.unwrap_or(0), first);
            ensure!(seen == expected, "a run with mask {mask:02X?}: {seen:?}");
            ensure!(
                (ran.sense == no_sense) == (at == 0),
                "a run's sense {:02X?}",
                ran.sense
            );
        }
    }
    Ok(())
}
