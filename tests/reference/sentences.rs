//! Sentences of the page that no table repeats: each must stand there, and its trial must hold.

use super::book::{Book, Ran, Recovered, KEPT};
use super::bytes::Checked;
use super::channel::shown;
use super::questions::changed;
use crate::simulator::held::{HeldRecovery, HeldRestart, HeldRun};
use crate::simulator::sample;

type Trial = fn(&Book) -> Result<bool, String>;

const SENTENCES: [(&str, Trial); 20] = [
    ("CD goes before CC.", data_chaining_first),
    (
        "A seek to a track that the image lacks is done; it is the next search or read that fails.",
        seek_is_done,
    ),
    (
        "A control command, a read and an equal search begin the count anew; a read's own way round \
         is not counted.",
        count_begins_anew,
    ),
    (
        "a step begins it anew too.",
        step_begins_anew,
    ),
    (
        "A step is file protected where mask bits 3 and 4 are both on; one of them alone leaves it.",
        protected_steps,
    ),
    (
        "A mask that forbids steps forbids each, so the head is the one on which the command began.",
        protected_where_it_began,
    ),
    (
        "Where the image lacks the track that a restart of 8 to 11 seeks, its 1A finds no record, and the \
         CSW is that of the 1A: address 001018, or 001020 where a mask was set, and count left 5.",
        ends_at_the_1a,
    ),
    (
        "Where nothing is chained, or incorrect length ends the chain there, the CSW is that of restart CCW \
         1: address 001020, or 001028 where a mask was set. The chain's own read would have shown the \
         address behind the interrupted CCW; statuses and count left are the same.",
        ends_at_restart_ccw_1,
    ),
    (
        "A report of 9 or 11 whose CSW shows restart CCW 1 is refused by 9, for the walk is one of the \
         chain.",
        |book| {
            let mut holds = true;
            for report in [OF_NINE, OF_ELEVEN] {
                let shown = format!("{report}; csw = 00 001020 0E 00 0001");
                holds &= book.recover(changed(book, &shown)?)?.number == 9;
            }
            Ok(holds)
        },
    ),
    (
        "Mask bit 7 changes nothing in 8 to 11.",
        fetch_mode_alike,
    ),
    (
        "Without faults, and without a seek behind the mask, it then ends as under a mask that allows \
         steps, but for that case: the restart's 1A meets the missing track before the chain's command \
         does. Storage, both statuses and the sense are the same even so.",
        protected_steps_run_on,
    ),
    (
        "Then the CSW is that of the restart's 92: address 001028, or 001030 where a mask was set, and \
         count left 8.",
        ends_at_the_restarts_92,
    ),
    (
        "a seek that the mask forbids is rejected where its argument is wrong.",
        reject_first,
    ),
    (
        "At a unit exception key and count area have still been moved. 12 of such a record is an \
         ordinary 12.",
        empty_data_area,
    ),
    (
        "it then hides a unit check or unit exception of the same read, and what was stored stays.",
        program_check_first,
    ),
    (
        "Bytes that a CCW's count names must lie in their area as a whole, however short the record \
         is.",
        whole_range,
    ),
    (
        "with displacement 1 pattern byte 0 alone counts.",
        pattern_inside,
    ),
    (
        "question 5 also where the action uses no extent.",
        extent_always,
    ),
    (
        "A run begins on track 000/00 at the index, without a file mask. So does each restarted run.",
        begins_anew,
    ),
    ("Without a row: refusal 6.", |book| {
        Ok(book.recover(changed(book, "sense 0 = 000000")?)?.number == 6)
    }),
];

pub fn check(book: &Book) -> Checked {
    for (sentence, trial) in SENTENCES {
        ensure!(book.page.says(sentence), "the page lacks '{sentence}'");
        ensure!(trial(book)?, "'{sentence}' does not hold");
    }
    Ok(())
}

/// Unit status, channel status and address of a run's CSW.
fn csw(book: &Book, ran: &Ran) -> Result<(usize, usize, usize), String> {
    Ok((
        shown(book, ran, "unit status")?,
        shown(book, ran, "channel status")?,
        shown(book, ran, "address")?,
    ))
}

fn seek(head: u8) -> Vec<u8> {
    vec![0, 0, 0, 0, 0, head]
}

/// The first record other than R0 is read, and the home address of 000/00. The chain names no argument
/// at 2000, the restart program does: its mask is the first.
fn begins_anew(book: &Book) -> Result<bool, String> {
    let cc = book.flag("CC")?;
    let mut program = [book.ccw(0x06, 8, cc, 4)?, book.ccw(0x1A, 0, cc, 5)?].concat();
    program.extend(book.ccw(0x1F, 0x2000, 0, 1)?);
    let chain = program.clone();
    program.resize(64, 0);
    let held = HeldRun {
        chain,
        storage: vec![KEPT; 64],
        image: book.pack()?,
        ..HeldRun::default()
    };
    let restarted = HeldRun {
        restart: Some(HeldRestart {
            program,
            arguments: vec![0; 16],
        }),
        ..held.clone()
    };
    let home = book.home.put(&[])?;
    let mut holds = true;
    for (held, set) in [(held, 0), (restarted, 1)] {
        let ran = book.run(held)?;
        let record = ran.storage[8..12] == [0xC1, 0xC2, 0xC3, 0xC4];
        holds &= record && ran.storage[..5] == home && ran.mask_set == set;
    }
    Ok(holds)
}

fn data_chaining_first(book: &Book) -> Result<bool, String> {
    let both = book.flag("CD")? | book.flag("CC")?;
    let chain = [book.ccw(0x1A, 0, both, 4)?, book.ccw(0x02, 8, 0, 1)?];
    let ran = book.run_example(chain.concat(), vec![])?;
    Ok(csw(book, &ran)? == (0x0C, 0, 16) && ran.storage[8] == 0)
}

fn seek_is_done(book: &Book) -> Result<bool, String> {
    let alone = book.run_example(book.ccw(0x07, 0, 0, 6)?, seek(9))?;
    let mut holds = csw(book, &alone)? == (0x0C, 0, 8);
    let cc = book.flag("CC")?;
    for next in [book.ccw(0x31, 0, 0, 5)?, book.ccw(0x06, 0, 0, 4)?] {
        let chain = [book.ccw(0x07, 0, cc, 6)?, next];
        let ran = book.run_example(chain.concat(), seek(9))?;
        holds &= ran.sense[..3] == book.sense_bits("1.4")? && csw(book, &ran)?.2 == 16;
    }
    Ok(holds)
}

/// On track 000/00, with R0, R1 and R2: the searches behind each of these until no record is found.
fn count_begins_anew(book: &Book) -> Result<bool, String> {
    let cc = book.flag("CC")?;
    let skip = book.flag("skip")?;
    let search = book.ccw(0x31, 0, cc, 5)?;
    let equal = book.ccw(0x31, 5, cc, 5)?;
    let five = search.repeat(5);
    let trials = [
        // R0, R1, R2, by the index, R0, R1, R2.
        (vec![], 7),
        (search.repeat(5), 2),
        // Back to the index.
        ([&five[..], &book.ccw(0x03, 0, cc, 1)?].concat(), 7),
        // R2's count: the next is R0, by the index.
        ([&five[..], &book.ccw(0x12, 0, cc | skip, 8)?].concat(), 4),
        // R2's data, then round to R1's: the next is R2.
        (
            [
                &five[..],
                &book.ccw(0x1E, 0, cc | skip, 14)?,
                &book.ccw(0x1E, 0, cc | skip, 12)?,
            ]
            .concat(),
            5,
        ),
        // R0 is equal, by the index; the CCW behind is left out. The next is R1.
        (
            [search.repeat(3), equal, book.ccw(0x02, 0, 0, 1)?].concat(),
            6,
        ),
    ];
    for (before, expected) in trials {
        let chain = [&before[..], &search.repeat(9)].concat();
        let arguments = vec![0, 0, 0, 0, 0x63, 0, 0, 0, 0, 0];
        let ran = book.run_example(chain, arguments)?;
        let searches = (csw(book, &ran)?.2 - before.len()) / 8;
        if ran.sense[..3] != book.sense_bits("1.4")? || searches != expected {
            return Err(format!(
                "{searches} searches, where {expected} are expected"
            ));
        }
    }
    Ok(true)
}

/// Searches of 000/00 pass the index once; behind a B1 from its last record to 000/01, with R0 alone,
/// one more does, and the next finds none.
fn step_begins_anew(book: &Book) -> Result<bool, String> {
    let cc = book.flag("CC")?;
    let search = book.ccw(0x31, 0, cc, 5)?;
    let chain = [
        search.repeat(6),
        book.ccw(0xB1, 0, cc, 5)?,
        search.repeat(3),
    ];
    let ran = book.run_example(chain.concat(), vec![0, 0, 0, 0, 0x63])?;
    let second = (6 + 1 + 2) * 8;
    Ok(ran.sense[..3] == book.sense_bits("1.4")? && csw(book, &ran)?.2 == second)
}

/// A read that begins on 000/01, with R0 alone.
fn protected_steps(book: &Book) -> Result<bool, String> {
    let cc = book.flag("CC")?;
    let chain = [
        book.ccw(0x07, 0, cc, 6)?,
        book.ccw(0x1F, 6, cc, 1)?,
        book.ccw(0x92, 0, 0, 8)?,
    ];
    let mut holds = true;
    for (mask, protected) in [(0x00, false), (0x08, false), (0x10, false), (0x18, true)] {
        let ran = book.run_example(chain.concat(), [seek(1), vec![mask]].concat())?;
        holds &= (ran.sense[..3] == book.sense_bits("1.5")?) == protected;
        holds &= (ran.sense == [0; 24]) != protected;
    }
    Ok(holds)
}

/// Over heads 5 to 8, of which 8 alone has a record: by each command from 5, and by none from 8.
fn protected_where_it_began(book: &Book) -> Result<bool, String> {
    let cc = book.flag("CC")?;
    let mut image = Vec::new();
    for head in 5..=8 {
        let records: &[(usize, &[u8])] = if head == 8 { &[(1, &[9])] } else { &[] };
        image.extend(book.track((0, head), records)?);
    }
    let mut holds = true;
    for code in [0x86, 0x8E, 0x92, 0x9E] {
        for (head, protected) in [(5, true), (7, true), (8, false)] {
            let chain = [
                book.ccw(0x07, 0, cc, 6)?,
                book.ccw(0x1F, 6, cc, 1)?,
                book.ccw(code, 0, book.flag("SLI")?, 40)?,
            ];
            let ran = book.run(HeldRun {
                chain: chain.concat(),
                arguments: [seek(head), vec![0x18]].concat(),
                storage: vec![KEPT; 64],
                image: image.clone(),
                ..HeldRun::default()
            })?;
            let mut sense = vec![0; 24];
            if protected {
                sense[..3].copy_from_slice(&book.sense_bits("1.5")?);
                sense[6] = head;
            }
            holds &= ran.sense == sense;
        }
    }
    Ok(holds)
}

/// Of the worked report: one of 9, and one of 11 on head 2, each with 3 bytes of 4 taken.
const OF_NINE: &str =
    "sense 0 = 00 21 00 06; sense 15 = 000003; csw = 00 000020 0E 00 0001; 14 = 000000000002";
const OF_ELEVEN: &str = "sense 0 = 00 05 00 06; sense 6 = 02; sense 15 = 000003; \
     csw = 00 000020 0E 00 0001; 14 = 000000000000";

/// Restarts that seek 001/00, 000/09 and 000/03.
const RESTARTS: [(&str, &str); 5] = [
    ("8", "sense 0 = 00 20 00; 14 = 000000000002"),
    ("9", OF_NINE),
    (
        "10",
        "sense 0 = 00 04 00; 14 = 000000000009; csw = 00 000008 0E 00 0006",
    ),
    ("10A", "sense 0 = 00 04 00; sense 6 = 02; 14 = 000000000000"),
    ("11", OF_ELEVEN),
];

/// With a mask and without.
fn ends_at_the_1a(book: &Book) -> Result<bool, String> {
    let unit = book.status("channel end+device end+unit check")?;
    let mut holds = true;
    for (action, report) in RESTARTS {
        for (mask, address) in [("13 = absent", 0x1018), ("13 = 18", 0x1020)] {
            let change = format!("{report}; {mask}; extent = 00000000019A0012");
            let recovered = book.recover(changed(book, &change)?)?;
            holds &= book.codes.get(action) == Some(&recovered.action);
            let ran = book.run(restarted(
                HeldRun {
                    chain: recovered.held.chain.clone(),
                    storage: vec![KEPT; 64],
                    image: book.pack()?,
                    ..HeldRun::default()
                },
                recovered,
            ))?;
            holds &= ran.csw == book.csw_of(address, unit, 0, 5)?;
            holds &= ran.sense[..3] == book.sense_bits("1.4")?;
        }
    }
    Ok(holds)
}

/// The CCW at 0018 has taken 2 bytes of 4; the rest of the record, of 1 to 3 bytes, is R1 of the track sought.
/// An uncut read of the whole record shows the same at that CCW.
fn ends_at_restart_ccw_1(book: &Book) -> Result<bool, String> {
    const FRONT: [u8; 2] = [1, 2];
    let chained = book.flag("CD")? | book.flag("CC")?;
    let mut holds = true;
    for flags in [0x00, 0x20, 0x40, 0x60, 0x80, 0xA0] {
        for rest in [&[3][..], &[3, 4], &[3, 4, 5]] {
            for (mask, address) in [("13 = absent", 0x1020), ("13 = 18", 0x1028)] {
                let change = format!(
                    "{OF_NINE}; {mask}; sense 15 = 000002; csw = 00 000020 0E 00 0002; \
                     ccw 0018 = 06 000000 {flags:02X}; extent = 00000000019A0012"
                );
                let recovered = book.recover(changed(book, &change)?)?;
                let held = HeldRun {
                    chain: recovered.held.chain.clone(),
                    storage: vec![KEPT; 64],
                    image: book.track((1, 0), &[(1, rest)])?,
                    ..HeldRun::default()
                };
                let uncut = book.run(HeldRun {
                    chain: recovered.held.chain[0x18..].to_vec(),
                    image: book.track((0, 0), &[(1, &[&FRONT[..], rest].concat())])?,
                    ..held.clone()
                })?;
                let ran = book.run(restarted(held, recovered))?;
                // The chain of the uncut read begins with the CCW at 0018.
                let ended = shown(book, &uncut, "address")? == 8;
                holds &= ended || flags & chained != 0;
                holds &= (shown(book, &ran, "address")? == address) == ended;
                holds &= !ended || ran.csw[4..] == uncut.csw[4..];
            }
        }
    }
    Ok(holds)
}

fn fetch_mode_alike(book: &Book) -> Result<bool, String> {
    let mut holds = true;
    for (action, report) in RESTARTS {
        let with = |mask: &str| {
            let change = format!("{report}; {mask}; extent = 00000000019A0012");
            book.recover(changed(book, &change)?)
        };
        let (set, fetch) = (with("13 = C0")?, with("13 = C1")?);
        holds &= book.codes.get(action) == Some(&fetch.action);
        holds &= fetch.held.program == set.held.program;
        let (mut arguments, mask) = (set.held.restart_arguments, 6);
        arguments[mask] = 0xC1;
        holds &= fetch.held.restart_arguments == arguments;
    }
    Ok(holds)
}

/// The run of the restart that a recovery has built.
fn restarted(held: HeldRun, recovered: Recovered) -> HeldRun {
    HeldRun {
        restart: Some(HeldRestart {
            program: recovered.held.program,
            arguments: recovered.held.restart_arguments,
        }),
        ..held
    }
}

/// Counts from 000/00 on, under a mask that forbids steps and under those that allow them: that of R1 of
/// 000/02, behind 000/01 with R0 alone; and one more, for which the image has no track.
fn protected_steps_run_on(book: &Book) -> Result<bool, String> {
    let cc = book.flag("CC")?;
    let unit = book.status("channel end+device end+unit check")?;
    let count = |at: usize, flags| book.ccw(0x92, 8 * at, flags, 8);
    let to_track = [count(0, cc)?, count(1, cc)?, count(2, 0)?].concat();
    let to_none = [count(0, cc)?, count(1, cc)?, count(2, cc)?, count(3, 0)?].concat();
    let mut holds = true;
    for (counts, protected, at_1a) in [(to_track, 2, false), (to_none, 3, true)] {
        let of = |mask: u8| -> Result<HeldRun, String> {
            Ok(HeldRun {
                chain: [&book.ccw(0x1F, 0, cc, 1)?[..], &counts].concat(),
                arguments: vec![mask],
                storage: vec![KEPT; 64],
                image: book.pack()?,
                ..HeldRun::default()
            })
        };
        let (steps, ran) = run_on(book, of(0x18)?)?;
        holds &= steps == protected;
        for mask in [0x00, 0x08, 0x10] {
            let allowed = book.run(of(mask)?)?;
            let csw = match at_1a {
                true => book.csw_of(0x1020, unit, 0, 5)?,
                false => allowed.csw.clone(),
            };
            holds &= ran.csw == csw && csw[4..6] == allowed.csw[4..6];
            holds &= (ran.csw == allowed.csw) != at_1a;
            holds &= ran.sense == allowed.sense && ran.storage == allowed.storage;
        }
    }
    Ok(holds)
}

/// Runs a chain on cylinder 0, and each restart of 10A; how many there were, and the last end.
fn run_on(book: &Book, mut held: HeldRun) -> Result<(usize, Ran), String> {
    for restarts in 0..=18 {
        let ran = book.run(held.clone())?;
        if ran.sense[..3] != book.sense_bits("1.5")? {
            return Ok((restarts, ran));
        }
        let report = [
            book.field("sense", &ran.sense)?,
            book.field("CSW", &ran.csw)?,
            book.field("address of the cut read's first CCW", &[0, 0])?,
            book.field("file mask", &[ran.mask])?,
            book.field("seek argument", &seek(0))?,
        ];
        let recovered = book.recover(HeldRecovery {
            chain: held.chain.clone(),
            report: report.concat(),
            extent: book.tracks((0, 0), (410, 18))?,
            storage: ran.storage.clone(),
            ..HeldRecovery::default()
        })?;
        ensure!(
            recovered.number == 0 && book.codes.get("10A") == Some(&recovered.action),
            "a protected step is answered by {} and {:02X}",
            recovered.number,
            recovered.action
        );
        held.storage = ran.storage;
        held = restarted(held, recovered);
    }
    Err("more protected steps than heads".to_string())
}

/// An 86 that End of Cylinder ends, right behind a read that is cut.
fn ends_at_the_restarts_92(book: &Book) -> Result<bool, String> {
    let unit = book.status("channel end+device end+unit check")?;
    let held = sample::over_two_heads();
    let mut masked = held.clone();
    masked
        .chain
        .splice(..0, book.ccw(0x1F, 11, book.flag("CC")?, 1)?);
    // The TIC leads 8 further.
    masked.chain[0x1B] += 8;
    masked.arguments.push(0xC0);
    Ok(book.read(held)?.csw == book.csw_of(0x1028, unit, 0, 8)?
        && book.read(masked)?.csw == book.csw_of(0x1030, unit, 0, 8)?)
}

fn reject_first(book: &Book) -> Result<bool, String> {
    let chain = [
        book.ccw(0x1F, 0, book.flag("CC")?, 1)?,
        book.ccw(0x07, 1, 0, 6)?,
    ];
    let mut holds = true;
    for argument in [[0, 0, 0x01, 0x9B, 0, 0], [0, 1, 0, 0, 0, 0]] {
        let arguments = [&[0x08], &argument[..]].concat();
        let ran = book.run_example(chain.concat(), arguments)?;
        holds &= ran.sense[..3] == book.sense_bits("0.0")?;
    }
    Ok(holds)
}

fn empty_data_area(book: &Book) -> Result<bool, String> {
    let read = |code: u8| {
        let cc = book.flag("CC")?;
        let chain = [book.ccw(0x07, 0, cc, 6)?, book.ccw(code, 0, 0, 8)?];
        book.run_example(chain.concat(), seek(2))
    };
    let count = book.record_contents((0, 2), 1, &[], &[])?;
    let (whole, count_alone) = (read(0x1E)?, read(0x12)?);
    Ok(csw(book, &whole)? == (0x0D, 0, 16)
        && csw(book, &count_alone)? == (0x0C, 0, 16)
        && whole.storage[..8] == count
        && count_alone.storage[..8] == count)
}

fn program_check_first(book: &Book) -> Result<bool, String> {
    let chain = [
        book.ccw(0x06, 0, book.flag("CD")?, 2)?,
        book.ccw(0x06, 2, 0, 0)?,
    ];
    let ran = book.run(HeldRun {
        chain: chain.concat(),
        storage: vec![KEPT; 64],
        image: book.pack()?,
        faults: book.fault((0, 0), 1, 4, 0xFF_0000)?,
        ..HeldRun::default()
    })?;
    let stored = ran.storage[..3] == [!0xC1, 0xC2, KEPT];
    Ok(csw(book, &ran)? == (0, 0x20, 16) && stored && ran.sense == [0; 24])
}

/// 5 bytes would fit where 9 do not.
fn whole_range(book: &Book) -> Result<bool, String> {
    let ran = book.run_example(book.ccw(0x1A, 56, 0, 9)?, vec![])?;
    let skipped = book.ccw(0x1A, 56, book.flag("skip")? | book.flag("SLI")?, 9)?;
    let passed = book.run_example(skipped, vec![])?;
    Ok(csw(book, &ran)? == (0, 0x20, 8) && csw(book, &passed)? == (0x0C, 0, 8))
}

fn pattern_inside(book: &Book) -> Result<bool, String> {
    let ran = book.run(HeldRun {
        chain: book.ccw(0x06, 0, 0, 4)?,
        storage: vec![KEPT; 64],
        image: book.pack()?,
        faults: book.fault((0, 0), 1, 1, 0x01_02_04)?,
        ..HeldRun::default()
    })?;
    Ok(ran.storage[..5] == [0xC1, 0xC2, 0xC3, 0xC4 ^ 0x01, KEPT])
}

fn extent_always(book: &Book) -> Result<bool, String> {
    let change = "sense 0 = 80 02 00; extent = 019B000000000000";
    Ok(book.recover(changed(book, change)?)?.number == 5)
}
