use super::*;
use crate::simulator::channel::ProgramCheck;
use crate::simulator::drive::{NotFoundRule, ProtectedRule, RejectRule, UnitCheck};
use crate::simulator::encode::ccw;
use crate::simulator::faults::Fault;
use crate::simulator::held::HeldReading as Call;
use crate::simulator::large::{put_track, track_at, TracksOf};
use crate::simulator::{answer, sample};

const TRACK: TrackAddress = TrackAddress {
    cylinder: 0,
    head: 1,
};

impl Call {
    /// Document 01's sample.
    fn sample() -> Call {
        Call {
            limit: 4_096,
            ..sample::reading()
        }
    }

    /// The sample with a fault in R2 too, error displacement 1.
    fn both_faulted() -> Call {
        Call::sample().with(|call| {
            encode::put_fault(
                &mut call.faults,
                Fault {
                    track: TRACK,
                    number: 2,
                    error_displacement: 1,
                    pattern: [0xFF, 0xFF, 0xFF],
                },
            );
        })
    }

    /// R1 and R2 read in turn without end.
    fn round() -> Call {
        Call::both_faulted().with(|call| {
            let ccws = [
                ccw(0x07, 0, 0x40, 6),
                ccw(0x06, 0, 0x40, 4),
                ccw(0x08, 8, 0, 0),
            ];
            call.chain = ccws.concat();
        })
    }

    fn with(mut self, change: impl FnOnce(&mut Call)) -> Call {
        change(&mut self);
        self
    }

    /// A reading that is not refused.
    fn done(&mut self) -> Reading {
        self.simulated().expect("the reading is not refused")
    }

    fn restart_areas_kept(&self) -> bool {
        self.program == [0xA5; 64] && self.restart_arguments == [0xA5; 16]
    }
}

/// Actions and record numbers of the recoveries.
fn made(reading: &Reading) -> Vec<(RestartAction, u8)> {
    let recoveries = reading.recoveries.iter();
    recoveries
        .map(|recovery| (recovery.action(), recovery.number()))
        .collect()
}

use RestartAction::{Five, FiveA};

const MENDED: [u8; 8] = [0xC1, 0xC2, 0xC3, 0xC4, 0xD1, 0xD2, 0xD3, 0xD4];

#[test]
fn sample_by_5a() {
    let mut call = Call::sample();
    let reading = call.done();
    assert_eq!(reading.end, End::Run(run::End::Chain));
    assert_eq!(reading.csw, [0, 0, 0, 0x28, 0x0C, 0, 0, 0]);
    assert_eq!(made(&reading), [(FiveA, 1)]);
    assert_eq!(reading.recoveries[0].track(), TRACK);
    assert_eq!(call.storage[..8], MENDED);
    assert_eq!(call.program[0x28..0x30], ccw(0x08, 0x20, 0, 0));
    assert_eq!(call.restart_arguments[8..13], [0, 0, 0, 1, 1]);
}

#[test]
fn no_faults_no_recovery() {
    let mut call = Call::sample().with(|call| call.faults.clear());
    let reading = call.done();
    assert_eq!(reading.csw, [0, 0, 0, 0x28, 0x0C, 0, 0, 0]);
    assert_eq!(reading.recoveries, []);
    assert_eq!(call.storage[..8], MENDED);
    assert!(call.restart_areas_kept());
}

#[test]
fn last_read_is_finished() {
    let mut call = Call::both_faulted();
    let reading = call.done();
    assert_eq!(reading.end, End::Finished);
    assert_eq!(reading.csw, [0, 0, 0, 0x28, 0x0C, 0, 0, 0]);
    assert_eq!(made(&reading), [(FiveA, 1), (Five, 2)]);
    assert_eq!(call.storage[..8], MENDED);
    // The restart of the first cut.
    assert_eq!(call.restart_arguments[12], 1);
}

#[test]
fn next_command_with_bit_3_on_by_5() {
    let mut call = Call::both_faulted().with(|call| {
        call.chain[0x20..].copy_from_slice(&ccw(0x1E, 4, 0, 12));
    });
    let reading = call.done();
    assert_eq!(reading.end, End::Finished);
    assert_eq!(made(&reading), [(Five, 1), (Five, 2)]);
    assert_eq!(call.storage[12..], [0xD1, 0xD2, 0xD3, 0xD4]);
}

#[test]
fn pci_fetch_mode_is_corrected_only() {
    let mut call = Call::both_faulted().with(|call| {
        let mut chain = ccw(0x1F, 11, 0x40, 1).to_vec();
        chain.extend(&call.chain);
        chain[0x1B] = 0x10;
        call.chain = chain;
        call.arguments.push(0x01);
    });
    let reading = call.done();
    assert_eq!(reading.end, End::CorrectedOnly);
    assert_eq!(reading.csw, [0, 0, 0, 0x28, 0x0E, 0, 0, 0]);
    assert_eq!(made(&reading), [(Five, 1)]);
    assert_eq!(call.storage[..8], [0xC1, 0xC2, 0xC3, 0xC4, 0, 0, 0, 0]);
    assert!(call.restart_areas_kept());
}

#[test]
fn other_ends_of_a_run_are_its_end() {
    let reject = UnitCheck::Reject(RejectRule::OtherCommand);
    let changes: [(fn(&mut Call), run::End, [u8; 8]); 3] = [
        (
            |call| call.chain[0x27] = 5,
            run::End::IncorrectLength,
            [0, 0, 0, 0x28, 0x0C, 0x40, 0, 1],
        ),
        (
            |call| call.chain[0x20] = 0x05,
            run::End::UnitCheck(reject),
            [0, 0, 0, 0x28, 0x0E, 0, 0, 4],
        ),
        (
            |call| call.chain[0x26..].fill(0),
            run::End::ProgramCheck(ProgramCheck::CountZero),
            [0, 0, 0, 0x28, 0, 0x20, 0, 0],
        ),
    ];
    for (change, end, csw) in changes {
        let reading = Call::sample().with(change).done();
        assert_eq!((reading.end, reading.csw), (End::Run(end), csw));
        assert_eq!(reading.recoveries.len(), 1);
    }
}

#[test]
fn command_limit() {
    let limit = End::Limit(LimitOf::Commands);
    // The cut is the fourth command.
    let reading = Call::sample().with(|call| call.limit = 3).done();
    assert_eq!(reading.end, limit);
    assert_eq!(reading.csw, [0, 0, 0, 0x10, 0x0C, 0, 0, 0]);
    let reading = Call::sample().with(|call| call.limit = 4).done();
    assert_eq!(reading.end, End::Run(run::End::Chain));
    // R1 is read once; the restarted run has a limit of its own.
    let mut endless = Call::sample().with(|call| {
        call.chain[0x24] = 0x40;
        call.chain.extend(ccw(0x03, 0, 0x40, 1));
        call.chain.extend(ccw(0x08, 0x28, 0, 0));
    });
    let reading = endless.done();
    assert_eq!(reading.end, limit);
    assert_eq!(reading.csw, [0, 0, 0, 0x30, 0x0C, 0, 0, 1]);
    assert_eq!(made(&reading), [(FiveA, 1)]);
}

#[test]
fn as_many_recoveries_as_the_limit() {
    for limit in [2, 3, 9] {
        let mut call = Call::round().with(|call| call.limit = limit);
        let reading = call.done();
        assert_eq!(reading.end, End::Limit(LimitOf::Recoveries));
        assert_eq!(reading.csw, [0, 0, 0, 0x10, 0x0E, 0, 0, 0]);
        assert_eq!(reading.recoveries.len(), limit);
        // R1 and R2 in turn; the last one as it arrived.
        let last = if limit % 2 == 0 {
            [0xC1, 0xC2, 0xC2, 0xC4]
        } else {
            [0xD1, 0xD2, 0xD3, 0x2B]
        };
        assert_eq!(call.storage[..4], last);
    }
}

#[test]
fn exactly_the_limit_of_recoveries_is_allowed() {
    let mut call = Call::both_faulted().with(|call| {
        let ccws = [
            ccw(0x07, 0, 0x40, 6),
            ccw(0x06, 0, 0x40, 4),
            ccw(0x06, 4, 0, 4),
        ];
        call.chain = ccws.concat();
        call.limit = 2;
    });
    let reading = call.done();
    assert_eq!((reading.end, reading.recoveries.len()), (End::Finished, 2));
    assert_eq!(call.storage[..8], MENDED);
}

#[test]
fn track_outside_the_extent_stops() {
    let mut call = Call::sample().with(|call| call.extent = vec![0, 0, 0, 2, 0, 1, 0, 0]);
    let reading = call.done();
    assert_eq!(reading.end, End::Stopped(Stop::Action2));
    assert_eq!(reading.csw, [0, 0, 0, 0x20, 0x0E, 0, 0, 0]);
    assert_eq!(reading.recoveries, []);
    assert_eq!(call.storage[..5], [0xC1, 0xC2, 0xC2, 0xC4, 0]);
    assert!(call.restart_areas_kept());
}

#[test]
fn missing_next_ccw_stops() {
    let changes: [(fn(&mut Call), ProgramCheck); 2] = [
        (|call| call.chain.truncate(0x20), ProgramCheck::PastTheChain),
        (
            |call| call.chain[0x20..].copy_from_slice(&ccw(0x08, 0x10, 0, 0)),
            ProgramCheck::TicToTic,
        ),
    ];
    for (change, check) in changes {
        let mut call = Call::sample().with(change);
        let reading = call.done();
        let stop = Stop::Refused(Refusal::Next(check));
        assert_eq!((reading.end, stop.number()), (End::Stopped(stop), 9));
        assert_eq!(reading.csw, [0, 0, 0, 0x20, 0x0E, 0, 0, 0]);
        assert_eq!(call.storage[..4], [0xC1, 0xC2, 0xC2, 0xC4]);
        assert!(call.restart_areas_kept());
    }
}

#[test]
fn stop_behind_a_recovery() {
    let mut call = Call::both_faulted().with(|call| call.chain[0x24] = 0x40);
    let reading = call.done();
    let stop = Stop::Refused(Refusal::Next(ProgramCheck::PastTheChain));
    assert_eq!(reading.end, End::Stopped(stop));
    assert_eq!(made(&reading), [(FiveA, 1)]);
    assert_eq!(call.storage[4..8], [0xD1, 0xD2, 0xD3, 0x2B]);
    assert_eq!(call.restart_arguments[12], 1);
}

#[test]
fn mask_is_set_again() {
    for (mask, length) in [(None, 0x30), (Some(0x00), 0x38), (Some(0xC0), 0x38)] {
        let mut call = Call::sample().with(|call| {
            let mut chain = match mask {
                None => ccw(0x03, 0, 0x40, 1).to_vec(),
                Some(_) => ccw(0x1F, 11, 0x40, 1).to_vec(),
            };
            chain.extend(&call.chain);
            chain[0x1B] = 0x10;
            call.chain = chain;
            call.arguments.push(mask.unwrap_or(0));
        });
        let reading = call.done();
        assert_eq!(reading.end, End::Run(run::End::Chain));
        let last_tic = length - 8;
        assert_eq!(call.program[last_tic..length], ccw(0x08, 0x28, 0, 0));
        assert_eq!(call.restart_arguments[6], mask.unwrap_or(0));
    }
}

/// These commands from the index of 000/00 on, each of a read with one byte of storage, over heads of
/// so many records of one byte; all of them are faulted.
fn over_heads(heads: &[u8], commands: &[u8]) -> Call {
    let (mut image, mut faults) = (Vec::new(), Vec::new());
    for (head, &records) in heads.iter().enumerate() {
        let tracks = TracksOf {
            records,
            data_length: 1,
        };
        put_track(&mut image, track_at(head), tracks);
        for number in 1..=records {
            let fault = Fault {
                track: track_at(head),
                number,
                error_displacement: 1,
                pattern: [0xFF; 3],
            };
            encode::put_fault(&mut faults, fault);
        }
    }
    let last = commands.len() - 1;
    let ccws = (commands.iter().enumerate()).map(|(place, &command)| {
        let flags = if place == last { 0x20 } else { 0x60 };
        ccw(command, place, flags, 1)
    });
    Call {
        chain: ccws.flatten().collect(),
        storage: vec![0; commands.len()],
        image,
        faults,
        extent: vec![0, 0, 0, 0, 0, 0, 0, 18],
        ..Call::default()
    }
}

#[test]
fn cut_on_two_heads() {
    let mut call = over_heads(&[1, 2], &[0x86, 0x86, 0x9E, 0x03]);
    let reading = call.done();
    assert_eq!(reading.end, End::Run(run::End::Chain));
    assert_eq!(reading.csw, [0, 0, 0, 0x20, 0x0C, 0, 0, 1]);
    assert_eq!(made(&reading), [(FiveA, 1), (Five, 1), (FiveA, 2)]);
    let tracks = reading.recoveries.iter().map(|recovery| recovery.track());
    assert!(tracks.eq([0, 1, 1].map(track_at)));
    // The 9E has room for one byte of its count area alone.
    assert_eq!(call.storage, [1, 1, 0, 0]);
}

/// "only where the uncut one's last command is an 86 or 8E that ends with End of Cylinder, File
/// Protected, or a step to a track that isn't in the image may address and count left be those of the
/// restart's 92".
#[test]
fn ends_at_the_restarts_92() {
    let no_track = UnitCheck::NoRecordFound(NotFoundRule::NextHeadNotInImage);
    for command in [0x86, 0x8E] {
        let mut call = over_heads(&[1], &[0x06, command]);
        let reading = call.done();
        assert_eq!(reading.end, End::Run(run::End::UnitCheck(no_track)));
        assert_eq!(reading.csw, [0, 0, 0x10, 0x28, 0x0E, 0, 0, 8]);
        assert_eq!(call.storage, [1, 0]);
    }
    let protected = UnitCheck::FileProtected(ProtectedRule::Step);
    let mut call = over_heads(&[1, 1], &[0x1F, 0x06, 0x86]).with(|call| {
        call.chain[..8].copy_from_slice(&ccw(0x1F, 0, 0x40, 1));
        call.arguments.push(0x18);
    });
    let reading = call.done();
    assert_eq!(reading.end, End::Run(run::End::UnitCheck(protected)));
    assert_eq!(reading.csw, [0, 0, 0x10, 0x30, 0x0E, 0, 0, 8]);
}

#[test]
fn sample_over_two_heads() {
    let mut call = sample::over_two_heads();
    let reading = call.done();
    let end = run::End::UnitCheck(UnitCheck::EndOfCylinder);
    assert_eq!(reading.end, End::Run(end));
    assert_eq!(reading.csw, [0, 0, 0x10, 0x28, 0x0E, 0, 0, 8]);
    assert_eq!(made(&reading), [(FiveA, 1), (FiveA, 1)]);
    assert_eq!(call.storage[..8], MENDED);
}

#[test]
fn ends_in_the_chain_elsewhere() {
    // A command that is no 86 or 8E.
    for command in [0x92, 0x9E] {
        let reading = over_heads(&[1], &[0x06, command]).done();
        assert_eq!(reading.csw, [0, 0, 0, 0x10, 0x0E, 0, 0, 1]);
    }
    // R1 is faulted, R2 is not.
    let mut call = over_heads(&[2], &[0x86, 0x86, 0x86]);
    call.faults.truncate(13);
    let reading = call.done();
    assert_eq!(reading.csw, [0, 0, 0, 0x18, 0x0E, 0, 0, 1]);
    assert_eq!(made(&reading), [(FiveA, 1)]);
    // An end of the chain's last command that no step brings about.
    let reading = over_heads(&[1], &[0x06, 0x0F]).done();
    assert_eq!(reading.csw, [0, 0, 0, 0x10, 0x0E, 0, 0, 1]);
}

#[test]
fn refused_and_nothing_changed() {
    let changes: [(fn(&mut Call), u8); 15] = [
        (|call| call.model = 0, 1),
        (|call| call.model = 2, 1),
        (|call| call.model = 12, 1),
        (|call| call.chain.push(0), 1),
        (|call| call.arguments.resize(4_097, 0), 1),
        (|call| call.storage.resize(65_537, 0), 1),
        (|call| call.image.resize(1_048_577, 0), 1),
        (|call| call.faults.resize(65_537, 0), 1),
        (|call| call.extent.push(0), 1),
        (|call| call.limit = 0, 1),
        (|call| call.program.truncate(63), 1),
        (|call| call.restart_arguments.push(0), 1),
        (|call| call.image.push(0), 2),
        (|call| call.faults.push(0), 3),
        (|call| call.extent[3] = 2, 5),
    ];
    for (change, number) in changes {
        let lent = Call::both_faulted().with(change);
        let mut call = lent.clone();
        assert_eq!(answer(&call.simulated()), number);
        assert_eq!(call.storage, lent.storage);
        assert_eq!(call.program, lent.program);
        assert_eq!(call.restart_arguments, lent.restart_arguments);
    }
}

#[test]
fn lowest_number_answers() {
    let mut call = Call::sample().with(|call| call.extent[3] = 2);
    assert_eq!(answer(&call.simulated()), 5);
    call.faults.push(0);
    assert_eq!(answer(&call.simulated()), 3);
    call.image.push(0);
    assert_eq!(answer(&call.simulated()), 2);
    call.program.push(0);
    assert_eq!(answer(&call.simulated()), 1);
}

#[test]
fn sample_on_another_track() {
    assert_eq!(sample::on_track(TRACK), sample::reading());
}

#[test]
fn sample_on_each_model() {
    for (cylinder, one, eleven) in [(410, 0, 0), (411, 2, 0), (814, 2, 0), (815, 2, 2)] {
        let [c0, c1] = u16::to_be_bytes(cylinder);
        let lent = sample::on_track(TrackAddress { cylinder, head: 18 });
        for (model, number) in [(1, one), (11, eleven)] {
            let mut call = lent.clone().with(|call| call.model = model);
            let reading = call.simulated();
            assert_eq!(answer(&reading), number);
            let Ok(reading) = reading else { continue };
            assert_eq!(reading.end, End::Run(run::End::Chain));
            assert_eq!(made(&reading), [(FiveA, 1)]);
            assert_eq!(call.storage[..8], MENDED);
            assert_eq!(call.restart_arguments[2..6], [c0, c1, 0, 18]);
        }
    }
}

/// The report has no seek argument, so nothing but action 5 could do with it.
#[test]
fn report_of_a_cut() {
    let reading = Call::sample().done();
    let cut = &reading.recoveries[0].cut;
    assert_eq!((cut.first, cut.mask), (0x18, None));
    assert_eq!((cut.seek_argument, cut.tries), (None, 0));
    assert_eq!(cut.csw, [0, 0, 0, 0x20, 0x0E, 0, 0, 0]);
}
