mod overflow;

use super::*;
use crate::simulator::channel::ProgramCheck;
use crate::simulator::cut::CutRule;
use crate::simulator::encode::{self, ccw};
use crate::simulator::extent::whole_pack;
use crate::simulator::interrupted::InterruptedRule;
use crate::simulator::report::ReportRule;
use crate::simulator::sample;

/// A call: what is lent, a report to be written, and what was left.
#[derive(Clone)]
struct Call {
    model: u8,
    chain: Vec<u8>,
    report: Report,
    extent: [u8; 8],
    storage: Vec<u8>,
    program: [u8; 64],
    arguments: [u8; 16],
}

impl Call {
    fn new(ccws: &[[u8; 8]], front: [u8; 3]) -> Call {
        let mut sense = [0; 24];
        sense[..3].copy_from_slice(&front);
        Call {
            model: 1,
            chain: ccws.concat(),
            report: Report {
                sense,
                csw: [0, 0, 0, 8, 0x0E, 0, 0, 0],
                ..Report::default()
            },
            extent: whole_pack(Model::One),
            storage: vec![0; 600],
            program: [0xA5; 64],
            arguments: [0xA5; 16],
        }
    }

    /// The sample's cut: R1 of 000/01, error displacement 3 of 4 bytes.
    fn sample() -> Call {
        let mut call = Call::new(&[], [0x08, 0, 0x40]);
        call.chain = sample::CHAIN.to_vec();
        call.report.sense[7..13].copy_from_slice(&[0x53, 0, 0, 0, 1, 1]);
        call.report.sense[17..23].copy_from_slice(&[4, 0, 3, 0, 1, 0]);
        call.report.csw[3] = 0x20;
        call.report.first = 0x18;
        call.extent = sample::EXTENT;
        call.storage = vec![0xC1, 0xC2, 0xC2, 0xC4, 0, 0, 0, 0];
        call
    }

    /// Action 8 for track 008/18, interrupted at 0008.
    fn end_of_cylinder() -> Call {
        let ccws = [ccw(0x07, 0, 0x40, 6), ccw(0x31, 6, 0x40, 5)];
        let mut call = Call::new(&ccws, [0, 0x20, 0]);
        call.report.csw[3] = 0x10;
        call.report.seek_argument = Some([0, 0, 0, 8, 0, 18]);
        call
    }

    /// Action 10 for the same track, its seek interrupted; a TIC leads to 0018.
    fn protected_seek() -> Call {
        let ccws = [
            ccw(0x07, 0, 0x40, 6),
            ccw(0x08, 0x18, 0, 0),
            ccw(0x03, 0, 0, 1),
            ccw(0x31, 6, 0x40, 5),
        ];
        let mut call = Call::new(&ccws, [0, 0x04, 0]);
        call.report.seek_argument = Some([0, 0, 0, 8, 0, 18]);
        call
    }

    /// Action 10A for track 008/02 and the CCW at 0018, head 17 reached.
    fn protected_step() -> Call {
        Call::protected_seek().with(|call| {
            call.chain[0x18] = 0xB1;
            call.report.csw[3] = 0x20;
            call.report.seek_argument = Some([0, 0, 0, 8, 0, 2]);
            call.report.sense[6] = 17;
        })
    }

    fn with(mut self, change: impl FnOnce(&mut Call)) -> Call {
        change(&mut self);
        self
    }

    /// On a pack of this model, which is its extent; the track that the user sought.
    fn on(self, model: Model, cylinder: u16, head: u8) -> Call {
        let [c0, c1] = cylinder.to_be_bytes();
        self.with(|call| {
            call.model = model.number();
            call.extent = whole_pack(model);
            call.report.seek_argument = Some([0, 0, c0, c1, 0, head]);
        })
    }

    fn recovered(&mut self) -> Result<Recovered, Refusal> {
        let report = encode::report(&self.report);
        self.recovered_from(&report)
    }

    fn recovered_from(&mut self, report: &[u8]) -> Result<Recovered, Refusal> {
        let lent = Lent {
            model: self.model,
            chain: &self.chain,
            report,
            extent: &self.extent,
        };
        let areas = Areas {
            storage: &mut self.storage,
            program: &mut self.program,
            restart_arguments: &mut self.arguments,
        };
        recover(lent, areas)
    }

    /// An answer that writes nothing, or the refusal.
    fn untouched(mut self) -> Result<Answer, Refusal> {
        let before = self.clone();
        let recovered = self.recovered();
        assert_eq!(self.storage, before.storage);
        assert_eq!(self.program, before.program);
        assert_eq!(self.arguments, before.arguments);
        recovered.map(|recovered| recovered.answer)
    }

    /// An answer that writes storage alone, and storage.
    fn corrected(mut self) -> (Answer, Vec<u8>) {
        let answer = self.recovered().unwrap().answer;
        assert_eq!((self.program, self.arguments), ([0xA5; 64], [0xA5; 16]));
        (answer, self.storage)
    }

    /// The action of a restart, its program up to the last CCW, and its arguments.
    fn restart(mut self) -> (RestartAction, Vec<[u8; 8]>, [u8; 16]) {
        let Answer::Restart(action) = self.recovered().unwrap().answer else {
            panic!("no restart");
        };
        let mut ccws = self.program.as_chunks().0.to_vec();
        while ccws.last() == Some(&[0; 8]) {
            ccws.pop();
        }
        (action, ccws, self.arguments)
    }
}

const MENDED: [u8; 8] = [0xC1, 0xC2, 0xC3, 0xC4, 0, 0, 0, 0];

// ---- T1 to T12

#[test]
fn t1_and_t2() {
    let t1 = Call::sample().recovered().unwrap();
    assert_eq!(t1.answer, Answer::Restart(RestartAction::FiveA));
    let t2 = Call::sample().with(|call| call.report.sense[1] = 0x01);
    assert_eq!(t2.untouched(), Err(Refusal::Action(Action::Six)));
}

#[test]
fn t3_and_t4() {
    let t3 = Call::sample().with(|call| call.report.sense[1] = 0x80);
    assert_eq!(t3.untouched(), Ok(Answer::Action1));
    let t4 = Call::sample().with(|call| call.report.sense[2] = 0);
    assert_eq!(t4.untouched(), Err(Refusal::NoRow));
}

#[test]
fn t5_and_t6() {
    let t5 = Call::end_of_cylinder().recovered().unwrap();
    assert_eq!(t5.answer, Answer::Restart(RestartAction::Eight));
    let t6 = Call::new(&[ccw(0x03, 0, 0, 1)], [0x80, 0x02, 0]);
    assert_eq!(t6.untouched(), Ok(Answer::Action1));
}

#[test]
fn t7_and_t8() {
    for (tries, answer) in [(9, Answer::Repeat), (10, Answer::Action1)] {
        let call = Call::new(&[ccw(0x03, 0, 0, 1)], [0x10, 0, 0]);
        let call = call.with(|call| call.report.tries = tries);
        assert_eq!(call.untouched(), Ok(answer));
    }
}

/// The call of T9 to T11: two data-chained CCWs, pattern 01 02 04.
fn two_ccws(places: [usize; 2], counts: [u16; 2], error: u8) -> Call {
    let ccws = [
        ccw(0x06, places[0], 0x80, counts[0]),
        ccw(0x06, places[1], 0x00, counts[1]),
    ];
    Call::new(&ccws, [0x08, 0, 0x40]).with(|call| {
        call.report.csw[3] = 0x10;
        call.report.sense[7] = 0x53;
        call.report.sense[17] = (counts[0] + counts[1]) as u8;
        call.report.sense[19..23].copy_from_slice(&[error, 1, 2, 4]);
    })
}

#[test]
fn t9_to_t11() {
    let cases: [(Call, &[(usize, u8)]); 3] = [
        (
            two_ccws([100, 500], [78, 2], 3),
            &[(177, 1), (500, 2), (501, 4)],
        ),
        (two_ccws([100, 500], [78, 2], 1), &[(501, 1)]),
        (two_ccws([100, 102], [4, 4], 6), &[(102, 4)]),
    ];
    for (call, changes) in cases {
        let mut expected = call.storage.clone();
        for &(at, byte) in changes {
            expected[at] = byte;
        }
        let finished = Answer::Finished([0, 0, 0, 0x10, 0x0C, 0, 0, 0]);
        assert_eq!(call.corrected(), (finished, expected));
    }
}

#[test]
fn t12() {
    let call = Call::end_of_cylinder().with(|call| call.extent = [0, 0, 0, 0, 0, 9, 0, 18]);
    let outside = call.clone().with(|call| {
        call.report.seek_argument = Some([0, 0, 0, 9, 0, 0]);
    });
    let not_built = Answer::NotBuilt(RestartAction::Eight, NotBuilt::OutsideTheExtent);
    assert_eq!(outside.untouched(), Ok(not_built));
    let (action, _, arguments) = call.restart();
    assert_eq!(action, RestartAction::Eight);
    assert_eq!(arguments[..6], [0, 0, 0, 9, 0, 0]);
}

// ---- The table

#[test]
fn each_row() {
    use Action::*;
    for (place, row) in table::TABLE.iter().enumerate() {
        let mut call = Call::new(&[ccw(0x03, 0, 0, 1)], [0; 3]);
        for &(byte, bit) in row.bits {
            call.report.sense[byte] |= 0x80 >> bit;
        }
        let recovered = call.recovered();
        if let Ok(recovered) = &recovered {
            assert_eq!(recovered.row, place);
        }
        let answer = recovered.map(|recovered| recovered.answer);
        let expected = match row.action {
            One => Ok(Answer::Action1),
            Two => Ok(Answer::Action2),
            Three | Four => Ok(Answer::Repeat),
            Five => Err(Refusal::SenseFormat),
            Eight | Nine | Ten | Eleven => {
                Err(Refusal::Interrupted(InterruptedRule::NoSeekArgument))
            }
            Six | SixA | Seven => Err(Refusal::Action(row.action)),
        };
        assert_eq!(answer, expected);
    }
}

#[test]
fn action_3_repeats_once() {
    for front in [[0x40, 0, 0], [0x20, 0, 0], [0, 0, 0x10]] {
        for (tries, answer) in [(0, Answer::Repeat), (1, Answer::Action1)] {
            let call = Call::new(&[ccw(0x03, 0, 0, 1)], front);
            let call = call.with(|call| call.report.tries = tries);
            assert_eq!(call.untouched(), Ok(answer));
        }
    }
}

// ---- The questions

#[test]
fn lowest_number_answers() {
    let mut call = Call::sample().with(|call| call.report.first = 0);
    let other_command = Refusal::Cut(CutRule::OtherCommand);
    assert_eq!(call.recovered(), Err(other_command));
    call.report.sense[7] = 0x43;
    assert_eq!(call.recovered(), Err(Refusal::SenseFormat));
    call.report.sense[1] = 0x01;
    assert_eq!(call.recovered(), Err(Refusal::Action(Action::Six)));
    call.report.sense[0..2].fill(0);
    assert_eq!(call.recovered(), Err(Refusal::NoRow));
    call.extent[7] = 0;
    assert_eq!(call.recovered().map_err(Refusal::number), Err(5));
    call.report.csw[0] = 1;
    let first_byte = Refusal::Report(ReportRule::CswFirstByte);
    assert_eq!(call.recovered(), Err(first_byte));
    call.chain.push(0);
    assert_eq!(call.recovered().map_err(Refusal::number), Err(1));
}

#[test]
fn extent_is_asked_for_every_action() {
    let call = Call::new(&[ccw(0x03, 0, 0, 1)], [0x80, 0x02, 0]);
    let call = call.with(|call| call.extent[5] = 0x9B);
    assert_eq!(call.untouched().map_err(Refusal::number), Err(5));
}

#[test]
fn report_of_any_length_is_question_4() {
    for length in [0, 1, 47, 70_000] {
        let refused = Call::sample().recovered_from(&vec![0x10; length]);
        assert_eq!(refused.map_err(Refusal::number), Err(4));
    }
}

#[test]
fn number_9_before_action_2() {
    let call = Call::sample().with(|call| {
        call.report.sense[9] = 5;
        call.report.csw[7] = 1;
    });
    let refused = Refusal::Cut(CutRule::OtherCount);
    assert_eq!(call.untouched(), Err(refused));
}

#[test]
fn no_next_ccw_for_5() {
    let refused = |change: fn(&mut Call)| Call::sample().with(change).untouched();
    let ends = refused(|call| call.chain.truncate(0x20));
    assert_eq!(ends, Err(Refusal::Next(ProgramCheck::PastTheChain)));
    let tic_to_tic = refused(|call| {
        call.chain[0x20] = 0x08;
        call.chain[0x23] = 0x10;
    });
    assert_eq!(tic_to_tic, Err(Refusal::Next(ProgramCheck::TicToTic)));
}

// ---- Action 5

#[test]
fn sample_by_5a() {
    let mut call = Call::sample();
    let recovered = call.recovered().unwrap();
    let correction = recovered.correction.unwrap();
    assert_eq!(
        correction.fates,
        [Fate::Stored(1), Fate::Stored(2), Fate::Stored(3)]
    );
    assert_eq!(call.storage, MENDED);
    let (action, ccws, arguments) = Call::sample().restart();
    let expected = [
        ccw(0x07, 0x2000, 0x40, 6),
        ccw(0x23, 0x2007, 0x40, 1),
        ccw(0x31, 0x2008, 0x40, 5),
        ccw(0x08, 0x1010, 0, 0),
        ccw(0x12, 0, 0x50, 8),
        ccw(0x08, 0x0020, 0, 0),
    ];
    assert_eq!((action, &ccws[..]), (RestartAction::FiveA, &expected[..]));
    assert_eq!(arguments, [0, 0, 0, 0, 0, 1, 0, 0, 0, 0, 0, 1, 1, 0, 0, 0]);
}

#[test]
fn next_command_with_bit_3_on_by_5() {
    for command in [0x12, 0x1E, 0x1A, 0x31, 0x1F, 0x92, 0x9E, 0xB1, 0x9A] {
        let call = Call::sample().with(|call| call.chain[0x20] = command);
        let (action, ccws, _) = call.restart();
        assert_eq!((action, ccws.len()), (RestartAction::Five, 5));
        assert_eq!(ccws[4], ccw(0x08, 0x0020, 0, 0));
    }
}

#[test]
fn code_of_the_read_count() {
    for (command, read_count) in [(0x86, 0x92), (0x8E, 0x92), (0x0E, 0x12), (0x83, 0x12)] {
        let call = Call::sample().with(|call| call.chain[0x20] = command);
        let (action, ccws, _) = call.restart();
        assert_eq!((action, ccws.len()), (RestartAction::FiveA, 6));
        assert_eq!(ccws[4], ccw(read_count, 0, 0x50, 8));
    }
    // Behind a TIC it is the command that counts.
    let call = Call::sample().with(|call| {
        call.chain[0x20..].copy_from_slice(&ccw(0x08, 0x10, 0, 0));
        call.chain[0x10] = 0x86;
    });
    assert_eq!(call.restart().1[4], ccw(0x92, 0, 0x50, 8));
}

#[test]
fn next_command_behind_a_tic() {
    let call = Call::sample().with(|call| {
        call.chain[0x20] = 0xF8;
        call.chain[0x23] = 0x08;
    });
    let (action, ccws, _) = call.restart();
    assert_eq!(action, RestartAction::Five);
    assert_eq!(ccws[4], ccw(0x08, 0x0008, 0, 0));
}

#[test]
fn next_ccw_may_be_anything_but_a_tic() {
    let call = Call::sample().with(|call| call.chain[0x20..].copy_from_slice(&[0xFF; 8]));
    assert_eq!(call.restart().0, RestartAction::Five);
    let call = Call::sample().with(|call| call.chain[0x20..].fill(0));
    assert_eq!(call.restart().0, RestartAction::FiveA);
}

#[test]
fn mask_set_again_only_if_one_was() {
    for mask in [0x00, 0x18, 0xC0] {
        let call = Call::sample().with(|call| call.report.mask = Some(mask));
        let (_, ccws, arguments) = call.restart();
        assert_eq!(ccws[1], ccw(0x1F, 0x2006, 0x40, 1));
        assert_eq!(ccws[4], ccw(0x08, 0x1018, 0, 0));
        assert_eq!(arguments[6], mask);
    }
}

#[test]
fn sector_from_sense_13() {
    let call = Call::sample().with(|call| call.report.sense[13] = 0x7F);
    assert_eq!(call.restart().2[7], 0x7F);
}

#[test]
fn pci_fetch_mode() {
    type Change = fn(&mut Call);
    let changes: [Change; 5] = [
        |_| (),
        |call| call.chain[0x1C] = 0,
        |call| call.report.sense[8..12].fill(0xFF),
        |call| call.extent = [0; 8],
        |call| call.chain.truncate(0x20),
    ];
    for mask in [0x01, 0xC1] {
        for change in changes {
            let call = Call::sample().with(|call| call.report.mask = Some(mask));
            let corrected = call.with(change).corrected();
            assert_eq!(corrected, (Answer::CorrectedOnly, MENDED.to_vec()));
        }
    }
}

#[test]
fn finished_without_cc() {
    let call = Call::sample().with(|call| {
        call.chain[0x1C] = 0;
        call.chain.truncate(0x20);
        call.report.sense[8..12].fill(0xFF);
        call.report.csw[4..6].copy_from_slice(&[0xFF, 0xBF]);
    });
    let csw = [0, 0, 0, 0x20, 0xFD, 0xBF, 0, 0];
    let finished = (Answer::Finished(csw), MENDED.to_vec());
    assert_eq!(call.corrected(), finished);
}

#[test]
fn finished_with_incorrect_length() {
    let call = Call::sample().with(|call| {
        call.chain[0x1F] = 5;
        call.report.csw[5..].copy_from_slice(&[0x40, 0, 1]);
    });
    let csw = [0, 0, 0, 0x20, 0x0C, 0x40, 0, 1];
    let finished = (Answer::Finished(csw), MENDED.to_vec());
    assert_eq!(call.corrected(), finished);
}

#[test]
fn incorrect_length_suppressed_restarts() {
    let call = Call::sample().with(|call| {
        call.chain[0x1C] = 0x60;
        call.chain[0x1F] = 5;
        call.report.csw[7] = 1;
    });
    assert_eq!(call.restart().0, RestartAction::FiveA);
}

#[test]
fn seek_of_5_off_the_pack_or_outside() {
    for (track, why) in [
        ([0, 0, 0, 2], NotBuilt::OutsideTheExtent),
        ([0, 0, 0, 0], NotBuilt::OutsideTheExtent),
        ([1, 0x9B, 0, 0], NotBuilt::OffThePack),
        ([0, 0, 0, 19], NotBuilt::OffThePack),
        ([0, 0, 1, 1], NotBuilt::OffThePack),
    ] {
        let call = Call::sample().with(|call| call.report.sense[8..12].copy_from_slice(&track));
        let not_built = Answer::NotBuilt(RestartAction::FiveA, why);
        assert_eq!(call.untouched(), Ok(not_built));
    }
}

// ---- Actions 8, 10 and 10A

#[test]
fn action_8_to_the_interrupted_ccw() {
    let (action, ccws, arguments) = Call::end_of_cylinder().restart();
    let expected = [
        ccw(0x07, 0x2000, 0x40, 6),
        ccw(0x23, 0x2007, 0x40, 1),
        ccw(0x1A, 0, 0x50, 5),
        ccw(0x08, 0x0008, 0, 0),
    ];
    assert_eq!((action, &ccws[..]), (RestartAction::Eight, &expected[..]));
    assert_eq!(arguments, [0, 0, 0, 9, 0, 0, 0, 0, 0, 0, 0, 0, 0, 0, 0, 0]);
}

#[test]
fn action_8_of_an_interrupted_seek_goes_to_it() {
    let call = Call::end_of_cylinder().with(|call| call.report.csw[3] = 8);
    let (action, ccws, _) = call.restart();
    assert_eq!((action, ccws[3][3]), (RestartAction::Eight, 0));
}

#[test]
fn action_10_to_the_next_ccw() {
    let (action, ccws, arguments) = Call::protected_seek().restart();
    assert_eq!((action, ccws[3][3]), (RestartAction::Ten, 0x18));
    assert_eq!(arguments[..6], [0, 0, 0, 8, 0, 18]);
}

#[test]
fn action_10a_to_the_interrupted_ccw() {
    for (sense_6, next) in [
        (0, [0, 8, 0, 1]),
        (17, [0, 8, 0, 18]),
        (18, [0, 9, 0, 0]),
        // Bits 0 to 2 are not asked.
        (0x80, [0, 8, 0, 1]),
        (0xF1, [0, 8, 0, 18]),
        (0x72, [0, 9, 0, 0]),
    ] {
        for head in [0, 2, 18] {
            let call = Call::protected_step().with(|call| {
                call.report.seek_argument = Some([0, 0, 0, 8, 0, head]);
                call.report.sense[6] = sense_6;
            });
            let (action, ccws, arguments) = call.restart();
            assert_eq!((action, ccws[3][3]), (RestartAction::TenA, 0x18));
            assert_eq!(arguments[2..6], next);
        }
    }
}

#[test]
fn head_reached_above_the_last() {
    for sense_6 in [19, 31, 0xF3, 0xFF] {
        let set = |call: &mut Call| call.report.sense[6] = sense_6;
        let ten_a = Call::protected_step().with(set);
        let refused = Refusal::Interrupted(InterruptedRule::HeadAboveLast);
        assert_eq!(ten_a.clone().untouched(), Err(refused));
        // Before action 2.
        let outside = ten_a.with(|call| call.extent = [0; 8]);
        assert_eq!(outside.untouched(), Err(refused));
        let eight = Call::end_of_cylinder().with(set);
        assert_eq!(eight.restart().2[2..6], [0, 9, 0, 0]);
        let ten = Call::protected_seek().with(set);
        assert_eq!(ten.restart().2[2..6], [0, 8, 0, 18]);
    }
}

#[test]
fn head_sought_is_asked_in_10a_too() {
    let call = Call::protected_step().with(|call| {
        call.report.seek_argument = Some([0, 0, 0, 8, 0, 19]);
    });
    let refused = Refusal::Interrupted(InterruptedRule::SeekOffThePack);
    assert_eq!(call.untouched(), Err(refused));
}

#[test]
fn behind_the_last_cylinder() {
    let off = |action| Ok(Answer::NotBuilt(action, NotBuilt::OffThePack));
    for (model, cylinder) in [(Model::One, 410), (Model::Eleven, 814)] {
        let [c0, c1] = u16::to_be_bytes(cylinder);
        let eight = Call::end_of_cylinder().on(model, cylinder, 18);
        assert_eq!(eight.untouched(), off(RestartAction::Eight));
        let ten_a = Call::protected_step().on(model, cylinder, 18);
        assert_eq!(ten_a.clone().restart().2[..6], [0, 0, c0, c1, 0, 18]);
        let ten_a = ten_a.with(|call| call.report.sense[6] = 18);
        assert_eq!(ten_a.untouched(), off(RestartAction::TenA));
        let ten = Call::protected_seek().on(model, cylinder, 18);
        assert_eq!(ten.restart().2[..6], [0, 0, c0, c1, 0, 18]);
    }
}

#[test]
fn behind_cylinder_410_on_model_11() {
    let eight = Call::end_of_cylinder().on(Model::Eleven, 410, 18);
    assert_eq!(eight.restart().2[..6], [0, 0, 0x01, 0x9B, 0, 0]);
    let carried = |call: &mut Call| call.report.sense[6] = 18;
    let ten_a = Call::protected_step().on(Model::Eleven, 410, 0);
    let ten_a = ten_a.with(carried);
    assert_eq!(ten_a.restart().2[..6], [0, 0, 0x01, 0x9B, 0, 0]);
}

#[test]
fn record_off_the_pack_of_the_model() {
    for (cylinder, one, eleven) in [(411, false, true), (814, false, true), (815, false, false)] {
        let track = u16::to_be_bytes(cylinder);
        for (model, built) in [(Model::One, one), (Model::Eleven, eleven)] {
            let call = Call::sample().with(|call| {
                call.model = model.number();
                call.extent = whole_pack(model);
                call.report.sense[8..10].copy_from_slice(&track);
            });
            if built {
                assert_eq!(call.restart().2[2..4], track);
            } else {
                let off = Answer::NotBuilt(RestartAction::FiveA, NotBuilt::OffThePack);
                assert_eq!(call.untouched(), Ok(off));
            }
        }
    }
}

#[test]
fn another_model_is_question_1() {
    for model in [0, 2, 10, 12, 255] {
        let call = Call::sample().with(|call| call.model = model);
        assert_eq!(call.clone().untouched(), Err(Refusal::Model));
        let torn = call.clone().recovered_from(&[0x10]);
        assert_eq!(torn, Err(Refusal::Model));
        let short = call.with(|call| call.chain.truncate(7));
        assert_eq!(short.untouched(), Err(Refusal::Model));
    }
}

#[test]
fn outside_the_extent() {
    let calls = [
        (Call::end_of_cylinder(), RestartAction::Eight),
        (Call::protected_seek(), RestartAction::Ten),
        (Call::protected_step(), RestartAction::TenA),
    ];
    for (call, action) in calls {
        let call = call.with(|call| call.extent = [0, 8, 0, 0, 0, 8, 0, 17]);
        let not_built = Answer::NotBuilt(action, NotBuilt::OutsideTheExtent);
        assert_eq!(call.untouched(), Ok(not_built));
    }
}

#[test]
fn masks_of_8_and_10() {
    for call in [
        Call::end_of_cylinder(),
        Call::protected_seek(),
        Call::protected_step(),
    ] {
        // Bit 7 means nothing here.
        let call = call.with(|call| call.report.mask = Some(0xC1));
        let (_, ccws, arguments) = call.restart();
        assert_eq!(ccws[1], ccw(0x1F, 0x2006, 0x40, 1));
        assert_eq!((ccws.len(), arguments[6]), (5, 0xC1));
    }
}

#[test]
fn seek_of_10_needs_cc_and_a_next_ccw() {
    let no_cc = Call::protected_seek().with(|call| call.chain[4] = 0);
    let refused = Refusal::Interrupted(InterruptedRule::SeekWithoutCc);
    assert_eq!(no_cc.untouched(), Err(refused));
    let no_next = Call::protected_seek().with(|call| call.chain.truncate(8));
    let refused = Refusal::Next(ProgramCheck::PastTheChain);
    assert_eq!(no_next.untouched(), Err(refused));
    // 8 and 10A ask neither.
    let eight = Call::end_of_cylinder().with(|call| call.chain[0x0C] = 0);
    assert_eq!(eight.restart().0, RestartAction::Eight);
}

#[test]
fn first_ccw_of_a_read_is_not_asked_here() {
    let call = Call::end_of_cylinder().with(|call| call.report.first = 0xFFFF);
    assert_eq!(call.restart().0, RestartAction::Eight);
}
