//! Actions 9 and 11.

use super::*;
use crate::simulator::overflow::OverflowRule;

const NINE: [u8; 3] = [0, 0x21, 0];
const ELEVEN: [u8; 3] = [0, 0x05, 0];
const BOTH: [([u8; 3], RestartAction); 2] =
    [(NINE, RestartAction::Nine), (ELEVEN, RestartAction::Eleven)];

impl Call {
    /// Track 008/02 was sought, head 17 reached: 5 bytes at 100, then 7 of 10 at 200, which chains data and
    /// commands.
    fn overflow(front: [u8; 3]) -> Call {
        let ccws = [
            ccw(0x03, 0, 0x40, 1),
            ccw(0x0E, 100, 0x80, 5),
            ccw(0x07, 200, 0xE8, 10),
            ccw(0x08, 0x20, 0, 0),
            ccw(0x00, 300, 0, 6),
        ];
        Call::new(&ccws, front).with(|call| {
            call.report.sense[3] = 0x06;
            call.report.sense[6] = 17;
            call.report.sense[17] = 12;
            call.report.csw = [0, 0, 0, 0x18, 0x0E, 0x40, 0, 3];
            call.report.first = 8;
            call.report.seek_argument = Some([0, 0, 0, 8, 0, 2]);
        })
    }
}

#[test]
fn ccw_1_before_the_last_tic() {
    for (front, action) in BOTH {
        let (built, ccws, arguments) = Call::overflow(front).restart();
        let expected = [
            ccw(0x07, 0x2000, 0x40, 6),
            ccw(0x23, 0x2007, 0x40, 1),
            ccw(0x1A, 0, 0x50, 5),
            ccw(0x06, 207, 0xE8, 3),
            ccw(0x08, 0x0020, 0, 0),
        ];
        assert_eq!((built, &ccws[..]), (action, &expected[..]));
        let track = match action {
            RestartAction::Nine => [0, 9, 0, 0],
            _ => [0, 8, 0, 18],
        };
        assert_eq!(arguments[2..6], track);
        assert_eq!(
            (&arguments[..2], &arguments[6..]),
            (&[0; 2][..], &[0; 10][..])
        );
    }
}

#[test]
fn storage_stays() {
    for (front, action) in BOTH {
        let mut call = Call::overflow(front);
        let recovered = call.recovered().unwrap();
        assert_eq!(recovered.answer, Answer::Restart(action));
        assert_eq!((recovered.correction, call.storage), (None, vec![0; 600]));
    }
}

#[test]
fn number_7_without_9_and_11() {
    for (front, _) in BOTH {
        let mut call = Call::overflow(front);
        let report = encode::report(&call.report);
        let lent = Lent {
            model: call.model,
            chain: &call.chain,
            report: &report,
            extent: &call.extent,
        };
        let areas = Areas {
            storage: &mut call.storage,
            program: &mut call.program,
            restart_arguments: &mut call.arguments,
        };
        let refused = recover_without_overflow(lent, areas);
        assert_eq!(refused.map_err(Refusal::number), Err(7));
        assert_eq!((call.program, call.arguments), ([0xA5; 64], [0xA5; 16]));
    }
}

#[test]
fn last_tic_only_where_the_ccw_chains() {
    for (front, _) in BOTH {
        for (flags, ccws) in [(0x00, 4), (0x38, 4), (0x40, 5), (0x80, 5), (0xC0, 5)] {
            let call = Call::overflow(front).with(|call| call.chain[0x14] = flags);
            let (_, built, _) = call.clone().restart();
            assert_eq!((built.len(), built[3][4]), (ccws, flags));
            // A CCW to go on with is asked for where it is gone to.
            let ended = call.with(|call| call.chain.truncate(0x18));
            let refused = Refusal::Next(ProgramCheck::PastTheChain);
            match ccws {
                4 => assert_eq!(ended.restart().1.len(), 4),
                _ => assert_eq!(ended.untouched(), Err(refused)),
            }
        }
    }
}

#[test]
fn skipped_bytes_leave_the_address() {
    for (front, _) in BOTH {
        let call = Call::overflow(front).with(|call| call.chain[0x14] = 0x50);
        assert_eq!(call.restart().1[3], ccw(0x06, 200, 0x50, 3));
        let far = Call::overflow(front).with(|call| {
            call.chain[0x11..0x15].copy_from_slice(&[0xFF, 0xFF, 0xFF, 0x10]);
        });
        assert_eq!(far.restart().1[3], ccw(0x06, 0xFF_FFFF, 0x10, 3));
    }
}

#[test]
fn nothing_taken() {
    for (front, _) in BOTH {
        let whole_first = Call::overflow(front).with(|call| {
            call.report.sense[17] = 0;
            call.report.csw[3..].copy_from_slice(&[0x10, 0x0E, 0, 0, 5]);
        });
        let (_, ccws, _) = whole_first.restart();
        assert_eq!(ccws[3..], [ccw(0x06, 100, 0x80, 5), ccw(0x08, 0x10, 0, 0)]);
        let whole_second = Call::overflow(front).with(|call| {
            call.report.sense[17] = 5;
            call.report.csw[7] = 10;
        });
        assert_eq!(whole_second.restart().1[3], ccw(0x06, 200, 0xE8, 10));
    }
}

#[test]
fn masks_of_9_and_11() {
    for (front, _) in BOTH {
        for mask in [0x00, 0x01, 0xC1] {
            let call = Call::overflow(front).with(|call| call.report.mask = Some(mask));
            let (_, ccws, arguments) = call.restart();
            assert_eq!(ccws[1], ccw(0x1F, 0x2006, 0x40, 1));
            assert_eq!((ccws.len(), arguments[6]), (6, mask));
        }
    }
}

#[test]
fn each_disagreement() {
    type Change = fn(&mut Call);
    let interrupted = Refusal::Interrupted;
    let overflow = Refusal::Overflow;
    let changes: [(Change, Refusal); 12] = [
        (
            |call| call.report.seek_argument = None,
            interrupted(InterruptedRule::NoSeekArgument),
        ),
        (
            |call| call.report.seek_argument = Some([0, 1, 0, 8, 0, 2]),
            interrupted(InterruptedRule::SeekNotZero),
        ),
        (
            |call| call.report.seek_argument = Some([0, 0, 1, 0x9B, 0, 2]),
            interrupted(InterruptedRule::SeekOffThePack),
        ),
        (
            |call| call.report.seek_argument = Some([0, 0, 0, 8, 0, 19]),
            interrupted(InterruptedRule::SeekOffThePack),
        ),
        (
            |call| call.report.sense[3] = 0x0E,
            overflow(OverflowRule::OtherRestartCommand),
        ),
        (
            |call| call.report.first = 0x28,
            overflow(OverflowRule::FirstNotInTheChain),
        ),
        (
            |call| call.report.first = 0x10,
            overflow(OverflowRule::FirstOtherCommand),
        ),
        (
            |call| call.report.csw[3] = 0x10,
            overflow(OverflowRule::OtherCcw),
        ),
        (
            |call| call.report.csw[7] = 4,
            overflow(OverflowRule::OtherCount),
        ),
        (
            |call| {
                call.chain[0x14] = 0x60;
                call.report.sense[17] = 16;
                call.report.csw[7] = 0;
            },
            overflow(OverflowRule::NoCountLeft),
        ),
        (
            |call| call.storage.truncate(209),
            Refusal::Walk(ProgramCheck::DataRange),
        ),
        (
            |call| call.chain[0x20] = 0x08,
            Refusal::Next(ProgramCheck::TicToTic),
        ),
    ];
    for (front, _) in BOTH {
        for (change, refused) in changes {
            let call = Call::overflow(front).with(change);
            assert_eq!(call.clone().untouched(), Err(refused));
            // Before action 2.
            let outside = call.with(|call| call.extent = [0; 8]);
            assert_eq!(outside.untouched(), Err(refused));
        }
    }
}

#[test]
fn head_reached_in_11_alone() {
    for (sense_6, track) in [(0, [0, 8, 0, 1]), (0xF1, [0, 8, 0, 18]), (18, [0, 9, 0, 0])] {
        for head in [0, 18] {
            let set = |call: &mut Call| {
                call.report.sense[6] = sense_6;
                call.report.seek_argument = Some([0, 0, 0, 8, 0, head]);
            };
            let eleven = Call::overflow(ELEVEN).with(set);
            assert_eq!(eleven.restart().2[2..6], track);
            let nine = Call::overflow(NINE).with(set);
            assert_eq!(nine.restart().2[2..6], [0, 9, 0, 0]);
        }
    }
    let above = |call: &mut Call| call.report.sense[6] = 19;
    let refused = Refusal::Interrupted(InterruptedRule::HeadAboveLast);
    let eleven = Call::overflow(ELEVEN).with(above);
    assert_eq!(eleven.untouched(), Err(refused));
    let nine = Call::overflow(NINE).with(above);
    assert_eq!(nine.restart().0, RestartAction::Nine);
}

#[test]
fn action_2_for_9_and_11() {
    let not_built = |action, why| Ok(Answer::NotBuilt(action, why));
    for (model, cylinder) in [(Model::One, 410), (Model::Eleven, 814)] {
        let [c0, c1] = u16::to_be_bytes(cylinder);
        let nine = Call::overflow(NINE).on(model, cylinder, 0);
        let off = not_built(RestartAction::Nine, NotBuilt::OffThePack);
        assert_eq!(nine.untouched(), off);
        let eleven = Call::overflow(ELEVEN).on(model, cylinder, 0);
        assert_eq!(eleven.clone().restart().2[2..6], [c0, c1, 0, 18]);
        let eleven = eleven.with(|call| call.report.sense[6] = 18);
        let off = not_built(RestartAction::Eleven, NotBuilt::OffThePack);
        assert_eq!(eleven.untouched(), off);
    }
    for (front, _) in BOTH {
        let call = Call::overflow(front).on(Model::Eleven, 410, 0);
        let call = call.with(|call| call.report.sense[6] = 18);
        assert_eq!(call.restart().2[2..6], [0x01, 0x9B, 0, 0]);
    }
    for (front, action) in BOTH {
        let call = Call::overflow(front).with(|call| call.extent = [0, 8, 0, 0, 0, 8, 0, 17]);
        let outside = not_built(action, NotBuilt::OutsideTheExtent);
        assert_eq!(call.untouched(), outside);
    }
}
