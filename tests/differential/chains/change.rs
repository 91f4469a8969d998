//! Changes to a run. Some of them leave it as good as it was.

use super::scatter::COMMANDS;
use super::GeneratedRun;
use crate::models::{self, border_track};
use crate::random::Random;
use crate::simulator::channel::{
    CCW_LENGTH, FLAG_CHAIN_COMMAND, FLAG_CHAIN_DATA, FLAG_PCI, FLAG_SKIP, FLAG_SUPPRESS_LENGTH,
    RESTART_PROGRAM,
};
use crate::simulator::encode::{put_home_address, put_record};
use crate::simulator::model::Model;

/// Changes the chain, the arguments, storage or the limit in one way.
pub fn changed(
    random: &mut Random,
    turn: usize,
    mut run: GeneratedRun,
) -> (&'static str, GeneratedRun) {
    let turn = turn % (CCWS.len() + AREAS.len());
    let name = match CCWS.get(turn) {
        Some((name, change)) => {
            change(random, &mut run.chain);
            name
        }
        None => {
            let (name, change) = AREAS[turn - CCWS.len()];
            change(random, &mut run);
            name
        }
    };
    (name, run)
}

/// Changes one CCW of a chain in one way, or two.
pub fn changed_ccw(random: &mut Random, turn: usize, ccws: &mut [u8]) {
    let (_, change) = CCWS[turn % CCWS.len()];
    change(random, ccws);
}

/// Changes the restart's program in one way, or its arguments.
pub fn changed_restart(
    random: &mut Random,
    turn: usize,
    mut run: GeneratedRun,
) -> (&'static str, GeneratedRun) {
    let restart = run.restart.as_mut().expect("a restarted run");
    match CCWS.get(turn % (CCWS.len() + 2)) {
        Some((_, change)) => {
            change(random, &mut restart.program);
            ("restart program changed", run)
        }
        None => {
            let at = random.below(restart.arguments.len());
            restart.arguments[at] = random.pick(&[0, 1, 0x18, 0x80, 0xFF]);
            ("restart arguments changed", run)
        }
    }
}

/// Changes an area, the limit or the model so that a question is mostly answered no.
pub fn refused(
    random: &mut Random,
    turn: usize,
    mut run: GeneratedRun,
) -> (&'static str, GeneratedRun) {
    let (name, change) = QUESTIONS[turn % QUESTIONS.len()];
    change(random, &mut run);
    (name, run)
}

type ToCcws = (&'static str, fn(&mut Random, &mut [u8]));
type ToRun = (&'static str, fn(&mut Random, &mut GeneratedRun));

const CCWS: [ToCcws; 24] = [
    ("count 0", |random, ccws| set_count(any(random, ccws), 0)),
    ("count one less", |random, ccws| {
        let ccw = any(random, ccws);
        set_count(ccw, count(ccw).wrapping_sub(1));
    }),
    ("count one more", |random, ccws| {
        let ccw = any(random, ccws);
        set_count(ccw, count(ccw).wrapping_add(1));
    }),
    ("count far off", |random, ccws| {
        let ccw = any(random, ccws);
        set_count(ccw, count(ccw) ^ random.pick(&[0x0100, 0x8000, 0xFF00]));
    }),
    ("CD changed", |random, ccws| {
        any(random, ccws)[4] ^= FLAG_CHAIN_DATA;
    }),
    ("CC changed", |random, ccws| {
        any(random, ccws)[4] ^= FLAG_CHAIN_COMMAND;
    }),
    ("SLI changed", |random, ccws| {
        any(random, ccws)[4] ^= FLAG_SUPPRESS_LENGTH;
    }),
    ("skip changed", |random, ccws| {
        any(random, ccws)[4] ^= FLAG_SKIP;
    }),
    ("PCI changed", |random, ccws| {
        any(random, ccws)[4] ^= FLAG_PCI;
    }),
    ("low flag bit on", |random, ccws| {
        any(random, ccws)[4] |= random.pick(&[0x01, 0x02, 0x04]);
    }),
    ("ignored byte changed", |random, ccws| {
        any(random, ccws)[5] ^= random.nonzero_byte();
    }),
    ("other command", |random, ccws| {
        any(random, ccws)[0] = random.pick(&COMMANDS);
    }),
    ("any command", |random, ccws| {
        any(random, ccws)[0] = random.byte();
    }),
    ("command made a TIC", |random, ccws| {
        let target = any_address(random, ccws);
        let ccw = any(random, ccws);
        ccw[0] = random.byte() & 0xF0 | 0x08;
        set_address(ccw, target);
    }),
    ("TIC elsewhere", |random, ccws| {
        let target = any_address(random, ccws);
        set_address(any_tic(random, ccws), target);
    }),
    ("TIC to no multiple of 8", |random, ccws| {
        let target = any_address(random, ccws) + random.within(1..=7);
        set_address(any_tic(random, ccws), target);
    }),
    ("TIC past the chain", |random, ccws| {
        let target = ccws.len() + random.pick(&[0, 8, 64, 0x10_0000]);
        set_address(any_tic(random, ccws), target);
    }),
    ("TIC to the restart", |random, ccws| {
        let target = RESTART_PROGRAM + random.below(9) * CCW_LENGTH;
        set_address(any_tic(random, ccws), target);
    }),
    ("TIC to a TIC", |random, ccws| {
        let target = any_address(random, ccws);
        ccws[target] = 0x08;
        set_address(any_tic(random, ccws), target);
    }),
    ("address one more", |random, ccws| {
        let ccw = any(random, ccws);
        set_address(ccw, address(ccw) + 1);
    }),
    ("address far off", |random, ccws| {
        let ccw = any(random, ccws);
        let error = random.pick(&[0x100, 0x1000, 0x2000, 0x01_0000, 0x80_0000]);
        set_address(ccw, address(ccw) ^ error);
    }),
    ("CCWs swapped", |random, ccws| {
        let [one, other] = [0, 1].map(|_| any_address(random, ccws));
        for byte in 0..CCW_LENGTH {
            ccws.swap(one + byte, other + byte);
        }
    }),
    ("CCW written over another", |random, ccws| {
        let [from, to] = [0, 1].map(|_| any_address(random, ccws));
        ccws.copy_within(from..from + CCW_LENGTH, to);
    }),
    ("bit changed", |random, ccws| {
        let at = random.below(ccws.len());
        ccws[at] ^= 1 << random.below(8);
    }),
];

const AREAS: [ToRun; 4] = [
    ("arguments cut", |random, run| {
        let left = random.within(0..=run.arguments.len());
        run.arguments.truncate(left);
    }),
    ("argument byte changed", |random, run| {
        if !run.arguments.is_empty() {
            let at = random.below(run.arguments.len());
            run.arguments[at] ^= random.nonzero_byte();
        }
    }),
    ("storage cut", |random, run| {
        let left = random.within(0..=run.storage.len());
        run.storage.truncate(left);
    }),
    ("limit at hand", |random, run| {
        run.limit = random.within(1..=10);
    }),
];

const QUESTIONS: [ToRun; 14] = [
    ("image torn", |random, run| {
        let left = random.below(run.image.len().max(1));
        run.image.truncate(left);
    }),
    ("image byte changed", |random, run| {
        if !run.image.is_empty() {
            let at = random.below(run.image.len());
            run.image[at] ^= random.nonzero_byte();
        }
    }),
    ("track at the end of a pack", |random, run| {
        let track = border_track(random);
        put_home_address(&mut run.image, track);
        put_record(&mut run.image, track, 0, &[], &[]);
    }),
    ("fault list torn", |random, run| {
        run.faults.push(random.byte());
    }),
    ("fault list byte changed", |random, run| {
        if !run.faults.is_empty() {
            let at = random.below(run.faults.len());
            run.faults[at] ^= random.nonzero_byte();
        }
    }),
    ("image and fault list torn", |random, run| {
        run.image.push(random.byte());
        run.faults.push(random.byte());
    }),
    ("chain not a multiple of 8", |random, run| {
        let more = random.within(1..=7);
        run.chain.resize(run.chain.len() + more, 0);
    }),
    ("no chain", |_, run| run.chain.clear()),
    ("chain too long", |_, run| run.chain.resize(2_056, 0)),
    ("arguments too long", |_, run| {
        run.arguments.resize(4_097, 0)
    }),
    ("limit out of range", |random, run| {
        run.limit = random.pick(&[0, 4_097, 65_536 + 1]);
    }),
    ("no model", |random, run| {
        run.model = models::any_other(random);
    }),
    ("no model, image and fault list torn", |random, run| {
        run.model = models::any_other(random);
        run.image.push(random.byte());
        run.faults.push(random.byte());
    }),
    ("other model", |_, run| run.model = other_model(run.model)),
];

/// The pack may lack tracks of the image then.
fn other_model(model: u8) -> u8 {
    let other = match models::model_of(model) {
        Model::One => Model::Eleven,
        Model::Eleven => Model::One,
    };
    other.number()
}

fn any_address(random: &mut Random, ccws: &[u8]) -> usize {
    random.below(ccws.len() / CCW_LENGTH) * CCW_LENGTH
}

fn any<'c>(random: &mut Random, ccws: &'c mut [u8]) -> &'c mut [u8] {
    let at = any_address(random, ccws);
    &mut ccws[at..at + CCW_LENGTH]
}

/// A TIC, or where there is none a CCW that is made one.
fn any_tic<'c>(random: &mut Random, ccws: &'c mut [u8]) -> &'c mut [u8] {
    let tics: Vec<usize> = (0..ccws.len())
        .step_by(CCW_LENGTH)
        .filter(|&at| ccws[at] & 0x0F == 0x08)
        .collect();
    let at = if tics.is_empty() {
        any_address(random, ccws)
    } else {
        random.pick(&tics)
    };
    ccws[at] = ccws[at] & 0xF0 | 0x08;
    &mut ccws[at..at + CCW_LENGTH]
}

fn count(ccw: &[u8]) -> u16 {
    u16::from_be_bytes([ccw[6], ccw[7]])
}

fn set_count(ccw: &mut [u8], count: u16) {
    ccw[6..8].copy_from_slice(&count.to_be_bytes());
}

fn address(ccw: &[u8]) -> usize {
    u32::from_be_bytes([0, ccw[1], ccw[2], ccw[3]]) as usize
}

/// The low 24 bits.
fn set_address(ccw: &mut [u8], address: usize) {
    ccw[1..4].copy_from_slice(&(address as u32).to_be_bytes()[1..]);
}
