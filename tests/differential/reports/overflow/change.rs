//! Changes to one thing of a report that sends to action 9 or 11, or of what it is judged by. Some of them
//! leave it as good as it was.

use crate::generate;
use crate::models::BORDERS;
use crate::random::Random;
use crate::reports::{any_mask, change as of_any, Planned};
use crate::simulator::channel::{
    Channel, Program, CCW_LENGTH, FLAG_CHAIN_COMMAND, FLAG_CHAIN_DATA,
};
use crate::simulator::drive::{READ_COUNT, READ_COUNT_MULTITRACK, READ_HOME_ADDRESS, TAKING_DATA};
use crate::simulator::encode;
use crate::simulator::extent::whole_pack;
use crate::simulator::pack::LAST_HEAD;

/// Every fourth time a change that reports of any action have.
pub fn changed(random: &mut Random, turn: usize, planned: &Planned) -> (&'static str, Planned) {
    let mut planned = planned.clone();
    let name = if turn % 4 == 0 {
        let (name, changed) = of_any::changed(random, turn / 4, planned);
        planned = changed;
        name
    } else {
        let (name, change) = CHANGES[(turn / 4 * 3 + turn % 4) % CHANGES.len()];
        change(random, &mut planned);
        name
    };
    shorten(&mut planned);
    (name, planned)
}

pub fn several(random: &mut Random, planned: &Planned) -> Planned {
    let mut planned = planned.clone();
    for _ in 0..random.within(2..=3) {
        let (_, change) = random.pick(&CHANGES);
        change(random, &mut planned);
    }
    shorten(&mut planned);
    planned
}

/// Millions of CCWs in a read take long: where each takes few bytes, fewer bytes are told.
fn shorten(planned: &mut Planned) {
    if planned.report.sense[15] == 0 {
        return;
    }
    let program = Program::of_chain(&planned.chain);
    let mut channel = Channel::new(program, planned.storage.len());
    let mut ccws = 0;
    if let Ok(first) = channel.fetch(planned.report.first) {
        // Where it ends in a program check it is short.
        let _ = channel.walk(first, 0xFFFF, |_| ccws += 1);
    }
    if ccws > 1_000 {
        planned.report.sense[15] = 0;
    }
}

type Change = (&'static str, fn(&mut Random, &mut Planned));

const CHANGES: [Change; 38] = [
    ("restart command changed", |random, planned| {
        let any = random.byte();
        planned.report.sense[3] = random.pick(&[0x00, 0x0E, 0x1E, 0x86, any]);
    }),
    ("no seek argument", |_, planned| {
        planned.report.seek_argument = None;
    }),
    ("seek argument's first bytes", |random, planned| {
        let argument = planned.report.seek_argument.get_or_insert_default();
        argument[random.below(2)] = random.nonzero_byte();
    }),
    ("cylinder off the pack", |random, planned| {
        let behind = planned.model.last_cylinder() + 1;
        let any = random.within(behind.into()..=0xFFFF) as u16;
        let border = random.pick(&BORDERS).max(behind);
        let cylinder = random.pick(&[border, any]);
        let argument = planned.report.seek_argument.get_or_insert_default();
        argument[2..4].copy_from_slice(&cylinder.to_be_bytes());
    }),
    ("head sought off the pack", |random, planned| {
        let any = random.within(LAST_HEAD as usize + 1..=0xFFFF) as u16;
        let head = random.pick(&[LAST_HEAD + 1, 0x100, any]);
        let argument = planned.report.seek_argument.get_or_insert_default();
        argument[4..].copy_from_slice(&head.to_be_bytes());
    }),
    ("head reached above the last", |random, planned| {
        let head = random.within(LAST_HEAD as usize + 1..=0x1F) as u8;
        planned.report.sense[6] = random.byte() & 0xE0 | head;
    }),
    ("first CCW past the chain", |random, planned| {
        let past = planned.chain.len() + random.below(3) * CCW_LENGTH;
        planned.report.first = random.pick(&[past, planned.report.first | 0x1000, 0xFFF8]);
    }),
    ("first CCW no multiple of 8", |random, planned| {
        planned.report.first ^= random.within(1..=7);
    }),
    ("first CCW a TIC", |random, planned| {
        set_first_command(planned, random.byte() & 0xF0 | 0x08);
    }),
    ("first CCW a 12", |_, planned| {
        set_first_command(planned, READ_COUNT)
    }),
    ("first CCW a 92", |_, planned| {
        set_first_command(planned, READ_COUNT_MULTITRACK);
    }),
    ("first CCW a 1A", |_, planned| {
        set_first_command(planned, READ_HOME_ADDRESS);
    }),
    ("first CCW of any command", |random, planned| {
        set_first_command(planned, random.byte());
    }),
    ("first CCW of another read", |random, planned| {
        set_first_command(planned, random.pick(&TAKING_DATA));
    }),
    ("first CCW of count 0", |_, planned| {
        let at = planned.report.first;
        edit(planned, at, |ccw| ccw[6..].fill(0));
    }),
    ("first CCW with low flags", |random, planned| {
        let at = planned.report.first;
        let bits = random.within(1..=7) as u8;
        edit(planned, at, |ccw| ccw[4] |= bits);
    }),
    ("first CCW outside storage", |random, planned| {
        let at = planned.report.first;
        let beyond = planned.storage.len() + random.below(2) * 0x10_0000;
        edit(planned, at, |ccw| {
            ccw[1..4].copy_from_slice(&(beyond as u32).to_be_bytes()[1..]);
        });
    }),
    ("CCW of count 0", |random, planned| {
        let at = any_of_walk(random, planned);
        edit(planned, at, |ccw| ccw[6..].fill(0));
    }),
    ("CCW with low flags", |random, planned| {
        let at = any_of_walk(random, planned);
        let bits = random.within(1..=7) as u8;
        edit(planned, at, |ccw| ccw[4] |= bits);
    }),
    ("CCW outside storage", |random, planned| {
        let at = any_of_walk(random, planned);
        edit(planned, at, |ccw| ccw[1] ^= 0x80);
    }),
    ("storage one byte shorter", |_, planned| {
        planned.storage.pop();
    }),
    ("TIC behind the first CCW", |random, planned| {
        let at = planned.report.first + CCW_LENGTH;
        let length = planned.chain.len();
        let target = match random.below(5) {
            0 => at,
            1 => length + random.pick(&[0, CCW_LENGTH, 0x1000]),
            2 => random.below(length) | random.pick(&[1, 2, 4]),
            _ => random.below(length / CCW_LENGTH) * CCW_LENGTH,
        };
        put_tic(random, planned, at, target);
    }),
    ("no next, chain ends", |random, planned| {
        chain_interrupted(random, planned);
        let end = planned.report.address();
        if end % CCW_LENGTH == 0 && end > 0 {
            planned.chain.truncate(end);
        }
    }),
    ("no next, TIC to a TIC", |random, planned| {
        let at = planned.report.address();
        put_tic_behind(random, planned, at);
    }),
    ("no next, TIC past the chain", |random, planned| {
        let past = random.pick(&[CCW_LENGTH, 2 * CCW_LENGTH, 0x1000]);
        let target = planned.chain.len() + past;
        put_tic_behind(random, planned, target);
    }),
    ("no next, TIC to no multiple of 8", |random, planned| {
        let target = random.below(planned.chain.len()) | random.pick(&[1, 2, 4]);
        put_tic_behind(random, planned, target);
    }),
    ("chain ends in the read", |random, planned| {
        let behind = any_of_walk(random, planned) + CCW_LENGTH;
        planned.chain.truncate(behind);
    }),
    ("restart displacement one more", |_, planned| {
        let restart = planned.report.restart_displacement();
        set_restart_displacement(planned, restart + 1);
    }),
    ("restart displacement one less", |_, planned| {
        let restart = planned.report.restart_displacement();
        set_restart_displacement(planned, restart.saturating_sub(1));
    }),
    ("restart displacement another", |random, planned| {
        let near = random.below(40);
        let any = random.below(0x100_0000);
        set_restart_displacement(planned, random.pick(&[0, near, near, any]));
    }),
    ("count left another", |random, planned| {
        let left = planned.report.count_left() as u16;
        let other = [0, left.wrapping_add(1), left.wrapping_sub(1), left ^ 0x100];
        planned.report.csw[6..].copy_from_slice(&random.pick(&other).to_be_bytes());
    }),
    ("CSW address another", |random, planned| {
        let other = [8, 8, 16, 4, 1, 0x1000, 0x10_0000];
        let by = random.pick(&other);
        let address = match random.once_in(2) {
            true => planned.report.address() + by,
            false => planned.report.address().wrapping_sub(by),
        };
        planned.report.csw[1..4].copy_from_slice(&(address as u32).to_be_bytes()[1..]);
    }),
    ("read to the end of its counts", |_, planned| {
        to_the_end(planned, 0)
    }),
    ("read past its counts", |random, planned| {
        to_the_end(planned, random.within(1..=9));
    }),
    ("chaining of the interrupted CCW", |random, planned| {
        let flags = random.pick(&[FLAG_CHAIN_DATA, FLAG_CHAIN_COMMAND]);
        let at = planned.report.address().wrapping_sub(CCW_LENGTH);
        edit(planned, at, |ccw| ccw[4] ^= flags);
    }),
    ("at the end of the pack", |random, planned| {
        let head = random.within(0..=LAST_HEAD.into()) as u8;
        let [c0, c1] = planned.model.last_cylinder().to_be_bytes();
        planned.report.seek_argument = Some([0, 0, c0, c1, 0, head]);
        planned.report.sense[6] = LAST_HEAD as u8;
        planned.extent = whole_pack(planned.model).to_vec();
    }),
    ("other extent", |random, planned| {
        planned.extent = generate::extent(random, planned.model);
    }),
    ("other mask", |random, planned| {
        planned.report.mask = any_mask(random);
    }),
];

fn set_first_command(planned: &mut Planned, command: u8) {
    let at = planned.report.first;
    edit(planned, at, |ccw| ccw[0] = command);
}

fn set_restart_displacement(planned: &mut Planned, displacement: usize) {
    let bytes = (displacement as u32).to_be_bytes();
    planned.report.sense[15..18].copy_from_slice(&bytes[1..]);
}

/// Changes the CCW at an address of the chain.
fn edit(planned: &mut Planned, at: usize, change: impl FnOnce(&mut [u8])) {
    let behind = at.saturating_add(CCW_LENGTH);
    if let Some(ccw) = planned.chain.get_mut(at..behind) {
        change(ccw);
    }
}

/// Address of a CCW from the first of the read to the interrupted one; a TIC may be among them.
fn any_of_walk(random: &mut Random, planned: &Planned) -> usize {
    let (first, behind) = (planned.report.first, planned.report.address());
    let ccws = behind.saturating_sub(first) / CCW_LENGTH;
    first + random.below(ccws.max(1)) * CCW_LENGTH
}

/// Sets the flags by which the interrupted CCW chains, one of them at least.
fn chain_interrupted(random: &mut Random, planned: &mut Planned) {
    const BOTH: u8 = FLAG_CHAIN_DATA | FLAG_CHAIN_COMMAND;
    let flags = random.pick(&[FLAG_CHAIN_DATA, FLAG_CHAIN_COMMAND, BOTH]);
    let at = planned.report.address().wrapping_sub(CCW_LENGTH);
    edit(planned, at, |ccw| ccw[4] = ccw[4] & !BOTH | flags);
}

/// The interrupted CCW chains, and a TIC stands behind it.
fn put_tic_behind(random: &mut Random, planned: &mut Planned, target: usize) {
    chain_interrupted(random, planned);
    let at = planned.report.address();
    if at == planned.chain.len() {
        planned.chain.extend([0; CCW_LENGTH]);
    }
    put_tic(random, planned, at, target);
}

fn put_tic(random: &mut Random, planned: &mut Planned, at: usize, target: usize) {
    let code = random.byte() & 0xF0 | 0x08;
    edit(planned, at, |ccw| {
        ccw.copy_from_slice(&encode::ccw(code, target, 0, 0));
    });
}

/// The interrupted CCW chains no data and runs out, this many bytes before the read ends.
fn to_the_end(planned: &mut Planned, over: usize) {
    let at = planned.report.address().wrapping_sub(CCW_LENGTH);
    edit(planned, at, |ccw| ccw[4] &= !FLAG_CHAIN_DATA);
    let restart = planned.report.restart_displacement() + planned.report.count_left() + over;
    set_restart_displacement(planned, restart.min(0xFF_FFFF));
    planned.report.csw[6..].fill(0);
}
