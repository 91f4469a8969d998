//! Data chains of which a part was read.

use crate::random::Random;
use crate::simulator::channel::{
    CCW_LENGTH, FLAG_CHAIN_COMMAND, FLAG_CHAIN_DATA, FLAG_PCI, FLAG_SKIP, FLAG_SUPPRESS_LENGTH,
};
use crate::simulator::drive::{READ_COUNT, READ_DATA, SEEK, TAKING_DATA};
use crate::simulator::encode;

/// A chain with a read in it.
pub struct PartlyRead {
    pub chain: Vec<u8>,
    /// Bytes of storage.
    pub storage: usize,
    /// Address of the read's first CCW.
    pub first: usize,
    /// Bytes read.
    pub restart: usize,
}

/// A few bytes by one to five CCWs; now and then the last one leads back, and the read goes round.
pub fn short(random: &mut Random) -> PartlyRead {
    let storage = random.within(8..=40);
    let mut writer = Writer::new(random, storage);
    let ccws = random.pick(&[1, 1, 2, 2, 3, 5]);
    for place in 0..ccws {
        let count = random.within(1..=8);
        let chaining = match place + 1 == ccws {
            true => random.pick(&[0, CC, CD, CD | CC]),
            false => CD | random.pick(&[0, 0, CC]),
        };
        writer.put_read(random, chaining, count);
        if place + 1 < ccws && random.once_in(3) {
            writer.put_tic_over(random);
        }
    }
    let turns = random.pick(&[0, 0, 0, 0, 0, 0, 0, 1, 2, 3]);
    if turns > 0 {
        writer.make_last_chain_data();
        let to = random.below(ccws);
        writer.put_tic_back(to);
    } else {
        writer.put_behind(random);
    }
    let restart = writer.bytes_before(random, turns);
    writer.read(restart)
}

/// Many bytes by two or three CCWs that go round, or by one that skips.
pub fn long(random: &mut Random) -> PartlyRead {
    let storage = random.within(8..=40);
    let mut writer = Writer::new(random, storage);
    let most = 0xFF_FFFF;
    let restart = match random.below(8) {
        0 => most,
        1 | 2 => random.within(13_000..=65_000),
        _ => random.within(1_000_000..=most),
    };
    if restart <= 65_000 && random.once_in(2) {
        let chaining = random.pick(&[0, CC, CD, CD | CC]);
        let left = random.within(1..=535);
        writer.put_skip(random, chaining, restart + left);
        writer.put_behind(random);
        return writer.read(restart);
    }
    let skipped = random.within(30_000..=65_535);
    let skipped_first = random.once_in(2);
    if skipped_first {
        writer.put_skip(random, CD, skipped);
    }
    let ccws = random.within(1..=2);
    for _ in 0..ccws {
        let count = random.within(1..=8);
        writer.put_read(random, CD, count);
    }
    if !skipped_first {
        writer.put_skip(random, CD, skipped);
    }
    writer.put_tic_back(0);
    writer.read(restart)
}

const CD: u8 = FLAG_CHAIN_DATA;
const CC: u8 = FLAG_CHAIN_COMMAND;

/// A chain being written, and the CCWs of its read.
struct Writer {
    chain: Vec<u8>,
    storage: usize,
    /// Address and count of each.
    ccws: Vec<(usize, usize)>,
    /// Of `ccws`, the one that the last leads back to.
    back_to: usize,
}

impl Writer {
    /// Now and then with anything in front.
    fn new(random: &mut Random, storage: usize) -> Writer {
        let in_front = random.pick(&[0, 0, 1, 2]);
        Writer {
            chain: random.bytes(in_front * CCW_LENGTH),
            storage,
            ccws: Vec::new(),
            back_to: 0,
        }
    }

    /// The next CCW of the read; only the first one's code means something.
    fn put_ccw(&mut self, random: &mut Random, address: usize, flags: u8, count: usize) {
        let code = match self.ccws.is_empty() {
            true => random.pick(&TAKING_DATA),
            false => other_than_tic(random),
        };
        let idle = random.pick(&[0, 0, 0, FLAG_PCI]) | random.pick(&[0, FLAG_SUPPRESS_LENGTH]);
        self.ccws.push((self.chain.len(), count));
        self.chain
            .extend(encode::ccw(code, address, flags | idle, count as u16));
    }

    /// One that lies in storage; some of them skip.
    fn put_read(&mut self, random: &mut Random, chaining: u8, count: usize) {
        let address = random.within(0..=self.storage - count);
        if random.once_in(4) {
            let anywhere = random.below(0x100_0000);
            let address = random.pick(&[address, anywhere]);
            self.put_ccw(random, address, chaining | FLAG_SKIP, count);
        } else {
            self.put_ccw(random, address, chaining, count);
        }
    }

    fn put_skip(&mut self, random: &mut Random, chaining: u8, count: usize) {
        let address = random.below(0x100_0000);
        self.put_ccw(random, address, chaining | FLAG_SKIP, count);
    }

    fn put_tic(&mut self, random: &mut Random, target: usize) {
        let code = random.pick(&[0x08, 0x08, 0xF8]);
        self.chain.extend(encode::ccw(code, target, 0, 0));
    }

    /// To the CCW written next, over none, one or two that nothing leads to.
    fn put_tic_over(&mut self, random: &mut Random) {
        let over = random.pick(&[0, 0, 1, 2]) * CCW_LENGTH;
        let target = self.chain.len() + CCW_LENGTH + over;
        self.put_tic(random, target);
        self.chain.extend(random.bytes(over));
    }

    fn put_tic_back(&mut self, to: usize) {
        self.back_to = to;
        let (target, _) = self.ccws[to];
        self.chain.extend(encode::ccw(0x08, target, 0, 0));
    }

    fn make_last_chain_data(&mut self) {
        let (at, _) = *self.ccws.last().expect("a CCW of the read");
        self.chain[at + 4] |= CD;
    }

    /// Nothing, anything, a TIC to a CCW of the read, one over others, or some command.
    fn put_behind(&mut self, random: &mut Random) {
        let command = |random: &mut Random| {
            let mut ccw = random.bytes(CCW_LENGTH);
            ccw[0] = other_than_tic(random);
            ccw
        };
        match random.below(8) {
            0 => return,
            1 => self.chain.extend(random.bytes(CCW_LENGTH)),
            2 => {
                let (target, _) = random.pick(&self.ccws);
                self.put_tic(random, target);
            }
            3 => {
                self.put_tic_over(random);
                self.chain.extend(command(random));
            }
            _ => self.chain.extend(command(random)),
        }
        if random.once_in(3) {
            self.chain.extend(random.bytes(CCW_LENGTH));
        }
    }

    /// How many bytes come before some byte of a CCW of the read, or before that byte so many turns later;
    /// the first byte of a CCW often.
    fn bytes_before(&self, random: &mut Random, turns: usize) -> usize {
        let counted = |ccws: &[(usize, usize)]| -> usize { ccws.iter().map(|ccw| ccw.1).sum() };
        let place = match turns {
            0 => random.below(self.ccws.len()),
            _ => random.within(self.back_to..=self.ccws.len() - 1),
        };
        let (_, count) = self.ccws[place];
        let anywhere = random.below(count);
        let taken = random.pick(&[0, anywhere, anywhere, count - 1]);
        let turn = counted(&self.ccws[self.back_to..]);
        counted(&self.ccws[..place]) + taken + turns * turn
    }

    fn read(self, restart: usize) -> PartlyRead {
        PartlyRead {
            first: self.ccws[0].0,
            chain: self.chain,
            storage: self.storage,
            restart,
        }
    }
}

/// A code of a data-chained CCW.
fn other_than_tic(random: &mut Random) -> u8 {
    let any = random.byte();
    let any = if any & 0x0F == 0x08 { any ^ 1 } else { any };
    random.pick(&[READ_DATA, SEEK, READ_COUNT, 0x00, any, any])
}
