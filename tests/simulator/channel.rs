//! The channel: CCWs and their fetching, program checks, the data chain of a read, the CSW.

pub const CCW_LENGTH: usize = 8;

/// Where the areas of a restart begin. Chain, arguments and storage begin at 0.
pub const RESTART_PROGRAM: usize = 0x1000;
pub const RESTART_ARGUMENTS: usize = 0x2000;

pub const FLAG_CHAIN_DATA: u8 = 0x80;
pub const FLAG_CHAIN_COMMAND: u8 = 0x40;
pub const FLAG_SUPPRESS_LENGTH: u8 = 0x20;
pub const FLAG_SKIP: u8 = 0x10;
/// Without effect.
pub const FLAG_PCI: u8 = 0x08;
/// The flag bits that are 0 outside TIC.
pub const FLAGS_ZERO: u8 = 0x07;

/// Channel end and device end.
pub const UNIT_END: u8 = 0x0C;
pub const UNIT_CHECK: u8 = 0x02;
pub const UNIT_EXCEPTION: u8 = 0x01;

pub const CHANNEL_INCORRECT_LENGTH: u8 = 0x40;
pub const CHANNEL_PROGRAM_CHECK: u8 = 0x20;

#[derive(Clone, Copy, Debug, PartialEq, Eq)]
pub struct Ccw {
    /// Its own address.
    pub at: usize,
    pub command: u8,
    /// Of the data; in a TIC, of the CCW that it names.
    pub address: usize,
    pub flags: u8,
    pub count: usize,
}

impl Ccw {
    fn decode(at: usize, bytes: &[u8; CCW_LENGTH]) -> Ccw {
        let &[command, a0, a1, a2, flags, _, c0, c1] = bytes;
        Ccw {
            at,
            command,
            address: u32::from_be_bytes([0, a0, a1, a2]) as usize,
            flags,
            count: u16::from_be_bytes([c0, c1]).into(),
        }
    }

    pub fn is_tic(&self) -> bool {
        self.command & 0x0F == 0x08
    }

    pub fn has(&self, flag: u8) -> bool {
        self.flags & flag != 0
    }

    /// The address behind it.
    pub fn behind(&self) -> usize {
        self.at + CCW_LENGTH
    }

    /// What is asked of every CCW but a TIC.
    pub fn checked(self) -> Result<Ccw, ProgramCheck> {
        if self.count == 0 {
            return Err(ProgramCheck::CountZero);
        }
        if self.has(FLAGS_ZERO) {
            return Err(ProgramCheck::LowFlags);
        }
        Ok(self)
    }
}

rules! {
    /// What a program check was found in.
    ProgramCheck {
        PastTheChain,
        NotAMultipleOf8,
        TicFirst,
        TicToTic,
        CountZero,
        LowFlags,
        DataRange,
    }
}

/// A restart program and its arguments.
#[derive(Clone, Copy, Debug)]
pub struct Restart<'a> {
    pub program: &'a [u8],
    pub arguments: &'a [u8],
}

/// The CCWs of a run and what its control and search commands name.
#[derive(Clone, Copy, Debug)]
pub struct Program<'a> {
    pub chain: &'a [u8],
    pub arguments: &'a [u8],
    /// Where the run starts, if there is one.
    pub restart: Option<Restart<'a>>,
}

impl<'a> Program<'a> {
    /// A chain of which no command is carried out.
    pub fn of_chain(chain: &'a [u8]) -> Program<'a> {
        Program {
            chain,
            arguments: &[],
            restart: None,
        }
    }

    fn start(&self) -> usize {
        match self.restart {
            Some(_) => RESTART_PROGRAM,
            None => 0,
        }
    }

    /// The restart where the CCW at this address is one of its own.
    fn restart_of(&self, at: usize) -> Option<&Restart<'a>> {
        self.restart.as_ref().filter(|_| at >= RESTART_PROGRAM)
    }

    /// The CCW at an address that the CCW at `from` leads to. A CCW of the chain leads to no
    /// other area; one of the restart leads to both.
    fn ccw(&self, from: usize, at: usize) -> Result<Ccw, ProgramCheck> {
        let (area, offset) = match self.restart_of(from) {
            Some(restart) if at >= RESTART_PROGRAM => (restart.program, at - RESTART_PROGRAM),
            _ => (self.chain, at),
        };
        if offset % CCW_LENGTH != 0 {
            return Err(ProgramCheck::NotAMultipleOf8);
        }
        let bytes = area.get(offset..).and_then(|rest| rest.first_chunk());
        bytes
            .map(|bytes| Ccw::decode(at, bytes))
            .ok_or(ProgramCheck::PastTheChain)
    }
}

/// What the CSW shows beside an address.
#[derive(Clone, Copy, Debug, PartialEq, Eq)]
pub struct Status {
    pub unit: u8,
    pub channel: u8,
    pub count_left: usize,
}

impl Status {
    pub const PROGRAM_CHECK: Status = Status {
        unit: 0,
        channel: CHANNEL_PROGRAM_CHECK,
        count_left: 0,
    };

    pub fn ended(count_left: usize) -> Status {
        Status {
            unit: UNIT_END,
            channel: 0,
            count_left,
        }
    }
}

/// Bytes of a read that one CCW takes.
#[derive(Clone, Copy, Debug, PartialEq, Eq)]
pub struct Stretch {
    /// Place of the first byte, from the front of the read.
    pub from: usize,
    pub length: usize,
    /// Storage address of the first byte; none where the bytes are skipped.
    pub storage: Option<usize>,
}

impl Stretch {
    /// How many of its bytes stand at `place` of the read or behind it.
    pub fn length_from(&self, place: usize) -> usize {
        let end = self.from + self.length;
        end.saturating_sub(self.from.max(place))
    }
}

/// How a read's data chain ended.
#[derive(Clone, Copy, Debug, PartialEq, Eq)]
pub struct ReadEnd {
    /// The current CCW.
    pub ccw: Ccw,
    pub count_left: usize,
    pub bytes_left_over: usize,
}

impl ReadEnd {
    pub fn is_incorrect_length(&self) -> bool {
        let suppressed = self.ccw.has(FLAG_SUPPRESS_LENGTH) && !self.ccw.has(FLAG_CHAIN_DATA);
        (self.count_left > 0 || self.bytes_left_over > 0) && !suppressed
    }
}

pub struct Channel<'a> {
    program: Program<'a>,
    storage_length: usize,
    /// Address of the last CCW fetched; before the first, where the run starts.
    last: usize,
}

impl<'a> Channel<'a> {
    pub fn new(program: Program<'a>, storage_length: usize) -> Channel<'a> {
        Channel {
            program,
            storage_length,
            last: program.start(),
        }
    }

    pub fn fetch_first(&mut self) -> Result<Ccw, ProgramCheck> {
        let ccw = self.fetch_one(self.last)?;
        if ccw.is_tic() {
            return Err(ProgramCheck::TicFirst);
        }
        ccw.checked()
    }

    /// The CCW at an address, or the one that a TIC there names.
    pub fn fetch(&mut self, at: usize) -> Result<Ccw, ProgramCheck> {
        self.fetch_unchecked(at)?.checked()
    }

    /// The same, whatever its count and flags.
    pub fn fetch_unchecked(&mut self, at: usize) -> Result<Ccw, ProgramCheck> {
        let mut ccw = self.fetch_one(at)?;
        if ccw.is_tic() {
            ccw = self.fetch_one(ccw.address)?;
            if ccw.is_tic() {
                return Err(ProgramCheck::TicToTic);
            }
        }
        Ok(ccw)
    }

    /// The CCW at an address, whatever it is.
    pub fn fetch_one(&mut self, at: usize) -> Result<Ccw, ProgramCheck> {
        let ccw = self.program.ccw(self.last, at)?;
        self.last = at;
        Ok(ccw)
    }

    /// The bytes that the CCW of a control or search command names.
    pub fn argument(&self, ccw: &Ccw) -> Result<&'a [u8], ProgramCheck> {
        let (area, first) = match self.program.restart_of(ccw.at) {
            Some(restart) => (restart.arguments, RESTART_ARGUMENTS),
            None => (self.program.arguments, 0),
        };
        ccw.address
            .checked_sub(first)
            .and_then(|offset| area.get(offset..offset + ccw.count))
            .ok_or(ProgramCheck::DataRange)
    }

    /// Asks for the storage that a CCW of a read names, unless it skips.
    pub fn check_storage(&self, ccw: &Ccw) -> Result<(), ProgramCheck> {
        if ccw.has(FLAG_SKIP) || ccw.address + ccw.count <= self.storage_length {
            Ok(())
        } else {
            Err(ProgramCheck::DataRange)
        }
    }

    /// Hands `length` bytes of a read to the data chain that begins with `ccw`, whose storage has
    /// been asked for. `visit` gets each stretch in order, also those before a program check.
    pub fn walk(
        &mut self,
        mut ccw: Ccw,
        length: usize,
        mut visit: impl FnMut(Stretch),
    ) -> Result<ReadEnd, ProgramCheck> {
        let mut from = 0;
        loop {
            let taken = ccw.count.min(length - from);
            if taken > 0 {
                visit(Stretch {
                    from,
                    length: taken,
                    storage: (!ccw.has(FLAG_SKIP)).then_some(ccw.address),
                });
            }
            from += taken;
            if taken < ccw.count || !ccw.has(FLAG_CHAIN_DATA) {
                return Ok(ReadEnd {
                    ccw,
                    count_left: ccw.count - taken,
                    bytes_left_over: length - from,
                });
            }
            ccw = self.fetch(ccw.behind())?;
            self.check_storage(&ccw)?;
        }
    }

    /// The CSW: 00, address behind the last CCW, unit status, channel status, count left.
    pub fn csw(&self, status: Status) -> [u8; 8] {
        let [_, a0, a1, a2] = ((self.last + CCW_LENGTH) as u32).to_be_bytes();
        let [c0, c1] = (status.count_left as u16).to_be_bytes();
        [0, a0, a1, a2, status.unit, status.channel, c0, c1]
    }
}

#[cfg(test)]
mod tests {
    use super::*;
    use crate::simulator::encode::ccw;

    const CD: u8 = FLAG_CHAIN_DATA;
    const CC: u8 = FLAG_CHAIN_COMMAND;
    const SLI: u8 = FLAG_SUPPRESS_LENGTH;

    /// The CCWs one behind the other.
    fn chain(ccws: &[[u8; CCW_LENGTH]]) -> Vec<u8> {
        ccws.concat()
    }

    /// Address in the CSW.
    fn shown(channel: &Channel) -> usize {
        let csw = channel.csw(Status::ended(0));
        u32::from_be_bytes([0, csw[1], csw[2], csw[3]]) as usize
    }

    fn stretch(from: usize, length: usize, storage: usize) -> Stretch {
        Stretch {
            from,
            length,
            storage: Some(storage),
        }
    }

    /// The stretches of a read of `length` bytes whose first CCW is the chain's, 600 bytes lent.
    fn walked(chain: &[u8], length: usize) -> (Vec<Stretch>, Result<ReadEnd, ProgramCheck>) {
        let mut channel = Channel::new(Program::of_chain(chain), 600);
        let first = channel.fetch_first().unwrap();
        let mut stretches = Vec::new();
        let end = channel.walk(first, length, |stretch| stretches.push(stretch));
        (stretches, end)
    }

    #[test]
    fn ccw_taken_apart() {
        let bytes = [0x1E, 0x12, 0x34, 0x56, 0xA0, 0xFF, 0x01, 0x02];
        let mut channel = Channel::new(Program::of_chain(&bytes), 0);
        let expected = Ccw {
            at: 0,
            command: 0x1E,
            address: 0x12_3456,
            flags: 0xA0,
            count: 0x0102,
        };
        assert_eq!(channel.fetch_first(), Ok(expected));
        assert_eq!(expected.behind(), 8);
        assert!(expected.has(CD) && expected.has(SLI) && !expected.has(CC));
    }

    #[test]
    fn tic_is_any_code_that_ends_in_8() {
        for code in 0..=255 {
            let bytes = ccw(code, 0, 0, 1);
            let mut channel = Channel::new(Program::of_chain(&bytes), 0);
            let is_tic = channel.fetch_first() == Err(ProgramCheck::TicFirst);
            assert_eq!(is_tic, code % 16 == 8);
        }
    }

    #[test]
    fn at_most_one_tic() {
        let bytes = chain(&[
            ccw(0x03, 0, CC, 1),
            ccw(0x08, 0x18, 0, 0),
            ccw(0x08, 0x08, 0, 0),
            ccw(0x03, 0, 0, 2),
        ]);
        let mut channel = Channel::new(Program::of_chain(&bytes), 0);
        assert_eq!(channel.fetch(0x08).map(|ccw| ccw.at), Ok(0x18));
        assert_eq!(shown(&channel), 0x20);
        assert_eq!(channel.fetch(0x10), Err(ProgramCheck::TicToTic));
        assert_eq!(shown(&channel), 0x10);
    }

    #[test]
    fn bad_address_is_not_fetched() {
        let bytes = chain(&[ccw(0x03, 0, CC, 1), ccw(0x08, 0x0C, 0, 0)]);
        let mut channel = Channel::new(Program::of_chain(&bytes), 0);
        assert_eq!(channel.fetch(0x10), Err(ProgramCheck::PastTheChain));
        assert_eq!(channel.fetch(0x04), Err(ProgramCheck::NotAMultipleOf8));
        assert_eq!(shown(&channel), 0x08);
        assert_eq!(channel.fetch(0x08), Err(ProgramCheck::NotAMultipleOf8));
        assert_eq!(shown(&channel), 0x10);
    }

    #[test]
    fn count_and_flags_of_every_ccw_but_a_tic() {
        let bytes = chain(&[
            ccw(0x08, 0x08, FLAGS_ZERO, 0),
            ccw(0x03, 0, 0, 0),
            ccw(0x00, 0, 0x04, 1),
            ccw(0x00, 0, !FLAGS_ZERO, 1),
        ]);
        let mut channel = Channel::new(Program::of_chain(&bytes), 0);
        assert_eq!(channel.fetch(0x00), Err(ProgramCheck::CountZero));
        assert_eq!(channel.fetch(0x10), Err(ProgramCheck::LowFlags));
        assert!(channel.fetch(0x18).is_ok());
    }

    #[test]
    fn restart_leads_to_the_chain_and_not_back() {
        let chain = chain(&[ccw(0x03, 0, CC, 1), ccw(0x08, RESTART_PROGRAM, 0, 0)]);
        let mut restart_program = ccw(0x03, 0, CC, 1).to_vec();
        restart_program.extend(ccw(0x08, 0, 0, 0));
        restart_program.resize(64, 0);
        let restart = Restart {
            program: &restart_program,
            arguments: &[0; 16],
        };
        let program = Program {
            restart: Some(restart),
            ..Program::of_chain(&chain)
        };
        let mut channel = Channel::new(program, 0);
        assert_eq!(channel.fetch_first().map(|ccw| ccw.at), Ok(0x1000));
        assert_eq!(channel.fetch(0x1040), Err(ProgramCheck::PastTheChain));
        assert_eq!(channel.fetch(0x1008).map(|ccw| ccw.at), Ok(0));
        assert_eq!(channel.fetch(0x08), Err(ProgramCheck::PastTheChain));
        assert_eq!(shown(&channel), 0x10);
    }

    #[test]
    fn arguments_of_chain_and_restart() {
        let chain = ccw(0x07, 1, 0, 2);
        let mut restart_program = ccw(0x07, 0x200E, 0, 2).to_vec();
        restart_program.resize(64, 0);
        let mut restart_arguments = [0; 16];
        restart_arguments[14] = 0xEE;
        let restart = Restart {
            program: &restart_program,
            arguments: &restart_arguments,
        };
        let program = Program {
            chain: &chain,
            arguments: &[1, 2, 3],
            restart: Some(restart),
        };
        let mut channel = Channel::new(program, 0);
        let mut own = channel.fetch_first().unwrap();
        assert_eq!(channel.argument(&own), Ok(&[0xEE, 0][..]));
        for address in [0x200F, 0x1FFF, 0, 0xFF_FFFF] {
            own.address = address;
            assert_eq!(channel.argument(&own), Err(ProgramCheck::DataRange));
        }
        let mut users = channel.fetch(0).unwrap();
        assert_eq!(channel.argument(&users), Ok(&[2, 3][..]));
        for address in [2, 0x2000] {
            users.address = address;
            assert_eq!(channel.argument(&users), Err(ProgramCheck::DataRange));
        }
    }

    #[test]
    fn t9_to_t11_stretches() {
        let apart = chain(&[ccw(0x06, 100, CD, 78), ccw(0x06, 500, 0, 2)]);
        let (stretches, end) = walked(&apart, 80);
        assert_eq!(stretches, [stretch(0, 78, 100), stretch(78, 2, 500)]);
        let end = end.unwrap();
        assert_eq!((end.ccw.at, end.count_left, end.bytes_left_over), (8, 0, 0));
        let overlapping = chain(&[ccw(0x06, 100, CD, 4), ccw(0x06, 102, 0, 4)]);
        let (stretches, _) = walked(&overlapping, 8);
        assert_eq!(stretches, [stretch(0, 4, 100), stretch(4, 4, 102)]);
    }

    #[test]
    fn skipped_stretch_has_no_place() {
        let bytes = chain(&[ccw(0x06, 0xFF_FFFF, CD | FLAG_SKIP, 3), ccw(0x06, 0, 0, 1)]);
        let (stretches, end) = walked(&bytes, 4);
        assert_eq!(stretches[0].storage, None);
        assert_eq!(stretches[1], stretch(3, 1, 0));
        assert!(end.is_ok());
    }

    #[test]
    fn exact_fit_under_cd_fetches_one_more() {
        let bytes = chain(&[ccw(0x06, 0, CD, 4), ccw(0x06, 4, 0, 9)]);
        let (stretches, end) = walked(&bytes, 4);
        assert_eq!(stretches, [stretch(0, 4, 0)]);
        let end = end.unwrap();
        assert_eq!((end.ccw.at, end.count_left, end.bytes_left_over), (8, 9, 0));
        assert!(walked(&bytes[..8], 3).1.is_ok());
        assert_eq!(walked(&bytes[..8], 4).1, Err(ProgramCheck::PastTheChain));
    }

    #[test]
    fn program_check_leaves_what_was_moved() {
        let bytes = chain(&[ccw(0x06, 0, CD, 4), ccw(0x06, 597, 0, 4)]);
        let (stretches, end) = walked(&bytes, 8);
        assert_eq!(stretches, [stretch(0, 4, 0)]);
        assert_eq!(end, Err(ProgramCheck::DataRange));
    }

    #[test]
    fn read_without_bytes() {
        let bytes = chain(&[ccw(0x06, 0, CD, 4)]);
        let (stretches, end) = walked(&bytes, 0);
        assert_eq!(stretches, []);
        assert_eq!(end.unwrap().count_left, 4);
    }

    #[test]
    fn incorrect_length() {
        for (flags, count, length, incorrect) in [
            (0, 4, 4, false),
            (0, 4, 3, true),
            (0, 4, 5, true),
            (SLI, 4, 3, false),
            (SLI, 4, 5, false),
            (CD, 4, 3, true),
            (SLI | CD, 4, 3, true),
        ] {
            let bytes = ccw(0x06, 0, flags, count);
            let end = walked(&bytes, length).1.unwrap();
            assert_eq!(end.is_incorrect_length(), incorrect);
        }
    }

    #[test]
    fn bytes_of_a_stretch_from_a_place_on() {
        let bytes = stretch(10, 5, 0);
        for (place, length) in [(0, 5), (10, 5), (12, 3), (15, 0), (20, 0)] {
            assert_eq!(bytes.length_from(place), length);
        }
    }

    #[test]
    fn csw_written() {
        let bytes = chain(&[ccw(0x03, 0, CC, 1); 40]);
        let mut channel = Channel::new(Program::of_chain(&bytes), 0);
        channel.fetch(0x0138).unwrap();
        let status = Status {
            unit: 0x0E,
            channel: 0x40,
            count_left: 0x0203,
        };
        assert_eq!(
            channel.csw(status),
            [0, 0, 0x01, 0x40, 0x0E, 0x40, 0x02, 0x03]
        );
        let check = channel.csw(Status::PROGRAM_CHECK);
        assert_eq!(check, [0, 0, 0x01, 0x40, 0, 0x20, 0, 0]);
    }
}
