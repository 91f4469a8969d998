//! Question 1: the sizes of the lent areas, and the chain's command limit.

use super::Refusal;

rules! {
    Area {
        Chain,
        Arguments,
        Storage,
        FaultList,
        Image,
        RestartProgram,
        RestartArguments,
        Extent,
        CommandLimit,
    }
}

impl Area {
    /// Whether the area may have this many bytes; of the limit, this many commands.
    pub fn allows(self, size: usize) -> bool {
        match self {
            Area::Chain => (8..=2_048).contains(&size) && size % 8 == 0,
            Area::Arguments => size <= 4_096,
            Area::Storage | Area::FaultList => size <= 65_536,
            Area::Image => size <= 1_048_576,
            Area::RestartProgram => size == 64,
            Area::RestartArguments => size == 16,
            Area::Extent => size == 8,
            Area::CommandLimit => (1..=4_096).contains(&size),
        }
    }

    pub fn check(self, size: usize) -> Result<(), Refusal> {
        if self.allows(size) {
            Ok(())
        } else {
            Err(Refusal::Areas(self))
        }
    }
}

/// What is lent to a run: sizes in bytes, and the command limit.
#[derive(Clone, Copy, Debug)]
pub struct RunSizes {
    pub chain: usize,
    pub arguments: usize,
    pub storage: usize,
    pub image: usize,
    pub faults: usize,
    pub limit: usize,
}

pub fn check_run(sizes: RunSizes) -> Result<(), Refusal> {
    Area::Chain.check(sizes.chain)?;
    Area::Arguments.check(sizes.arguments)?;
    Area::Storage.check(sizes.storage)?;
    Area::Image.check(sizes.image)?;
    Area::FaultList.check(sizes.faults)?;
    Area::CommandLimit.check(sizes.limit)
}

pub fn check_restart(program: usize, arguments: usize) -> Result<(), Refusal> {
    Area::RestartProgram.check(program)?;
    Area::RestartArguments.check(arguments)
}

/// What is lent to a recovery, in bytes. The report may have any length.
#[derive(Clone, Copy, Debug)]
pub struct RecoverySizes {
    pub chain: usize,
    pub extent: usize,
    pub storage: usize,
    pub program: usize,
    pub restart_arguments: usize,
}

pub fn check_recovery(sizes: RecoverySizes) -> Result<(), Refusal> {
    Area::Chain.check(sizes.chain)?;
    Area::Extent.check(sizes.extent)?;
    Area::Storage.check(sizes.storage)?;
    check_restart(sizes.program, sizes.restart_arguments)
}

#[cfg(test)]
mod tests {
    use super::*;
    use crate::simulator::answer;

    /// Document 01's program with its sample: five CCWs, two arguments, one fault.
    const SAMPLE: RunSizes = RunSizes {
        chain: 40,
        arguments: 11,
        storage: 4_096,
        image: 57,
        faults: 13,
        limit: 4_096,
    };

    #[test]
    fn sizes_at_each_edge() {
        let edges: [(Area, &[usize], &[usize]); 9] = [
            (Area::Chain, &[8, 16, 2_048], &[0, 7, 9, 12, 2_049, 2_056]),
            (Area::Arguments, &[0, 1, 4_096], &[4_097]),
            (Area::Storage, &[0, 65_536], &[65_537]),
            (Area::FaultList, &[0, 65_536], &[65_537]),
            (Area::Image, &[0, 1_048_576], &[1_048_577]),
            (Area::RestartProgram, &[64], &[0, 63, 65]),
            (Area::RestartArguments, &[16], &[0, 15, 17]),
            (Area::Extent, &[8], &[0, 7, 9]),
            (Area::CommandLimit, &[1, 4_096], &[0, 4_097]),
        ];
        for (area, allowed, refused) in edges {
            for &size in allowed {
                assert_eq!(area.check(size), Ok(()));
            }
            for &size in refused {
                assert_eq!(area.check(size), Err(Refusal::Areas(area)));
            }
        }
    }

    #[test]
    fn run_asks_for_each_of_its_areas() {
        assert_eq!(answer(&check_run(SAMPLE)), 0);
        let breaches: [fn(&mut RunSizes); 6] = [
            |sizes| sizes.chain = 41,
            |sizes| sizes.arguments = 4_097,
            |sizes| sizes.storage = 65_537,
            |sizes| sizes.image = 1_048_577,
            |sizes| sizes.faults = 65_537,
            |sizes| sizes.limit = 0,
        ];
        for breach in breaches {
            let mut sizes = SAMPLE;
            breach(&mut sizes);
            assert_eq!(answer(&check_run(sizes)), 1);
        }
    }

    #[test]
    fn restart_areas_have_one_size_each() {
        assert_eq!(answer(&check_restart(64, 16)), 0);
        assert_eq!(answer(&check_restart(16, 64)), 1);
        assert_eq!(answer(&check_restart(64, 15)), 1);
        assert_eq!(answer(&check_restart(65, 16)), 1);
    }

    #[test]
    fn recovery_asks_for_each_of_its_areas() {
        let good = RecoverySizes {
            chain: 40,
            extent: 8,
            storage: 0,
            program: 64,
            restart_arguments: 16,
        };
        assert_eq!(answer(&check_recovery(good)), 0);
        let breaches: [fn(&mut RecoverySizes); 5] = [
            |sizes| sizes.chain = 0,
            |sizes| sizes.extent = 9,
            |sizes| sizes.storage = 65_537,
            |sizes| sizes.program = 72,
            |sizes| sizes.restart_arguments = 0,
        ];
        for breach in breaches {
            let mut sizes = good;
            breach(&mut sizes);
            assert_eq!(answer(&check_recovery(sizes)), 1);
        }
    }
}
