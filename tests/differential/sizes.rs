//! Sizes of the lent areas, most of them at an edge.

use crate::random::Random;
use crate::simulator::areas::RunSizes;

/// Sizes at an edge and past it.
struct Edges {
    allowed: &'static [usize],
    refused: &'static [usize],
}

impl Edges {
    fn allowed(&self, random: &mut Random) -> usize {
        random.pick(self.allowed)
    }

    fn any(&self, random: &mut Random) -> usize {
        let at = random.below(self.allowed.len() + self.refused.len());
        *self
            .allowed
            .iter()
            .chain(self.refused)
            .nth(at)
            .expect("in one of both")
    }
}

/// What is added to this comes out small where a size is cut to 32 bits.
const FAR: usize = 1 << 32;

const CHAIN: Edges = Edges {
    allowed: &[8, 16, 40, 1_024, 2_040, 2_048],
    refused: &[0, 4, 7, 9, 12, 2_044, 2_049, 2_056, FAR + 8, usize::MAX],
};
const ARGUMENTS: Edges = Edges {
    allowed: &[0, 1, 11, 4_095, 4_096],
    refused: &[4_097, 65_536, FAR, usize::MAX],
};
const STORAGE: Edges = Edges {
    allowed: &[0, 1, 4_096, 65_535, 65_536],
    refused: &[65_537, 131_072, FAR, usize::MAX],
};
const IMAGE: Edges = Edges {
    allowed: &[0, 57, 65_537, 1_048_575, 1_048_576],
    refused: &[1_048_577, 2_097_152, FAR, usize::MAX],
};
const LIMIT: Edges = Edges {
    allowed: &[1, 2, 4_095, 4_096],
    refused: &[0, 4_097, 8_192, FAR + 1, usize::MAX],
};
const RESTART_PROGRAM: Edges = Edges {
    allowed: &[64],
    refused: &[0, 16, 56, 63, 65, 72, FAR + 64, usize::MAX],
};
const RESTART_ARGUMENTS: Edges = Edges {
    allowed: &[16],
    refused: &[0, 8, 15, 17, 64, FAR + 16, usize::MAX],
};

/// Sizes for a run, of which the named one, or each, may be refused.
pub fn run_sizes(random: &mut Random, turn: usize) -> (&'static str, RunSizes) {
    const NAMES: [&str; 7] = [
        "chain",
        "arguments",
        "storage",
        "image",
        "fault list",
        "limit",
        "several",
    ];
    const EDGES: [Edges; 6] = [CHAIN, ARGUMENTS, STORAGE, IMAGE, STORAGE, LIMIT];
    let turn = turn % NAMES.len();
    let mut sizes = [0; 6];
    for (at, edges) in EDGES.iter().enumerate() {
        let may_be_refused = at == turn || (turn == 6 && random.once_in(3));
        sizes[at] = if may_be_refused {
            edges.any(random)
        } else {
            edges.allowed(random)
        };
    }
    let [chain, arguments, storage, image, faults, limit] = sizes;
    let sizes = RunSizes {
        chain,
        arguments,
        storage,
        image,
        faults,
        limit,
    };
    (NAMES[turn], sizes)
}

/// Sizes of the restart program and the restart arguments.
pub fn restart_sizes(random: &mut Random) -> [usize; 2] {
    [RESTART_PROGRAM, RESTART_ARGUMENTS].map(|edges| {
        if random.once_in(2) {
            edges.allowed(random)
        } else {
            edges.any(random)
        }
    })
}
