//! How much a search may do.

/// How much a search for better sequences may do. The default is that of the program.
#[derive(Clone, Copy, Debug, PartialEq, Eq, Hash)]
pub struct Effort {
    /// The greatest width of a beam search, 0 to 65,536; with 0 there is none.
    pub width: u32,
    /// The most rounds of each of two runs of iterated greedy search, 0 to 100,000,000.
    pub rounds: u32,
    /// The seed of the random numbers of each run, 1 to 2,147,483,646.
    pub seed: u32,
    /// About how many steps there may be in all, in millions, 0 to 1,000,000.
    pub work: u32,
}

impl Default for Effort {
    fn default() -> Effort {
        Effort { width: 4096, rounds: 10_000, seed: 1, work: 8500 }
    }
}

/// The options of a search for a certificate with trees. The default is that of the program.
#[derive(Clone, Copy, Debug, PartialEq, Eq, Hash)]
pub struct Plan {
    /// There is a tree for each list of so many jobs, 0 to 3.
    pub depth: u32,
    /// How many bytes each tree may have, 1 to 100,000,000.
    pub budget: u32,
    /// The version of the certificate, 1 or 2, which says by which bound the search prunes: 2 gives shorter trees, and
    /// takes longer for each byte.
    pub version: u32,
}

impl Default for Plan {
    fn default() -> Plan {
        Plan { depth: 1, budget: 1_000_000, version: 1 }
    }
}

/// The options of a beam search.
#[derive(Clone, Copy, Debug, PartialEq, Eq, Hash)]
pub struct Beam {
    /// A sequence below this number ends the search; with 0 it is aimed at no number.
    pub number: u64,
    /// The greatest width, 0 to 65,536; with 0 there is no pass.
    pub width: u32,
    /// The most steps of all passes. A step is about the work for one job on one machine.
    pub steps: u64,
}

/// The options of rounds of iterated greedy search.
#[derive(Clone, Copy, Debug, PartialEq, Eq, Hash)]
pub struct Rounds {
    /// The most rounds, 0 to 100,000,000.
    pub rounds: u32,
    /// The seed of the random numbers, 1 to 2,147,483,646.
    pub seed: u32,
    /// The round that reaches so many steps is the last.
    pub steps: u64,
}
