//! The limits of 01 and of (vi) in 02, each as (least, most), both included.

pub type Limit = (u16, u16);

/// The limits that (vi) moved.
#[derive(Clone, Copy, Debug, PartialEq, Eq)]
pub struct Limits {
    pub rows: Limit,
    pub states: Limit,
    /// Most counters of a derived system.
    pub counters: usize,
}

/// Those of 01. They are kept to show that longer programs change no other message's verdict.
pub const FORMER: Limits = Limits { rows: (1, 1024), states: (0, 512), counters: 512 };
/// Those in force.
pub const PRESENT: Limits = Limits { rows: (1, 1536), states: (0, 1024), counters: 1024 };

pub const ROWS: Limit = PRESENT.rows;
pub const NAMES: Limit = (1, 512);
pub const CONSTRUCTORS: Limit = (0, 64);
pub const FUNCTIONS: Limit = (0, 64);
pub const BADS: Limit = (1, 16);
pub const BAD_ROWS: Limit = (4, 256);
pub const FLOW: Limit = (0, 4096);
pub const MAIL: Limit = (0, 512);
pub const STATES: Limit = PRESENT.states;
pub const BOUNDS: Limit = (0, 256);
pub const BOUND_ENTRIES: Limit = (0, 8192);
/// Lines of weights and their entries, and a weight.
pub const LINES: Limit = (1, 16);
pub const WEIGHT_ENTRIES: Limit = (0, 8192);
pub const WEIGHT: Limit = (1, 1000);
pub const BRANCHES: Limit = (1, 16);

/// Most counters of a derived system.
pub const COUNTERS: usize = PRESENT.counters;
/// Most arguments of a constructor, parameters of a function, arguments of a call.
pub const ARITY: usize = 8;
/// Deepest level of a pattern; the top pattern stands at level 1.
pub const DEPTH: usize = 4;
/// The limit in a bound (01: ceiling) that means "any number".
pub const UNBOUNDED: u16 = 65_535;
/// Words that the program lends by default.
pub const LENT: usize = 16_384;
/// More words than the largest system here needs.
pub const PLENTY: usize = 1 << 21;
/// Bytes of the longest legal message: four parts at their largest, the ceilings' sizes 0, and weights at their largest.
pub const LONGEST: usize = 2
    * (4 + 2 * most(ROWS)
        + 2
        + 2 * most(BAD_ROWS)
        + 3
        + 2 * (most(FLOW) + most(MAIL) + most(STATES))
        + most(STATES)
        + 2
        + 2
        + 2 * most(WEIGHT_ENTRIES));

const fn most(limit: Limit) -> usize {
    limit.1 as usize
}
