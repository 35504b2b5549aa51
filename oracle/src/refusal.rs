//! What a refused message is answered: a number, a position and, for people, what was found.

use crate::program::State;

/// One wish of the closed tables that an entry should fulfil.
#[derive(Clone, Copy, Debug, PartialEq, Eq)]
pub enum Want {
    Flow { name: usize, value: usize },
    Mail { class: usize, value: usize },
    State(State),
}

/// What `explain` tells beyond number and position.
#[derive(Clone, Debug, PartialEq, Eq)]
pub enum Detail {
    Nothing,
    Wanted(&'static str),
    Lacks(Want),
    /// The class and the function of a mail entry.
    Mailed {
        class: usize,
        function: usize,
    },
    Counted(usize),
    Met {
        bad: usize,
        bound: usize,
    },
    Leak {
        bound: usize,
        rule: usize,
    },
    /// A rule that raises a line's sum.
    Rise {
        line: usize,
        rule: usize,
    },
    /// A bad that no line weighs above the start.
    Light {
        bad: usize,
    },
}

#[derive(Clone, Debug, PartialEq, Eq)]
pub struct Refusal {
    pub number: u32,
    /// The word of the message that 01 names (its "place"); for 14 the words needed.
    pub position: usize,
    pub detail: Detail,
}

impl Refusal {
    pub fn new(number: u32, position: usize, detail: Detail) -> Refusal {
        Refusal { number, position, detail }
    }

    pub fn wanted(number: u32, position: usize, what: &'static str) -> Refusal {
        Refusal::new(number, position, Detail::Wanted(what))
    }
}

pub const LENGTH: u32 = 1;
pub const SIZE: u32 = 2;
pub const ROW: u32 = 3;
pub const NAME: u32 = 4;
pub const SCOPE: u32 = 5;
pub const BAD: u32 = 6;
pub const ENTRY: u32 = 7;
pub const OPEN: u32 = 8;
pub const COUNTERS: u32 = 9;
pub const BOUND: u32 = 10;
pub const START: u32 = 11;
pub const MET: u32 = 12;
pub const LEAK: u32 = 13;
pub const SPACE: u32 = 14;
/// Of (v) in 02; they stand in place of 10 to 13.
pub const WEIGHTS: u32 = 16;
pub const RISE: u32 = 17;
pub const LIGHT: u32 = 18;
/// Of (x) in 02; checked between 8 and 9.
pub const FUNCTION_MAILED: u32 = 22;

/// Every verdict, in the order of the checks but for 0, which comes first.
pub const VERDICTS: [u32; 19] =
    [0, 1, 2, 3, 4, 5, 6, 7, 8, FUNCTION_MAILED, 9, 10, 11, 12, 13, WEIGHTS, RISE, LIGHT, SPACE];

/// Place of a verdict in that list.
pub fn verdict_index(number: u32) -> Option<usize> {
    VERDICTS.iter().position(|&verdict| verdict == number)
}
