//! Why a vertex pays its load.

/// No walk that [`eviction`](crate::eviction) writes has more entries: a buffer of so many is never too short.
pub const MOST_SHOWN: usize = 256;

/// Why a vertex pays its load under a layout, with the length of the walk that shows it.
#[derive(Clone, Copy, Debug, PartialEq, Eq, Hash)]
pub struct Eviction {
    /// When the load is charged.
    pub reason: Reason,
    /// The entries written: those of the walk, none for [`Reason::Never`].
    pub count: usize,
}

/// When the load of a vertex is charged. It displays as its [sentence](crate::word), and is parsed from it; one that has none, since its
/// function is above 31, displays in its `Debug` form.
#[derive(Clone, Copy, Debug, PartialEq, Eq, Hash)]
pub enum Reason {
    /// 1: on every visit, since the vertex is contested. The walk arrives having visited another function of the same region after its
    /// latest visit to the vertex's own, or at all if there was none.
    EveryVisit {
        /// The lowest function that can do so.
        function: u8,
    },
    /// 2: as a first load only. The walk arrives with no earlier visit to the vertex's own function.
    FirstLoad,
    /// 3: never: every walk that arrives has visited the vertex's own function before.
    Never,
}

impl Eviction {
    /// What an answer tells: the entries written, the reason's number, and for the first reason the function.
    pub(crate) fn told([count, reason, function, _]: [u64; 4]) -> Eviction {
        Eviction { reason: Reason::told(reason, function), count: count as usize }
    }
}

impl Reason {
    /// The reason with a number, and the function for the first.
    pub(crate) fn told(number: u64, function: u64) -> Reason {
        match number {
            1 => Reason::EveryVisit { function: function as u8 },
            2 => Reason::FirstLoad,
            3 => Reason::Never,
            _ => unreachable!("the library's reasons have the numbers 1 to 3"),
        }
    }

    /// Its number and its function, which is 0 where there is none.
    pub(crate) fn numbers(self) -> (u32, u64) {
        match self {
            Reason::EveryVisit { function } => (1, u64::from(function)),
            Reason::FirstLoad => (2, 0),
            Reason::Never => (3, 0),
        }
    }
}
