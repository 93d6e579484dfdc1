//! Refusals.

use std::error::Error;

/// Why an operation refused. The numbers are those of documents 01 and 02. Of a drawn graph, [`OutOfRange`](RefusalKind::OutOfRange),
/// [`NotAscending`](RefusalKind::NotAscending) and [`MissingEdge`](RefusalKind::MissingEdge) to [`NoEdgeBack`](RefusalKind::NoEdgeBack)
/// have the function as place.
#[derive(Clone, Copy, Debug, PartialEq, Eq, PartialOrd, Ord, Hash)]
#[repr(u32)]
pub enum RefusalKind {
    /// 1: the bytes end before a number does. The place is the file's length.
    EndsEarly = 1,
    /// 2: a misspelt number: a fifth byte above 0F. The place is its first byte.
    Misspelt = 2,
    /// 3: a number out of range. The place is its first byte.
    OutOfRange = 3,
    /// 4: edges do not ascend strictly by (from, to), or loops by header. The place is the item's first byte.
    NotAscending = 4,
    /// 5: bytes are left over after the last loop. The place is the first of them.
    LeftOver = 5,
    /// 6: a vertex lacks an edge that it must have. The place is the lowest such vertex.
    MissingEdge = 6,
    /// 7: a loop crosses an earlier one or holds the last vertex. The place is the lowest such loop.
    WrongLoop = 7,
    /// 8: a wrong edge: into a range beside its header, or back to no header around its start. The place is the lowest such edge.
    WrongEdge = 8,
    /// 9: a loop has no edge back to its header. The place is the lowest such loop.
    NoEdgeBack = 9,
    /// 10: a buffer is too short. The place is the number of bytes, words or entries needed.
    BufferTooShort = 10,
    /// 11: the layout is longer than the list of functions. The place is their number.
    LayoutTooLong = 11,
    /// 12: a region above 31. The place is the lowest such function.
    UnknownRegion = 12,
    /// 13: the layout needs more than the scratchpad. The place is the number of bytes needed.
    ScratchpadTooSmall = 13,
    /// 14: the bound passes 1,000,000,000,000,000,000 cycles, so both totals do. The place is 0.
    BoundTooLarge = 14,
    /// 15: not vertex 0 at position 0, no edge from the entry before, an unknown vertex, or the end is not the last vertex (then the
    /// place is the walk's length). The place is the first bad position.
    WrongStep = 15,
    /// 16: a stay visits a loop's header more often than its bound. The place is the first bad position.
    BeyondBound = 16,
    /// 17: the walk has over 1,000,000 entries. The place is 1,000,000.
    WalkTooLong = 17,
    /// 18: a function can reach itself by calls. The place is the lowest such function.
    Recursive = 18,
    /// 19: the one problem of a drawing would have more than 128 vertices, 512 edges or 32 loops. The place is 0.
    CountPassed = 19,
    /// 20: the last vertex of a drawn graph calls a function. The place is the lowest such function.
    LastCalls = 20,
    /// 21: the vertex asked for is unknown: not below the number of vertices. The place is its number.
    UnknownVertex = 21,
    /// 22: the text is no sentence of a refusal or a reason. The place is the first byte that does not fit, or the length where all of it
    /// fits.
    NoSentence = 22,
}

impl RefusalKind {
    /// All kinds, by ascending number.
    pub const ALL: [RefusalKind; 22] = {
        use RefusalKind::*;
        [
            EndsEarly,
            Misspelt,
            OutOfRange,
            NotAscending,
            LeftOver,
            MissingEdge,
            WrongLoop,
            WrongEdge,
            NoEdgeBack,
            BufferTooShort,
            LayoutTooLong,
            UnknownRegion,
            ScratchpadTooSmall,
            BoundTooLarge,
            WrongStep,
            BeyondBound,
            WalkTooLong,
            Recursive,
            CountPassed,
            LastCalls,
            UnknownVertex,
            NoSentence,
        ]
    };

    /// The number of this kind, 1 to 22.
    pub const fn number(self) -> u32 {
        self as u32
    }

    /// The kind that has a number, if any has.
    pub fn from_number(number: u32) -> Option<RefusalKind> {
        RefusalKind::ALL.get((number as usize).checked_sub(1)?).copied()
    }
}

/// A refusal: why, and where. It displays as its [sentence](crate::word), and is parsed from it.
#[derive(Clone, Copy, Debug, PartialEq, Eq, Hash)]
pub struct Refusal {
    /// Which of the refusals it is.
    pub number: RefusalKind,
    /// What it counts depends on the kind: see [`RefusalKind`].
    pub place: u64,
}

impl Error for Refusal {}
