//! A problem as a record with a place for every item that there may be.

use std::mem;

/// The most functions in a problem.
pub const MOST_FUNCTIONS: usize = 32;
/// The most vertices in a problem.
pub const MOST_VERTICES: usize = 128;
/// The most edges in a problem.
pub const MOST_EDGES: usize = 512;
/// The most loops in a problem.
pub const MOST_LOOPS: usize = 32;
/// The greatest check cost of a function.
pub const MOST_CHECK: u32 = 65_535;
/// The greatest bound of a loop.
pub const MOST_VISITS: u32 = 4_096;

/// A function.
#[derive(Clone, Copy, Debug, Default, PartialEq, Eq, Hash)]
#[repr(C)]
pub struct Function {
    /// Bytes, 1 to 16,777,215.
    pub size: u32,
    /// The load cost in cycles, 0 to 16,777,215.
    pub load: u32,
    /// The check cost in cycles, 0 to [`MOST_CHECK`]: what looking whether it is loaded takes.
    pub check: u32,
}

/// A vertex.
#[derive(Clone, Copy, Debug, Default, PartialEq, Eq, Hash)]
#[repr(C)]
pub struct Vertex {
    /// Index of the function that its code belongs to.
    pub function: u32,
    /// Its own cost in cycles, 0 to 16,777,215.
    pub cost: u32,
}

/// An edge.
#[derive(Clone, Copy, Debug, Default, PartialEq, Eq, PartialOrd, Ord, Hash)]
#[repr(C)]
pub struct Edge {
    /// The vertex where it starts.
    pub from: u32,
    /// The vertex where it ends.
    pub to: u32,
}

/// A loop. Its range is `header` to `last`, both counted.
#[derive(Clone, Copy, Debug, Default, PartialEq, Eq, Hash)]
#[repr(C)]
pub struct Loop {
    /// The lowest vertex of the range.
    pub header: u32,
    /// The highest vertex of the range.
    pub last: u32,
    /// The most visits to the header in one stay, 1 to [`MOST_VISITS`].
    pub bound: u32,
}

/// A problem, lawful or not: what [`write_fields`](crate::write_fields) judges and writes.
///
/// Each number has 32 bits, the most that a number of the file may have: inside the library a record's numbers have 64 bits, and a
/// record with a larger number cannot be given here. Only as many items of each list count as its number says. The places behind
/// them are spare: they may have any value and are no part of the problem.
///
/// It is handed over as its 1,477 numbers. There were 1,445 before functions had check costs: a library from then takes no such record, nor
/// does this one take a record from then.
#[derive(Clone, Debug, PartialEq, Eq, Hash)]
#[repr(C)]
pub struct Fields {
    /// The scratchpad size in bytes, 1 to 16,777,215.
    pub scratchpad: u32,
    /// The number of functions, 1 to 32.
    pub function_count: u32,
    /// The functions.
    pub functions: [Function; MOST_FUNCTIONS],
    /// The number of vertices, 1 to 128.
    pub vertex_count: u32,
    /// The vertices. Vertex 0 is first, the highest is last.
    pub vertices: [Vertex; MOST_VERTICES],
    /// The number of edges, 0 to 512.
    pub edge_count: u32,
    /// The edges, strictly ascending by (from, to).
    pub edges: [Edge; MOST_EDGES],
    /// The number of loops, 0 to 32.
    pub loop_count: u32,
    /// The loops, strictly ascending by header.
    pub loops: [Loop; MOST_LOOPS],
}

/// The numbers of an item.
const fn numbers<T>() -> usize {
    mem::size_of::<T>() / mem::size_of::<u32>()
}

/// The places of a record: the scratchpad size, and each list behind its count.
pub(crate) const PLACES: usize = 1
    + (1 + numbers::<Function>() * MOST_FUNCTIONS)
    + (1 + numbers::<Vertex>() * MOST_VERTICES)
    + (1 + numbers::<Edge>() * MOST_EDGES)
    + (1 + numbers::<Loop>() * MOST_LOOPS);

// `Fields` is handed over as so many numbers, those that the library takes.
const _: () = assert!(PLACES == 1_477);
const _: () = assert!(mem::size_of::<Fields>() == PLACES * mem::size_of::<u32>());
const _: () = assert!(mem::align_of::<Fields>() == mem::align_of::<u32>());

impl Default for Fields {
    /// All places zero, which is no lawful problem.
    fn default() -> Fields {
        Fields {
            scratchpad: 0,
            function_count: 0,
            functions: [Function::default(); MOST_FUNCTIONS],
            vertex_count: 0,
            vertices: [Vertex::default(); MOST_VERTICES],
            edge_count: 0,
            edges: [Edge::default(); MOST_EDGES],
            loop_count: 0,
            loops: [Loop::default(); MOST_LOOPS],
        }
    }
}

impl Fields {
    /// A record of these items, every spare place zero; nothing if there are more items than places.
    pub fn new(scratchpad: u32, functions: &[Function], vertices: &[Vertex], edges: &[Edge], loops: &[Loop]) -> Option<Fields> {
        let mut fields = Fields { scratchpad, ..Fields::default() };
        fields.function_count = fill(&mut fields.functions, functions)?;
        fields.vertex_count = fill(&mut fields.vertices, vertices)?;
        fields.edge_count = fill(&mut fields.edges, edges)?;
        fields.loop_count = fill(&mut fields.loops, loops)?;
        Some(fields)
    }
}

fn fill<T: Copy>(places: &mut [T], items: &[T]) -> Option<u32> {
    places.get_mut(..items.len())?.copy_from_slice(items);
    Some(items.len() as u32)
}
