//! A drawn program, one graph a function, and its numbers as the library takes them.

use crate::fields::{Edge, Loop, MOST_EDGES, MOST_FUNCTIONS, MOST_LOOPS, MOST_VERTICES};

/// A drawn program, lawful or not: what [`inline`](crate::inline) judges and makes one problem of. It starts at vertex 0 of function 0.
#[derive(Clone, Debug, Default, PartialEq, Eq, Hash)]
pub struct Drawing {
    /// The scratchpad size in bytes, 1 to 16,777,215.
    pub scratchpad: u32,
    /// The functions, 1 to 32.
    pub functions: Vec<DrawnFunction>,
}

/// A function and its graph. Vertices are those of this graph, from 0 on; the highest is the last.
#[derive(Clone, Debug, Default, PartialEq, Eq, Hash)]
pub struct DrawnFunction {
    /// Bytes, 1 to 16,777,215.
    pub size: u32,
    /// The load cost in cycles, 0 to 16,777,215.
    pub load: u32,
    /// The check cost in cycles, 0 to [`MOST_CHECK`](crate::MOST_CHECK).
    pub check: u32,
    /// The vertices, 1 to 128. The last of them calls nothing.
    pub vertices: Vec<DrawnVertex>,
    /// The edges, 0 to 512, strictly ascending by (from, to).
    pub edges: Vec<Edge>,
    /// The loops, 0 to 32, strictly ascending by header.
    pub loops: Vec<Loop>,
}

/// A vertex of a function's graph.
#[derive(Clone, Copy, Debug, Default, PartialEq, Eq, Hash)]
pub struct DrawnVertex {
    /// Index of the function that it calls, if it calls one.
    pub callee: Option<u32>,
    /// Its own cost in cycles, 0 to 16,777,215.
    pub cost: u32,
}

/// What stands for no callee.
const NONE: u32 = 255;

/// The numbers of a graph before its lists: size, load cost and check cost.
const AMOUNTS: usize = 3;

/// The places of a graph: these, and each list behind its count.
const GRAPH: usize = AMOUNTS + (1 + 2 * MOST_VERTICES) + (1 + 2 * MOST_EDGES) + (1 + 3 * MOST_LOOPS);

/// The places of a drawing: scratchpad size, number of functions, and a graph for each that there may be.
pub(crate) const DRAWING: usize = 2 + MOST_FUNCTIONS * GRAPH;

const _: () = assert!(DRAWING == 44_226);

impl Drawing {
    /// Its numbers, every spare place zero. Counts are as they are, also where items beyond the places are left out: such a count is
    /// refused.
    pub(crate) fn numbers(&self) -> Vec<u32> {
        let mut numbers = vec![0; DRAWING];
        numbers[0] = self.scratchpad;
        numbers[1] = count(&self.functions);
        for (places, function) in numbers[2..].chunks_exact_mut(GRAPH).zip(&self.functions) {
            function.fill(places);
        }
        numbers
    }
}

impl DrawnFunction {
    fn fill(&self, graph: &mut [u32]) {
        let (amounts, lists) = graph.split_at_mut(AMOUNTS);
        let (vertices, lists) = lists.split_at_mut(1 + 2 * MOST_VERTICES);
        let (edges, loops) = lists.split_at_mut(1 + 2 * MOST_EDGES);
        amounts.copy_from_slice(&[self.size, self.load, self.check]);
        list(vertices, &self.vertices, |vertex| [vertex.callee_number(), vertex.cost]);
        list(edges, &self.edges, |edge| [edge.from, edge.to]);
        list(loops, &self.loops, |l| [l.header, l.last, l.bound]);
    }
}

impl DrawnVertex {
    /// No drawing has a function 32: that stands for every callee above, so that none is taken for [`NONE`].
    fn callee_number(&self) -> u32 {
        self.callee.map_or(NONE, |callee| callee.min(MOST_FUNCTIONS as u32))
    }
}

/// How many there are.
fn count<T>(items: &[T]) -> u32 {
    u32::try_from(items.len()).unwrap_or(u32::MAX)
}

/// A count and, behind it, the numbers of the items that have places.
fn list<T, const WIDTH: usize>(places: &mut [u32], items: &[T], numbers: impl Fn(&T) -> [u32; WIDTH]) {
    places[0] = count(items);
    for (place, item) in places[1..].chunks_exact_mut(WIDTH).zip(items) {
        place.copy_from_slice(&numbers(item));
    }
}
