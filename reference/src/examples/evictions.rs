//! The worked evictions: a vertex under a layout, why it pays its load, and the walk that shows it.

use super::{of_unit_costs, p, q, r};
use crate::eviction::Reason::{self, EveryVisit, FirstLoad, Never};
use crate::problem::*;

/// A vertex of a problem under a layout, with what Eviction says of it.
pub struct WorkedEviction {
    /// What it shows.
    pub what: &'static str,
    /// The problem.
    pub problem: Problem,
    /// The layout, which fits.
    pub layout: Vec<u8>,
    /// The vertex.
    pub vertex: u32,
    /// When its load is charged.
    pub reason: Reason,
    /// The walk that shows it.
    pub walk: Vec<u32>,
}

/// A problem of so many functions and cost 1 everywhere.
fn graph(functions: usize, of_vertices: &[u32], edges: &[(u32, u32)], loops: &[(u32, u32, u32)]) -> Problem {
    of_unit_costs(&vec![1; functions], of_vertices, edges, loops)
}

fn worked(what: &'static str, problem: Problem, layout: &[u8], vertex: u32, reason: Reason, walk: &[u32]) -> WorkedEviction {
    WorkedEviction { what, problem, layout: layout.to_vec(), vertex, reason, walk: walk.to_vec() }
}

/// All vertices of P, which stand in a chain: there is one walk to each.
fn of_p(what: &'static str, layout: [u8; 3], reasons: [Reason; 7]) -> impl Iterator<Item = WorkedEviction> {
    reasons.into_iter().zip(0..).map(move |(reason, vertex)| {
        let walk: Vec<u32> = if reason == Never { vec![] } else { (0..=vertex).collect() };
        worked(what, Problem { scratchpad: 18, ..p() }, &layout, vertex, reason, &walk)
    })
}

/// The walk to its last vertex is the longest that is ever shown: function 1 is visited at the end of a turn of the loop alone, and the loop
/// is left before that.
pub fn longest_shown() -> WorkedEviction {
    let mut functions = [2; MOST_VERTICES];
    (functions[127], functions[126]) = (0, 1);
    let mut edges: Vec<(u32, u32)> = (0..126).map(|from| (from, from + 1)).chain([(125, 127), (126, 0)]).collect();
    edges.sort_unstable();
    let walk: Vec<u32> = (0..=126).chain(0..=125).chain([127]).collect();
    worked("the longest walk", graph(3, &functions, &edges, &[(0, 126, 2)]), &[0, 0, 1], 127, EveryVisit(1), &walk)
}

/// Which function is named, and by which of several walks.
fn of_branches() -> [WorkedEviction; 4] {
    let chain = graph(3, &[0, 1, 2, 0], &[(0, 1), (1, 2), (2, 3)], &[]);
    let detour = graph(2, &[1, 0, 1, 0], &[(0, 1), (1, 2), (1, 3), (2, 3)], &[]);
    let longer_way = graph(4, &[3, 0, 2, 1, 2, 0], &[(0, 1), (0, 2), (1, 3), (2, 4), (3, 4), (4, 5)], &[]);
    let crossing = graph(3, &[0, 1, 1, 2, 2, 0], &[(0, 1), (0, 2), (1, 4), (2, 3), (3, 5), (4, 5)], &[]);
    [
        worked("first the function, then its walk", longer_way, &[0, 0, 0, 1], 5, EveryVisit(1), &[0, 1, 3, 4, 5]),
        worked("the first difference from the start", crossing, &[0, 0, 0], 5, EveryVisit(1), &[0, 1, 4, 5]),
        worked("a function that the region no longer holds", chain, &[0, 0, 0], 3, EveryVisit(1), &[0, 1, 2, 3]),
        worked("a visit since the latest one to the own function", detour, &[0, 0], 3, EveryVisit(1), &[0, 1, 2, 3]),
    ]
}

/// Walks that come back: bounds and ways out play no part.
fn of_loops() -> [WorkedEviction; 5] {
    let around = graph(3, &[2, 0, 1, 2], &[(0, 1), (1, 2), (2, 0), (2, 3)], &[(0, 2, 9)]);
    let header_first = graph(3, &[0, 1, 2], &[(0, 1), (1, 0), (1, 2)], &[(0, 1, 9)]);
    let dead = graph(2, &[0, 0, 1, 0], &[(0, 1), (0, 3), (1, 2), (2, 1)], &[(1, 2, 9)]);
    let once = Problem { loops: vec![Loop { header: 1, last: 2, bound: 1 }], ..r() };
    [
        worked("a walk that passes its vertex before", around, &[0, 0, 1], 1, EveryVisit(1), &[0, 1, 2, 0, 1]),
        worked("vertex 0, contested", header_first.clone(), &[0, 0, 1], 0, EveryVisit(1), &[0, 1, 0]),
        worked("vertex 0, a header and not contested", header_first, &[0, 1, 2], 0, FirstLoad, &[0]),
        worked("a loop without a way out", dead, &[0, 0], 1, EveryVisit(1), &[0, 1, 2, 1]),
        worked("a loop of bound 1", once, &[0, 0], 1, EveryVisit(1), &[0, 1, 2, 1]),
    ]
}

/// The worked evictions of request 5/14 and of its readings.
pub fn evictions() -> Vec<WorkedEviction> {
    let of_q_and_r = [
        worked("Q in one region", q(), &[0, 0], 3, EveryVisit(1), &[0, 1, 3]),
        worked("R in one region", r(), &[0, 0], 1, EveryVisit(1), &[0, 1, 2, 1]),
        worked("the last vertex of R", r(), &[0, 0], 3, Never, &[]),
    ];
    let shared = [FirstLoad, FirstLoad, Never, EveryVisit(1), Never, EveryVisit(2), Never];
    let shared_with_0 = [FirstLoad, EveryVisit(0), EveryVisit(1), FirstLoad, Never, EveryVisit(0), EveryVisit(1)];
    let apart = [FirstLoad, FirstLoad, Never, FirstLoad, Never, Never, Never];
    let all = of_branches().into_iter().chain(of_loops()).chain(of_q_and_r).chain([longest_shown()]);
    let all = all.chain(of_p("P with 0 1 1", [0, 1, 1], shared)).chain(of_p("P with 0 0 1", [0, 0, 1], shared_with_0));
    all.chain(of_p("P with a region for each", [0, 1, 2], apart)).collect()
}
