//! The rules of the graph: refusals 6 to 9, a whole rule at a time.

use crate::problem::*;

/// Judges the graph of a problem whose fields are in range and whose items ascend.
pub fn check(problem: &Problem) -> Result<(), Refusal> {
    let first_that = |count: usize, number: u8, wrong: &dyn Fn(usize) -> bool| match (0..count).find(|&item| wrong(item)) {
        Some(item) => Err(Refusal::at(number, item)),
        None => Ok(()),
    };
    first_that(problem.vertices.len(), 6, &|vertex| lacks_an_edge(problem, vertex as u32))?;
    first_that(problem.loops.len(), 7, &|index| crosses_or_holds_the_last(problem, index))?;
    first_that(problem.edges.len(), 8, &|index| is_wrong(problem, problem.edges[index]))?;
    first_that(problem.loops.len(), 9, &|index| has_no_edge_back(problem, problem.loops[index]))
}

/// Every vertex but 0 has an edge from a lower vertex; every vertex but the last has an edge out.
fn lacks_an_edge(problem: &Problem, vertex: u32) -> bool {
    let edge_from_below = || problem.edges.iter().any(|e| e.to == vertex && e.from < vertex);
    let edge_out = || problem.edges.iter().any(|e| e.from == vertex);
    (vertex != 0 && !edge_from_below()) || (vertex != problem.last_vertex() && !edge_out())
}

/// Two ranges are nested or disjoint, and none holds the last vertex.
fn crosses_or_holds_the_last(problem: &Problem, index: usize) -> bool {
    let range = |l: &Loop| (l.header..=l.last).collect::<Vec<_>>();
    let this = &problem.loops[index];
    let crosses = problem.loops[..index].iter().any(|earlier| {
        let shared = range(this).iter().filter(|&&v| earlier.holds(v)).count();
        let nested = shared == range(this).len() || shared == range(earlier).len();
        let disjoint = shared == 0;
        !nested && !disjoint
    });
    crosses || this.holds(problem.last_vertex())
}

/// An edge into a range from outside goes to its header. An edge whose end is not above its start goes to the header of a loop
/// that holds its start.
fn is_wrong(problem: &Problem, edge: Edge) -> bool {
    let enters_beside_a_header = problem.loops.iter().any(|l| l.holds(edge.to) && !l.holds(edge.from) && edge.to != l.header);
    let returns = edge.to <= edge.from;
    let to_a_header_around = problem.loops.iter().any(|l| l.header == edge.to && l.holds(edge.from));
    enters_beside_a_header || (returns && !to_a_header_around)
}

/// Every loop has an edge from inside its range to its header.
fn has_no_edge_back(problem: &Problem, this: Loop) -> bool {
    !problem.edges.iter().any(|e| e.to == this.header && this.holds(e.from))
}
