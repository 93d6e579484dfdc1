//! The charges of a walk, and the two totals that the bound is the smaller of.

use std::collections::{BTreeSet, HashSet};

use crate::longest::{by_contraction, Charges};
use crate::problem::*;

/// Whether each vertex is entered: whether it is vertex 0, or some edge leads to it from a vertex of another function, be it one that no lawful
/// walk can follow. Each vertex looks at all edges.
pub fn entered(problem: &Problem) -> Vec<bool> {
    let enters = |edge: &Edge, vertex: u32| edge.to == vertex && problem.function_of(edge.from) != problem.function_of(vertex);
    (0..=problem.last_vertex()).map(|vertex| vertex == 0 || problem.edges.iter().any(|edge| enters(edge, vertex))).collect()
}

/// The visit charge of each vertex: its own cost, plus its function's load cost if it is contested, plus its function's check cost if it is
/// entered.
pub fn visit_charges(problem: &Problem, contested: &[bool]) -> Vec<u64> {
    let charge = |((vertex, &contested), entered): ((&Vertex, &bool), bool)| {
        let Function { load, check, .. } = problem.functions[vertex.function as usize];
        let paid = |cost: u32, if_so: bool| if if_so { u64::from(cost) } else { 0 };
        u64::from(vertex.cost) + paid(load, contested) + paid(check, entered)
    };
    problem.vertices.iter().zip(contested).zip(entered(problem)).map(charge).collect()
}

/// Whether each vertex is early: whether it is uncontested, and some walk reaches it with no earlier vertex of its function.
pub fn early(problem: &Problem, contested: &[bool]) -> Vec<bool> {
    let successors = problem.successors();
    let mut early = vec![false; problem.vertices.len()];
    for function in 0..problem.functions.len() as u32 {
        for vertex in reached_first(problem, &successors, function) {
            early[vertex as usize] = !contested[vertex as usize];
        }
    }
    early
}

/// The vertices of a function that walks reach with no earlier vertex of it: a search that goes no further than these.
fn reached_first(problem: &Problem, successors: &[Vec<u32>], function: u32) -> Vec<u32> {
    let mut seen = vec![false; problem.vertices.len()];
    let mut open = vec![0u32];
    let mut first = Vec::new();
    while let Some(vertex) = open.pop() {
        if std::mem::replace(&mut seen[vertex as usize], true) {
            continue;
        }
        if problem.function_of(vertex) == function {
            first.push(vertex);
        } else {
            open.extend(&successors[vertex as usize]);
        }
    }
    first
}

/// As [`early`], by every pair (vertex arrived at, functions visited before) that a walk can produce. There may be very many pairs: for
/// small problems.
pub fn early_by_states(problem: &Problem, contested: &[bool]) -> Vec<bool> {
    let successors = problem.successors();
    let mut early = vec![false; problem.vertices.len()];
    let start = (0, 0u32);
    let mut seen = HashSet::from([start]);
    let mut open = vec![start];
    while let Some((vertex, before)) = open.pop() {
        let function = 1 << problem.function_of(vertex);
        early[vertex as usize] |= before & function == 0 && !contested[vertex as usize];
        let states = successors[vertex as usize].iter().map(|&next| (next, before | function));
        open.extend(states.filter(|&state| seen.insert(state)));
    }
    early
}

/// The load cost of each cold function once: of each that has an early vertex.
pub fn first_loads(problem: &Problem, early: &[bool]) -> u64 {
    loads_of_early(problem, early, 0, problem.last_vertex())
}

/// The load cost of each function, once each, that has an early vertex from `first` to `last`, both counted.
fn loads_of_early(problem: &Problem, early: &[bool], first: u32, last: u32) -> u64 {
    let functions: BTreeSet<u32> = (first..=last).filter(|&v| early[v as usize]).map(|v| problem.function_of(v)).collect();
    functions.into_iter().map(|function| u64::from(problem.functions[function as usize].load)).sum()
}

/// Whether no loop that begins before it holds the loop's header.
pub fn is_outermost(problem: &Problem, l: &Loop) -> bool {
    !problem.loops.iter().any(|outer| outer.header < l.header && outer.holds(l.header))
}

/// What a walk is charged in document 01's total, the first loads aside: the visit charges.
pub fn first_charges(problem: &Problem, contested: &[bool]) -> Charges {
    Charges::at_visits(problem, visit_charges(problem, contested))
}

/// What a walk is charged in the second total: at each visit the visit charge, and the load cost too if the vertex is early and no loop
/// holds it; at each entry of an outermost loop the load cost of each function, once each, of which its range holds an early vertex.
pub fn second_charges(problem: &Problem, contested: &[bool], early: &[bool]) -> Charges {
    let outside = |v: usize| !problem.loops.iter().any(|l| l.holds(v as u32));
    let loading: Vec<bool> = (0..problem.vertices.len()).map(|v| contested[v] || early[v] && outside(v)).collect();
    let entry = |l: &Loop| if is_outermost(problem, l) { loads_of_early(problem, early, l.header, l.last) } else { 0 };
    Charges { visit: visit_charges(problem, &loading), entry: problem.loops.iter().map(entry).collect() }
}

/// The two totals under a layout, in cycles.
#[derive(Clone, Copy, Debug, PartialEq, Eq)]
pub struct Totals {
    /// The greatest visit charges of a lawful walk.
    pub visits: u128,
    /// Document 01's total: these, and the first loads.
    pub first: u128,
    /// The greatest second total of a lawful walk.
    pub second: u128,
}

impl Totals {
    /// The totals of a problem whose contested vertices are these.
    pub fn of(problem: &Problem, contested: &[bool]) -> Totals {
        let early = early(problem, contested);
        let visits = by_contraction(problem, &first_charges(problem, contested));
        Totals {
            visits,
            first: visits.saturating_add(u128::from(first_loads(problem, &early))),
            second: by_contraction(problem, &second_charges(problem, contested, &early)),
        }
    }

    /// The smaller of the two: the bound, where it does not pass the limit.
    pub fn smaller(&self) -> u128 {
        self.first.min(self.second)
    }
}
