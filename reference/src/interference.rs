//! The interference sets.
//!
//! Both methods give word `v * functions + f`, with bit g set for each member g of the set of vertex v and function f.

use std::collections::HashSet;

use crate::problem::*;

/// A search backwards for each vertex and function.
///
/// A walk arrives at v having visited g since its latest visit to f exactly if an edge leads back from v to a vertex that is not
/// of f, and so on back to a vertex of g, no vertex of f on the way. Every vertex can be reached from vertex 0, so what lies
/// before that vertex of g does not matter. The arrival at v is no part of the way back, whatever its function.
pub fn by_search(problem: &Problem) -> Vec<u32> {
    let predecessors = problem.predecessors();
    let mut words = Vec::new();
    for vertex in 0..problem.vertices.len() as u32 {
        for function in 0..problem.functions.len() as u32 {
            words.push(search_back(problem, &predecessors, vertex, function));
        }
    }
    words
}

/// The set of one vertex and function, as [`by_search`] finds it.
pub fn search_back(problem: &Problem, predecessors: &[Vec<u32>], vertex: u32, function: u32) -> u32 {
    let mut seen = vec![false; problem.vertices.len()];
    let mut members = 0;
    let mut open = vec![vertex];
    while let Some(at) = open.pop() {
        for &before in &predecessors[at as usize] {
            let visited = problem.function_of(before);
            if visited != function && !seen[before as usize] {
                seen[before as usize] = true;
                members |= 1 << visited;
                open.push(before);
            }
        }
    }
    members
}

/// The definition followed forwards: for each function f, every pair (vertex arrived at, functions visited since the latest
/// visit to f) that a walk can produce. There may be very many pairs: for small problems.
pub fn by_states(problem: &Problem) -> Vec<u32> {
    let functions = problem.functions.len();
    let successors = problem.successors();
    let mut words = vec![0; problem.vertices.len() * functions];
    for function in 0..functions as u32 {
        let start = (0, 0u32);
        let mut seen = HashSet::from([start]);
        let mut open = vec![start];
        while let Some((vertex, since)) = open.pop() {
            words[vertex as usize * functions + function as usize] |= since;
            let visited = problem.function_of(vertex);
            let after = if visited == function { 0 } else { since | 1 << visited };
            for &next in &successors[vertex as usize] {
                if seen.insert((next, after)) {
                    open.push((next, after));
                }
            }
        }
    }
    words
}
