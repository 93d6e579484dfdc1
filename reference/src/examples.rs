//! The worked examples of document 01, one more, those of the two totals, and those of drawings; those of check costs, of evictions and of
//! sentences are in files of their own.

mod check_costs;
mod evictions;
mod sentences;

pub use check_costs::{checked, drawn_with_checks, refused_checks, with_checks, WorkedChecks, M10_CHECKED};
pub use evictions::{evictions, longest_shown, WorkedEviction};
pub use sentences::{sentences, NO_SENTENCES};

use crate::drawing::*;
use crate::file::encode;
use crate::problem::*;

fn problem(scratchpad: u32, functions: &[(u32, u32)], vertices: &[(u32, u32)], edges: &[(u32, u32)], loops: &[(u32, u32, u32)]) -> Problem {
    Problem {
        scratchpad,
        functions: functions.iter().map(|&(size, load)| Function { size, load, check: 0 }).collect(),
        vertices: vertices.iter().map(|&(function, cost)| Vertex { function, cost }).collect(),
        edges: edges.iter().map(|&(from, to)| Edge { from, to }).collect(),
        loops: loops.iter().map(|&(header, last, bound)| Loop { header, last, bound }).collect(),
    }
}

/// P: seven vertices in a chain.
pub fn p() -> Problem {
    let vertices = [0, 1, 0, 2, 0, 1, 0].map(|function| (function, 10));
    let chain: Vec<_> = (0..6).map(|v| (v, v + 1)).collect();
    problem(14, &[(8, 5), (4, 3), (6, 4)], &vertices, &chain, &[])
}

/// Q: two branches.
pub fn q() -> Problem {
    let vertices = [(0, 10), (1, 10), (1, 20), (0, 10)];
    problem(2, &[(1, 5), (1, 3)], &vertices, &[(0, 1), (0, 2), (1, 3), (2, 3)], &[])
}

/// R: a loop of at most four visits to its header.
pub fn r() -> Problem {
    let vertices = [(0, 1), (0, 2), (1, 7), (0, 1)];
    problem(2, &[(1, 5), (1, 3)], &vertices, &[(0, 1), (1, 2), (1, 3), (2, 1)], &[(1, 2, 4)])
}

/// S, where splitting a region raises the bound: function 1 lies on the short branch alone, and with a region of its own it is charged on
/// every walk. Not a worked example of document 01.
pub fn s() -> Problem {
    let vertices = [(0, 10), (1, 1), (2, 100), (2, 10)];
    problem(3, &[(1, 5), (1, 3), (1, 4)], &vertices, &[(0, 1), (0, 2), (1, 3), (2, 3)], &[])
}

/// A problem of functions of one byte each with room for all, whose vertices have the cost 1.
fn of_unit_costs(loads: &[u32], functions: &[u32], edges: &[(u32, u32)], loops: &[(u32, u32, u32)]) -> Problem {
    let sizes_and_loads: Vec<_> = loads.iter().map(|&load| (1, load)).collect();
    let vertices: Vec<_> = functions.iter().map(|&function| (function, 1)).collect();
    problem(loads.len() as u32, &sizes_and_loads, &vertices, edges, loops)
}

/// T, where the second total is the smaller: the graph of Q with another helper on each branch.
pub fn t() -> Problem {
    of_unit_costs(&[5, 3, 4], &[0, 1, 2, 0], &[(0, 1), (0, 2), (1, 3), (2, 3)], &[])
}

/// U, where document 01's total is the smaller: function 1 is early before the loop and in it.
pub fn u() -> Problem {
    of_unit_costs(&[5, 3], &[0, 1, 0, 1, 0], &[(0, 1), (0, 2), (1, 2), (2, 3), (3, 2), (3, 4)], &[(2, 3, 2)])
}

/// V: vertex 0 is a header, so every walk starts by entering its loop.
pub fn v() -> Problem {
    of_unit_costs(&[5], &[0, 0], &[(0, 0), (0, 1)], &[(0, 0, 2)])
}

/// W: two functions are early in a loop, one of them in a loop inside it.
pub fn w() -> Problem {
    let edges = [(0, 1), (1, 2), (1, 4), (2, 2), (2, 3), (3, 1)];
    of_unit_costs(&[5, 3, 4], &[0, 0, 1, 2, 0], &edges, &[(1, 3, 2), (2, 2, 3)])
}

/// A drawing of functions of one byte each, with the load costs 5, 3 and 4 and as much room as they need.
fn drawing(functions: Vec<DrawnFunction>) -> Drawing {
    let loaded = |(function, load)| DrawnFunction { function: Function { size: 1, load, check: 0 }, ..function };
    Drawing { scratchpad: functions.len() as u32, functions: functions.into_iter().zip([5, 3, 4]).map(loaded).collect() }
}

fn drawn(vertices: &[(u32, Option<u32>)], edges: &[(u32, u32)], loops: &[(u32, u32, u32)]) -> DrawnFunction {
    DrawnFunction {
        function: Function { size: 1, load: 0, check: 0 },
        vertices: vertices.iter().map(|&(cost, callee)| DrawnVertex { callee, cost }).collect(),
        edges: edges.iter().map(|&(from, to)| Edge { from, to }).collect(),
        loops: loops.iter().map(|&(header, last, bound)| Loop { header, last, bound }).collect(),
    }
}

/// D1: a helper of two vertices, called twice.
pub fn d1() -> Drawing {
    let caller = drawn(&[(10, Some(1)), (20, Some(1)), (30, None)], &[(0, 1), (1, 2)], &[]);
    drawing(vec![caller, drawn(&[(2, None), (3, None)], &[(0, 1)], &[])])
}

/// D2: a helper that calls another, on one of two branches.
pub fn d2() -> Drawing {
    let caller = drawn(&[(1, None), (2, Some(1)), (3, None)], &[(0, 1), (0, 2), (1, 2)], &[]);
    let helper = drawn(&[(4, Some(2)), (5, None)], &[(0, 1)], &[]);
    drawing(vec![caller, helper, drawn(&[(6, None)], &[], &[])])
}

/// D3: a helper with a loop, called at the last vertex of a loop.
pub fn d3() -> Drawing {
    let caller = drawn(&[(1, None), (2, None), (7, Some(1)), (1, None)], &[(0, 1), (1, 2), (1, 3), (2, 1)], &[(1, 2, 4)]);
    drawing(vec![caller, drawn(&[(1, None), (2, None), (1, None)], &[(0, 1), (1, 1), (1, 2)], &[(1, 1, 3)])])
}

/// D4: a call at the only vertex of a loop.
pub fn d4() -> Drawing {
    let caller = drawn(&[(1, None), (2, Some(1)), (1, None)], &[(0, 1), (1, 1), (1, 2)], &[(1, 1, 3)]);
    drawing(vec![caller, drawn(&[(7, None)], &[], &[])])
}

/// D5: as D4, at vertex 0, and vertex 0 of the helper heads a loop too.
pub fn d5() -> Drawing {
    let caller = drawn(&[(1, Some(1)), (2, None)], &[(0, 0), (0, 1)], &[(0, 0, 2)]);
    drawing(vec![caller, drawn(&[(1, None), (1, None)], &[(0, 0), (0, 1)], &[(0, 0, 3)])])
}

/// D6: a call at the last vertex of a loop that goes round at its header.
pub fn d6() -> Drawing {
    let caller = drawn(&[(1, None), (2, None), (7, Some(1)), (1, None)], &[(0, 1), (1, 1), (1, 2), (2, 3)], &[(1, 2, 4)]);
    drawing(vec![caller, drawn(&[(1, None)], &[], &[])])
}

/// The file of D4.
pub const D4: [u8; 29] = [
    0x01, 0x02, 0x02, 0x01, 0x05, 0x01, 0x03, 0x04, 0x00, 0x01, 0x00, 0x02, 0x01, 0x07, 0x00, 0x01, 0x04, 0x00, 0x01, 0x01, 0x02, 0x02,
    0x01, 0x02, 0x03, 0x01, 0x01, 0x02, 0x03,
];

/// A chain whose vertices call these, and behind them a vertex that calls nothing.
pub fn chain(callees: &[Option<u32>]) -> DrawnFunction {
    let vertices: Vec<_> = callees.iter().chain(&[None]).map(|&callee| (1, callee)).collect();
    let edges: Vec<_> = (0..callees.len() as u32).map(|from| (from, from + 1)).collect();
    drawn(&vertices, &edges, &[])
}

/// Drawings whose one problem has a count at its limit, one past it, or past every machine number: with their names, and the true counts of
/// vertices, edges and loops, which stop at the greatest `u128`.
pub fn at_limits() -> Vec<(&'static str, Drawing, [u128; 3])> {
    let calls = |times: usize, more: usize| chain(&[vec![Some(1); times], vec![None; more]].concat());
    let upwards: Vec<_> = (0..23).flat_map(|from| (from + 1..23).map(move |to| (from, to))).collect();
    let every_edge = || drawn(&[(1, None); 23], &upwards, &[]);
    let one_loop = || drawn(&[(1, None); 2], &[(0, 0), (0, 1)], &[(0, 0, 2)]);
    let mut tower: Vec<DrawnFunction> = (1..32).map(|next| chain(&[Some(next); 127])).collect();
    tower.push(chain(&[]));
    let below_a_leaf = [&[chain(&[])], &tower[1..]].concat();
    let mut stairs: Vec<DrawnFunction> = (1..32).map(|next| chain(&[Some(next), None, None])).collect();
    stairs.push(chain(&[None, None, None]));
    let cases = [
        ("128 vertices by calls", vec![calls(42, 1), chain(&[None])], [128, 127, 0]),
        ("129 vertices by calls", vec![calls(42, 2), chain(&[None])], [129, 128, 0]),
        ("512 edges by calls", vec![calls(2, 2), every_edge()], [51, 512, 0]),
        ("513 edges by calls", vec![calls(2, 3), every_edge()], [52, 513, 0]),
        ("32 loops by calls", vec![calls(32, 0), one_loop()], [97, 128, 32]),
        ("33 loops by calls", vec![calls(33, 0), one_loop()], [100, 132, 33]),
        ("32 activations at once, in 128 vertices", stairs, [128, 127, 0]),
        ("a tower of calls, 127 of the next function in each of 31", tower, [u128::MAX, u128::MAX, 0]),
        ("a tower of calls that function 0 does not reach", below_a_leaf, [1, 0, 0]),
    ];
    cases.map(|(name, functions, counts)| (name, Drawing { scratchpad: 99, functions }, counts)).to_vec()
}

/// M10: a whole file of one vertex.
pub const M10: [u8; 10] = [0x01, 0x08, 0x01, 0x08, 0x05, 0x01, 0x00, 0x0A, 0x00, 0x00];

/// A problem file and a layout, as they are bundled.
pub struct Sample {
    /// The name of its folder.
    pub name: &'static str,
    /// The file `problem.bin`.
    pub problem: Vec<u8>,
    /// The file `layout.bin`, one byte a region.
    pub layout: Vec<u8>,
}

/// The bundled samples.
pub fn samples() -> Vec<Sample> {
    let sample = |name, problem: &Problem, layout: &[u8]| {
        let problem = encode(problem, problem.counts()).expect("the worked examples are in range");
        Sample { name, problem, layout: layout.to_vec() }
    };
    vec![
        sample("p", &p(), &[0, 1, 1]),
        sample("p-checks", &with_checks(p(), &[1, 2, 3]), &[0, 1, 1]),
        sample("q", &q(), &[0, 1]),
        sample("r", &r(), &[0, 1]),
        sample("r-0-0", &r(), &[0, 0]),
        Sample { name: "m10", problem: M10.to_vec(), layout: Vec::new() },
    ]
}
