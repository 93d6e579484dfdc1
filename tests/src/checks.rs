//! What check costs are like, to be counted, and what wrong readings of them would give.

use reference::longest::{by_contraction, Charges};
use reference::problem::*;
use reference::run::simulate;
use reference::totals::entered;

use crate::totals::Priced;

/// Problems by their check costs.
pub const KINDS: [&str; 5] = [
    "a problem with no check cost",
    "a problem with some check costs",
    "a problem with a check cost in every function",
    "a problem with one check cost, of 65,535",
    "a problem with a check cost of a function that has no vertex",
];
/// Wrong readings of the visit charge, where they would give another bound.
pub const READINGS: [&str; 5] = [
    "no check at vertex 0 would be another bound",
    "a check behind any edge, so at every vertex, would be another bound",
    "a check only where all edges come from another function would be another bound",
    "a check by edges upwards alone would be another bound",
    "a check without edges back to headers of bound 1 would be another bound",
];
/// Wrong readings of the run, where they would give other cycles.
pub const RUN_READINGS: [&str; 5] = [
    "a check on every visit would be other cycles",
    "no check on the first visit would be other cycles",
    "function 0 before the first visit would be other cycles",
    "the check of the function that is left would be other cycles",
    "a check on loads alone would be other cycles",
];

/// Each kind with whether a problem is of it.
pub fn kinds(problem: &Problem) -> impl Iterator<Item = (&'static str, bool)> {
    let checks: Vec<u32> = problem.functions.iter().map(|function| function.check).filter(|&check| check > 0).collect();
    let unused = |function: usize| problem.vertices.iter().all(|vertex| vertex.function as usize != function);
    let is = [
        checks.is_empty(),
        !checks.is_empty() && checks.len() < problem.functions.len(),
        checks.len() == problem.functions.len(),
        checks == [MOST_CHECK],
        problem.functions.iter().enumerate().any(|(index, function)| function.check > 0 && unused(index)),
    ];
    KINDS.into_iter().zip(is)
}

/// Each wrong reading of the visit charge with whether it would give another bound.
pub fn readings(problem: &Problem, priced: &Priced) -> Vec<(&'static str, bool)> {
    let bound = priced.totals.smaller();
    READINGS.into_iter().zip(wrongly_checked(problem).map(|checked| bound_if(problem, priced, &checked) != bound)).collect()
}

/// The vertices that would be charged the check by the wrong readings.
fn wrongly_checked(problem: &Problem) -> [Vec<bool>; 5] {
    let crosses = |edge: &Edge| problem.function_of(edge.from) != problem.function_of(edge.to);
    let by_edges = |enters: &dyn Fn(&[Edge]) -> bool| -> Vec<bool> {
        let to = |vertex: u32| problem.edges.iter().copied().filter(|edge| edge.to == vertex).collect::<Vec<_>>();
        (0..=problem.last_vertex()).map(|vertex| vertex == 0 || enters(&to(vertex))).collect()
    };
    let once = |edge: &Edge| problem.loops.iter().any(|l| l.header == edge.to && l.holds(edge.from) && l.bound == 1);
    let mut without_start = entered(problem);
    without_start[0] = problem.edges.iter().any(|edge| edge.to == 0 && crosses(edge));
    [
        without_start,
        vec![true; problem.vertices.len()],
        by_edges(&|edges| edges.iter().all(crosses)),
        by_edges(&|edges| edges.iter().any(|edge| edge.from < edge.to && crosses(edge))),
        by_edges(&|edges| edges.iter().any(|edge| !once(edge) && crosses(edge))),
    ]
}

/// The bound, were the check charged at these vertices.
fn bound_if(problem: &Problem, priced: &Priced, checked: &[bool]) -> u128 {
    let entered = entered(problem);
    let greatest = |charges: Charges| {
        let mut charges = charges;
        for (index, charge) in charges.visit.iter_mut().enumerate() {
            let check = u64::from(problem.functions[problem.vertices[index].function as usize].check);
            *charge = *charge - check * u64::from(entered[index]) + check * u64::from(checked[index]);
        }
        by_contraction(problem, &charges)
    };
    let first_loads = priced.totals.first - priced.totals.visits;
    greatest(priced.first()).saturating_add(first_loads).min(greatest(priced.second.clone()))
}

/// Each wrong reading of the run with whether it would give other cycles for a walk.
pub fn run_readings(problem: &Problem, regions: &[u8], walk: &[u32]) -> Vec<(&'static str, bool)> {
    let cycles = simulate(problem, regions, walk).cycles;
    RUN_READINGS.into_iter().zip(wrong_cycles(problem, regions, walk).map(|wrong| wrong != cycles)).collect()
}

fn wrong_cycles(problem: &Problem, regions: &[u8], walk: &[u32]) -> [u64; 5] {
    let functions: Vec<u32> = walk.iter().map(|&vertex| problem.function_of(vertex)).collect();
    let check = |function: u32| u64::from(problem.functions[function as usize].check);
    // what a walk costs where each visit pays this for the function before it, if there is one, and for its own
    let without = simulate(&changed(problem, |function| Function { check: 0, ..function }), regions, walk).cycles;
    let paying = |pays: &dyn Fn(Option<u32>, u32) -> u64| {
        let before = std::iter::once(None).chain(functions.iter().copied().map(Some));
        without + before.zip(&functions).map(|(before, &function)| pays(before, function)).sum::<u64>()
    };
    let if_so = |so: bool, cost: u64| if so { cost } else { 0 };
    let with_loads = changed(problem, |function| Function { load: function.load + function.check, check: 0, ..function });
    [
        paying(&|_, function| check(function)),
        paying(&|before, function| if_so(before.is_some_and(|before| before != function), check(function))),
        paying(&|before, function| if_so(before.unwrap_or(0) != function, check(function))),
        paying(&|before, function| if_so(before != Some(function), check(before.unwrap_or(function)))),
        simulate(&with_loads, regions, walk).cycles,
    ]
}

/// The problem with its functions changed.
fn changed(problem: &Problem, change: impl Fn(Function) -> Function) -> Problem {
    Problem { functions: problem.functions.iter().copied().map(change).collect(), ..problem.clone() }
}
