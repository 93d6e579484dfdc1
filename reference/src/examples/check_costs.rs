//! The worked check costs of request 9/14: problems with what Bound and Run give, and records with what they are refused for.

use super::{p, q, r, M10};
use crate::layout::Bound;
use crate::problem::*;
use crate::Drawing;

/// M10 with check cost 5, a whole file of edition 2.
pub const M10_CHECKED: [u8; 11] = [0x02, 0x08, 0x01, 0x08, 0x05, 0x05, 0x01, 0x00, 0x0A, 0x00, 0x00];

/// A problem under a layout, with what its check costs bring.
pub struct WorkedChecks {
    /// What it is.
    pub what: &'static str,
    /// The problem.
    pub problem: Problem,
    /// The layout, which fits.
    pub layout: Vec<u8>,
    /// What Bound gives.
    pub bound: Bound,
    /// Some lawful walks with the cycles and the loads that each takes.
    pub runs: Vec<(Vec<u32>, u64, u64)>,
    /// The most cycles that a lawful walk takes.
    pub longest: u64,
}

/// The problem with these check costs, one a function.
pub fn with_checks(mut problem: Problem, checks: &[u32]) -> Problem {
    assert_eq!(problem.functions.len(), checks.len());
    problem.functions.iter_mut().zip(checks).for_each(|(function, &check)| function.check = check);
    problem
}

/// The drawing with these check costs, one a function.
pub fn drawn_with_checks(mut drawing: Drawing, checks: &[u32]) -> Drawing {
    assert_eq!(drawing.functions.len(), checks.len());
    drawing.functions.iter_mut().zip(checks).for_each(|(drawn, &check)| drawn.function.check = check);
    drawing
}

/// M10 as a problem.
fn m10() -> Problem {
    crate::read(&M10).expect("it is lawful")
}

/// R, where no lawful walk can follow the edge back.
fn r_once() -> Problem {
    Problem { loops: vec![Loop { header: 1, last: 2, bound: 1 }], ..r() }
}

/// The worked problems.
pub fn checked() -> [WorkedChecks; 6] {
    let bound = |need, contested, first_loads, bound| Bound { need, contested, first_loads, bound };
    let worked = |what, problem, checks: &[u32], layout: &[u8], bound, runs: &[(&[u32], u64, u64)], longest| WorkedChecks {
        what,
        problem: with_checks(problem, checks),
        layout: layout.to_vec(),
        bound,
        runs: runs.iter().map(|&(walk, cycles, loads)| (walk.to_vec(), cycles, loads)).collect(),
        longest,
    };
    let branches: [(&[u32], u64, u64); 2] = [(&[0, 2, 3], 56, 2), (&[0, 1, 3], 46, 2)];
    [
        worked("P with 1 2 3", p(), &[1, 2, 3], &[0, 1, 1], bound(14, 2, 8, 96), &[(&[0, 1, 2, 3, 4, 5, 6], 96, 4)], 96),
        worked("Q with 2 4", q(), &[2, 4], &[0, 1], bound(2, 0, 8, 56), &branches, 56),
        // the first visit to vertex 1, which is entered, comes from vertex 0, of the same function
        worked("R with 2 4", r(), &[2, 4], &[0, 1], bound(2, 0, 8, 61), &[(&[0, 1, 2, 1, 2, 1, 2, 1, 3], 59, 2)], 59),
        worked("R with 2 4, in one region", r(), &[2, 4], &[0, 0], bound(1, 2, 5, 87), &[(&[0, 1, 2, 1, 2, 1, 2, 1, 3], 80, 7)], 80),
        worked("R once with 2 4", r_once(), &[2, 4], &[0, 1], bound(2, 0, 8, 16), &[(&[0, 1, 3], 11, 1)], 11),
        worked("M10 with 5", m10(), &[5], &[], bound(8, 0, 5, 20), &[(&[0], 20, 1)], 20),
    ]
}

/// Q with a check cost out of range, or with a size out of range behind check costs, and where that is refused 3.
pub fn refused_checks() -> [(&'static str, Problem, u64); 5] {
    let sizeless = |checks| {
        let mut problem = with_checks(q(), checks);
        problem.functions[1].size = 0;
        problem
    };
    [
        ("check costs 0, 70,000", with_checks(q(), &[0, 70_000]), 8),
        ("check costs 70,000, 0", with_checks(q(), &[70_000, 0]), 5),
        ("a size 0 behind no check cost", sizeless(&[0, 0]), 5),
        ("a size 0 behind a check cost that is written as zero", sizeless(&[0, 1]), 6),
        ("a size 0 behind a check cost of two bytes", sizeless(&[300, 0]), 7),
    ]
}
