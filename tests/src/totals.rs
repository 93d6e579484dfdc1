//! What a problem and a layout are like in the two totals, to be counted, and what wrong readings of these would give.

use reference::interference::by_search;
use reference::layout::contested;
use reference::longest::{by_contraction, Charges};
use reference::problem::*;
use reference::totals::{early, first_charges, is_outermost, second_charges, visit_charges};
use reference::Totals;

/// Bounds by the one total.
pub const FIRST_SMALLER: &str = "a bound by document 01's total, the smaller";
/// Bounds by the other.
pub const SECOND_SMALLER: &str = "a bound by the second total, the smaller";
/// Bounds by either.
pub const BOTH_AGREE: &str = "a bound by both totals, which agree";
/// What such a second total was made of.
pub const SHAPES: [&str; 5] = [
    "a bound by the second total, with an entry charge at vertex 0",
    "a bound by the second total, with several early functions in nested loops",
    "a bound by the second total, with an early vertex in a loop without a way out",
    "a bound by the second total, with a function that is early outside all loops and in one",
    "a bound by the second total, with two outermost loops that are charged",
];
/// How the totals stand to the limit.
pub const LIMITS: [&str; 5] = [
    "document 01's total at most the limit, the second past it",
    "the second total at most the limit, document 01's past it",
    "both totals past the limit",
    "document 01's total, the smaller, exactly the limit",
    "the second total, the smaller, exactly the limit",
];
/// Wrong readings of the second total, where they would give another bound.
pub const READINGS: [&str; 5] = [
    "no entry charge at vertex 0 would be another bound",
    "the entry charge at each turn would be another bound",
    "inner loops charged too would be another bound",
    "early vertices in loops charged at each visit would be another bound",
    "the function of the header alone charged at an entry would be another bound",
];

/// A lawful problem under a layout that fits.
pub struct Priced<'a> {
    problem: &'a Problem,
    /// Whether each vertex is contested.
    pub contested: Vec<bool>,
    /// Whether each vertex is early.
    pub early: Vec<bool>,
    /// The charges of the second total.
    pub second: Charges,
    /// The two totals.
    pub totals: Totals,
}

impl Priced<'_> {
    /// The problem with a region for each function.
    pub fn new<'a>(problem: &'a Problem, regions: &[u8]) -> Priced<'a> {
        let contested = contested(problem, &by_search(problem), regions);
        let early = early(problem, &contested);
        let second = second_charges(problem, &contested, &early);
        Priced { problem, totals: Totals::of(problem, &contested), contested, early, second }
    }

    /// The charges of document 01's total, its first loads aside.
    pub fn first(&self) -> Charges {
        first_charges(self.problem, &self.contested)
    }

    /// Each case with whether it is met.
    pub fn cases(&self) -> Vec<(&'static str, bool)> {
        let Totals { first, second, .. } = self.totals;
        let given = self.totals.smaller() <= u128::from(MOST_BOUND);
        let smaller = [(FIRST_SMALLER, first < second), (SECOND_SMALLER, second < first), (BOTH_AGREE, first == second)];
        let shapes = SHAPES.into_iter().zip(self.shapes().map(|it| it && second < first));
        let of_a_bound = smaller.into_iter().chain(shapes).map(|(what, it)| (what, it && given));
        of_a_bound.chain(LIMITS.into_iter().zip(self.limits())).collect()
    }

    /// The functions, once each, of which a loop holds an early vertex.
    fn early_in(&self, l: &Loop) -> Vec<u32> {
        let mut functions: Vec<u32> =
            (l.header..=l.last).filter(|&v| self.early[v as usize]).map(|v| self.problem.function_of(v)).collect();
        functions.sort_unstable();
        functions.dedup();
        functions
    }

    fn shapes(&self) -> [bool; 5] {
        let Problem { edges, loops, vertices, .. } = self.problem;
        let inside = |v: u32| loops.iter().any(|l| l.holds(v));
        let holds_one = |outer: &Loop| loops.iter().any(|l| outer.header < l.header && outer.holds(l.header));
        let left = |l: &Loop| edges.iter().any(|e| l.holds(e.from) && !l.holds(e.to));
        let early_outside = |function: u32| {
            (0..vertices.len() as u32).any(|v| self.early[v as usize] && !inside(v) && self.problem.function_of(v) == function)
        };
        [
            loops.first().is_some_and(|l| l.header == 0) && self.second.entry[0] > 0,
            loops.iter().any(|l| holds_one(l) && self.early_in(l).len() > 1),
            loops.iter().any(|l| !left(l) && !self.early_in(l).is_empty()),
            loops.iter().any(|l| self.early_in(l).into_iter().any(early_outside)),
            self.second.entry.iter().filter(|&&charge| charge > 0).count() > 1,
        ]
    }

    fn limits(&self) -> [bool; 5] {
        let Totals { first, second, .. } = self.totals;
        let limit = u128::from(MOST_BOUND);
        [
            first <= limit && limit < second,
            second <= limit && limit < first,
            limit < first && limit < second,
            first == limit && first < second,
            second == limit && second < first,
        ]
    }

    /// Each wrong reading with whether it would give another bound.
    pub fn readings(&self) -> Vec<(&'static str, bool)> {
        let bound = |charges: Charges| self.totals.first.min(by_contraction(self.problem, &charges));
        READINGS.into_iter().zip(self.wrong_charges().map(|charges| bound(charges) != self.totals.smaller())).collect()
    }

    /// What the wrong readings charge.
    fn wrong_charges(&self) -> [Charges; 5] {
        let loops = &self.problem.loops;
        let Charges { visit, entry } = &self.second;
        let load = |function: u32| u64::from(self.problem.functions[function as usize].load);
        let entering = |charge: &dyn Fn(&Loop) -> u64| Charges { visit: visit.clone(), entry: loops.iter().map(charge).collect() };

        let without_start = loops.iter().zip(entry).map(|(l, &charge)| if l.header == 0 { 0 } else { charge }).collect();
        let mut at_each_turn = Charges::at_visits(self.problem, visit.clone());
        for (l, charge) in loops.iter().zip(entry) {
            at_each_turn.visit[l.header as usize] += charge;
        }
        let loading: Vec<bool> = self.contested.iter().zip(&self.early).map(|(&contested, &early)| contested || early).collect();
        let of_header = |l: &Loop| self.early_in(l).into_iter().find(|&f| f == self.problem.function_of(l.header)).map_or(0, load);
        [
            Charges { visit: visit.clone(), entry: without_start },
            at_each_turn,
            entering(&|l| self.early_in(l).into_iter().map(load).sum()),
            Charges { visit: visit_charges(self.problem, &loading), entry: entry.clone() },
            entering(&|l| if is_outermost(self.problem, l) { of_header(l) } else { 0 }),
        ]
    }
}
