//! What evictions are like, to be counted, and what wrong readings of them would give.

use reference::eviction::{Phases, Searched};
use reference::problem::*;
use reference::run::{check, simulate};
use reference::Reason;

/// Vertices by their reasons.
pub const REASONS: [&str; 3] = ["a vertex charged on every visit", "a vertex charged as a first load", "a vertex never charged"];
/// What shown walks are like.
pub const SHAPES: [&str; 5] = [
    "a shown walk back to vertex 0",
    "a shown walk that passes its vertex before",
    "a shown walk that passes another vertex twice",
    "a shown walk that visits a header beyond its bound",
    "a shown walk into a loop without a way out",
];
/// A first load of the function somewhere else.
pub const NEVER_OF_COLD: &str = "a vertex never charged, of a cold function";
/// Wrong readings, where they would give another answer.
pub const READINGS: [&str; 7] = [
    "the greatest function in place of the lowest would be another answer",
    "the function with the shortest walk would be another answer",
    "the function visited at any time would be another walk",
    "the first difference from the end would be another walk",
    "edges back left out would be another answer",
    "a first load wherever one is possible would be another answer",
    "what the region holds on arrival would be another function",
];

/// A reason in the wrapper's form, whose functions have eight bits.
pub fn wrapped_reason(reason: Reason) -> Option<examiner::Reason> {
    match reason {
        Reason::EveryVisit(function) => u8::try_from(function).ok().map(|function| examiner::Reason::EveryVisit { function }),
        Reason::FirstLoad => Some(examiner::Reason::FirstLoad),
        Reason::Never => Some(examiner::Reason::Never),
    }
}

/// A vertex of a lawful problem with what Eviction says of it.
pub struct Shown<'a> {
    graph: &'a Searched<'a>,
    regions: &'a [u8],
    /// The vertex.
    pub vertex: u32,
    /// When its load is charged.
    pub reason: Reason,
    /// The walk that shows it.
    pub walk: Vec<u32>,
}

impl Shown<'_> {
    /// What the independent implementation says of each vertex.
    pub fn all<'a>(graph: &'a Searched, regions: &'a [u8]) -> Vec<Shown<'a>> {
        let shown = |vertex: u32| {
            let (reason, walk) = graph.eviction(regions, vertex);
            Shown { graph, regions, vertex, reason, walk }
        };
        (0..=graph.problem.last_vertex()).map(shown).collect()
    }

    fn problem(&self) -> &Problem {
        self.graph.problem
    }

    /// The vertex's function.
    pub fn own(&self) -> u32 {
        self.problem().function_of(self.vertex)
    }

    /// Whether some walk arrives with no visit to the vertex's function.
    fn is_fresh(&self) -> bool {
        self.graph.shortest(Phases { own: self.own(), rival: None }, self.vertex).is_some()
    }

    /// The function that the vertex's region holds as a walk arrives, 255 for none.
    pub fn held_after(&self, walk: &[u32]) -> u8 {
        let before = &walk[..walk.len().max(1) - 1];
        simulate(self.problem(), self.regions, before).held[usize::from(self.regions[self.own() as usize])]
    }

    /// Each reason with whether it is this one.
    pub fn reasons(&self) -> Vec<(&'static str, bool)> {
        let contested = matches!(self.reason, Reason::EveryVisit(_));
        let is = [contested, self.reason == Reason::FirstLoad, self.reason == Reason::Never];
        REASONS.into_iter().zip(is).collect()
    }

    /// Each shape with whether the walk has it.
    pub fn shapes(&self) -> Vec<(&'static str, bool)> {
        let before = &self.walk[..self.walk.len().max(1) - 1];
        let twice = |v: &u32| *v != self.vertex && before.iter().filter(|&other| other == v).count() > 1;
        let Problem { edges, loops, .. } = self.problem();
        let is_dead = |l: &&Loop| !edges.iter().any(|e| l.holds(e.from) && !l.holds(e.to));
        let has = [
            self.vertex == 0 && !before.is_empty(),
            before.contains(&self.vertex),
            before.iter().any(twice),
            check(self.problem(), &self.walk).is_err_and(|refusal| refusal.number == 16),
            !before.is_empty() && loops.iter().filter(is_dead).any(|l| l.holds(self.vertex)),
        ];
        SHAPES.into_iter().zip(has).collect()
    }

    /// Each wrong reading with whether it would give another answer.
    pub fn readings(&self) -> Vec<(&'static str, bool)> {
        let Reason::EveryVisit(rival) = self.reason else {
            let others = [false, false, false, self.from_the_end() != self.walk, self.without_edges_back(), false, false];
            return READINGS.into_iter().zip(others).collect();
        };
        let all = self.graph.rivals(self.regions, self.vertex);
        let walk_of = |own: u32, rival: u32| self.graph.shortest(Phases { own, rival: Some(rival) }, self.vertex);
        let quickest = all.iter().min_by_key(|&&g| walk_of(self.own(), g).map_or(usize::MAX, |walk| walk.len()));
        // no vertex has this function, so no visit ends the phase
        let none = self.problem().functions.len() as u32;
        let others = [
            all.last() != Some(&rival),
            quickest != Some(&rival),
            walk_of(none, rival).as_ref() != Some(&self.walk),
            self.from_the_end() != self.walk,
            self.without_edges_back(),
            self.is_fresh(),
            u32::from(self.held_after(&self.walk)) != rival,
        ];
        READINGS.into_iter().zip(others).collect()
    }

    fn without_edges_back(&self) -> bool {
        let edges = self.problem().edges.iter().copied().filter(|e| e.from < e.to).collect();
        let ahead = Problem { edges, loops: vec![], ..self.problem().clone() };
        Searched::new(&ahead).eviction(self.regions, self.vertex) != (self.reason, self.walk.clone())
    }

    /// Of the walks that show the reason and have the fewest entries the one with the smallest number at the first difference from the end.
    pub fn from_the_end(&self) -> Vec<u32> {
        let phases = match self.reason {
            Reason::EveryVisit(rival) => Phases { own: self.own(), rival: Some(rival) },
            Reason::FirstLoad => Phases { own: self.own(), rival: None },
            Reason::Never => return vec![],
        };
        let levels = self.levels(phases);
        let mut walk = vec![self.vertex];
        let mut at = vec![(self.vertex, true)];
        for level in levels.iter().rev().skip(1) {
            let leads = |&&(from, phase): &&(u32, bool)| {
                let to = Edge { from, to: at[0].0 };
                self.problem().edges.contains(&to) && at.contains(&(to.to, phases.after(phase, self.problem().function_of(from))))
            };
            let before: Vec<(u32, bool)> = level.iter().filter(leads).copied().collect();
            let lowest = before.iter().map(|state| state.0).min().expect("a walk leads here");
            walk.push(lowest);
            at = before.into_iter().filter(|state| state.0 == lowest).collect();
        }
        walk.reverse();
        walk
    }

    /// The states that walks of each number of entries come to, as many as the shown walk has.
    fn levels(&self, phases: Phases) -> Vec<Vec<(u32, bool)>> {
        let successors = self.problem().successors();
        let mut levels = vec![vec![(0, phases.begun())]];
        while levels.len() < self.walk.len() {
            let steps = |&(at, phase): &(u32, bool)| {
                let after = phases.after(phase, self.problem().function_of(at));
                successors[at as usize].iter().map(move |&next| (next, after))
            };
            let mut next: Vec<(u32, bool)> = levels[levels.len() - 1].iter().flat_map(steps).collect();
            next.sort_unstable();
            next.dedup();
            levels.push(next);
        }
        levels
    }
}
