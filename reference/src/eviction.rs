//! Why a vertex pays its load, and the shortest walk that shows it.

use std::collections::VecDeque;

use crate::interference::search_back;
use crate::problem::*;

/// When the load of a vertex is charged.
#[derive(Clone, Copy, Debug, PartialEq, Eq, Hash)]
pub enum Reason {
    /// On every visit: the lowest function of the same region that a walk visits since the latest visit to the vertex's own.
    EveryVisit(u32),
    /// As a first load only.
    FirstLoad,
    /// Never.
    Never,
}

/// What Eviction gives.
#[derive(Clone, Copy, Debug, PartialEq, Eq)]
pub struct Eviction {
    /// When the load is charged.
    pub reason: Reason,
    /// The entries written.
    pub count: usize,
}

/// Eviction for regions that passed [`check`](crate::layout::check): 21, then the walk by phases, last 10.
pub fn of(problem: &Problem, regions: &[u8], vertex: u64, walk: &mut [u32]) -> Result<Eviction, Refusal> {
    if vertex >= problem.vertices.len() as u64 {
        return Err(Refusal { number: 21, place: vertex });
    }
    let (reason, shown) = Searched::new(problem).eviction(regions, vertex as u32);
    written(reason, &shown, walk)
}

/// Writes the walk that shows a reason: 10 where it has more entries than there are.
pub fn written(reason: Reason, shown: &[u32], walk: &mut [u32]) -> Result<Eviction, Refusal> {
    let room = walk.get_mut(..shown.len()).ok_or(Refusal::at(10, shown.len()))?;
    room.copy_from_slice(shown);
    Ok(Eviction { reason, count: shown.len() })
}

/// What a walk has done before it arrives at a vertex, as one of two phases: whether it visited the rival since its latest visit to `own`,
/// or since the start; without a rival, whether it has not visited `own` at all.
#[derive(Clone, Copy, Debug)]
pub struct Phases {
    /// The function that a visit ends the phase of.
    pub own: u32,
    /// The function that a visit begins it of.
    pub rival: Option<u32>,
}

impl Phases {
    /// The phase at the start, before vertex 0 is visited.
    pub fn begun(self) -> bool {
        self.rival.is_none()
    }

    /// The phase after a visit to a function.
    pub fn after(self, phase: bool, visited: u32) -> bool {
        visited != self.own && (phase || Some(visited) == self.rival)
    }
}

/// A problem with the edges of each vertex at hand.
pub struct Searched<'a> {
    /// The problem.
    pub problem: &'a Problem,
    successors: Vec<Vec<u32>>,
    predecessors: Vec<Vec<u32>>,
}

impl Searched<'_> {
    /// Lists the edges of each vertex.
    pub fn new(problem: &Problem) -> Searched<'_> {
        Searched { problem, successors: problem.successors(), predecessors: problem.predecessors() }
    }

    /// The reason of a vertex and the walk that shows it, which is empty for `Never`: by the interference set, then by a search forwards over
    /// vertices and phases.
    pub fn eviction(&self, regions: &[u8], vertex: u32) -> (Reason, Vec<u32>) {
        let own = self.problem.function_of(vertex);
        if let Some(&rival) = self.rivals(regions, vertex).first() {
            let walk = self.shortest(Phases { own, rival: Some(rival) }, vertex);
            return (Reason::EveryVisit(rival), walk.expect("some walk visits each member of the set"));
        }
        match self.shortest(Phases { own, rival: None }, vertex) {
            Some(walk) => (Reason::FirstLoad, walk),
            None => (Reason::Never, vec![]),
        }
    }

    /// The functions in the region of a vertex's function that are in the interference set of both, ascending.
    pub fn rivals(&self, regions: &[u8], vertex: u32) -> Vec<u32> {
        let own = self.problem.function_of(vertex);
        let set = search_back(self.problem, &self.predecessors, vertex, own);
        let functions = 0..self.problem.functions.len() as u32;
        functions.filter(|&g| set >> g & 1 == 1 && regions[g as usize] == regions[own as usize]).collect()
    }

    /// The walk with the fewest entries that arrives at a vertex in the phase looked for, then with the smallest number at the first difference.
    ///
    /// A search forwards, level by level, with edges in ascending order: states come up in the order of the walks that first reach them, so the
    /// first parent is kept.
    pub fn shortest(&self, phases: Phases, vertex: u32) -> Option<Vec<u32>> {
        let start = (0, phases.begun());
        let mut parents: Vec<[Option<(u32, bool)>; 2]> = vec![[None; 2]; self.problem.vertices.len()];
        parents[0][usize::from(start.1)] = Some(start);
        let mut open = VecDeque::from([start]);
        while let Some((at, phase)) = open.pop_front() {
            let after = phases.after(phase, self.problem.function_of(at));
            for &next in &self.successors[at as usize] {
                let parent = &mut parents[next as usize][usize::from(after)];
                if parent.is_none() {
                    *parent = Some((at, phase));
                    open.push_back((next, after));
                }
            }
        }
        let mut walk = vec![vertex];
        let mut state = (vertex, true);
        while state != start {
            state = parents[state.0 as usize][usize::from(state.1)]?;
            walk.push(state.0);
        }
        walk.reverse();
        Some(walk)
    }
}

/// Every walk of a small problem that may be a shortest one, by the vertex at its end, in the order that Eviction chooses by.
pub struct AllWalks<'a> {
    problem: &'a Problem,
    arriving: Vec<Vec<Vec<u32>>>,
}

impl AllWalks<'_> {
    /// All walks of at most two entries for each vertex: a shortest one comes to no vertex twice in the same phase. Nothing where there are
    /// more than `most` of them.
    pub fn new(problem: &Problem, most: usize) -> Option<AllWalks<'_>> {
        let successors = problem.successors();
        let mut arriving = vec![Vec::new(); problem.vertices.len()];
        let mut level: Vec<Vec<u32>> = vec![vec![0]];
        let mut count = 0;
        for _ in 0..2 * problem.vertices.len() {
            count += level.len();
            if count > most {
                return None;
            }
            let longer = |walk: &Vec<u32>| {
                let next = &successors[walk[walk.len() - 1] as usize];
                next.iter().map(|&vertex| [&walk[..], &[vertex]].concat()).collect::<Vec<_>>()
            };
            let next_level = level.iter().flat_map(longer).collect();
            for walk in std::mem::replace(&mut level, next_level) {
                arriving[walk[walk.len() - 1] as usize].push(walk);
            }
        }
        Some(AllWalks { problem, arriving })
    }

    /// The walks that arrive at a vertex, fewest entries first, then the smallest number at the first difference.
    pub fn arriving(&self, vertex: u32) -> &[Vec<u32>] {
        &self.arriving[vertex as usize]
    }

    /// Whether a walk shows a reason for its last vertex, as document 02 says it: by looking back at what it visited.
    pub fn shows(&self, regions: &[u8], walk: &[u32], reason: Reason) -> bool {
        let functions: Vec<u32> = walk.iter().map(|&v| self.problem.function_of(v)).collect();
        let Some((&own, before)) = functions.split_last() else { return false };
        match reason {
            Reason::EveryVisit(rival) => {
                let shares = rival != own && regions[rival as usize] == regions[own as usize];
                shares && before.iter().rev().take_while(|&&f| f != own).any(|&f| f == rival)
            }
            Reason::FirstLoad => !before.contains(&own),
            Reason::Never => false,
        }
    }

    /// As [`Searched::eviction`]: the first reason that a walk shows, with the first walk that does.
    pub fn eviction(&self, regions: &[u8], vertex: u32) -> (Reason, Vec<u32>) {
        let rivals = (0..self.problem.functions.len() as u32).map(Reason::EveryVisit);
        let first = |reason| self.arriving(vertex).iter().find(|walk| self.shows(regions, walk, reason)).map(|walk| (reason, walk.clone()));
        rivals.chain([Reason::FirstLoad]).find_map(first).unwrap_or((Reason::Never, vec![]))
    }
}
