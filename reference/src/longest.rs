//! The greatest sum of charges over all lawful walks.
//!
//! A sum may pass every machine number (32 nested loops of the most visits), so sums stop at the greatest `u128`. That is far
//! above the limit for bounds, and adding, multiplying and taking the greater keep it there.

use std::collections::HashMap;

use crate::problem::*;

/// What a walk is charged. An entry of a loop is a visit to its header with no visit to it before in the present stay.
#[derive(Clone, Debug, PartialEq, Eq)]
pub struct Charges {
    /// At each visit to a vertex.
    pub visit: Vec<u64>,
    /// At each entry of a loop.
    pub entry: Vec<u64>,
}

impl Charges {
    /// Charges at visits alone.
    pub fn at_visits(problem: &Problem, visit: Vec<u64>) -> Charges {
        Charges { visit, entry: vec![0; problem.loops.len()] }
    }

    /// What a walk is charged in all. Each visit to a header looks back for one before it. For short walks.
    pub fn of(&self, problem: &Problem, walk: &[u32]) -> u128 {
        let visits = walk.iter().map(|&v| u128::from(self.visit[v as usize]));
        let entered = |l: &Loop, position: usize| {
            let mut stay = walk[..position].iter().rev().take_while(|&&v| l.holds(v));
            walk[position] == l.header && !stay.any(|&v| v == l.header)
        };
        let entries = |l: &Loop| (0..walk.len()).filter(|&position| entered(l, position)).count() as u128;
        let loops = problem.loops.iter().zip(&self.entry).map(|(l, &charge)| entries(l) * u128::from(charge));
        visits.chain(loops).sum()
    }
}

/// A way on from a vertex: its end, and what is charged between the visits to the two.
type Way = (u32, u128);

/// Loops are taken out of the graph, the innermost first. What remains at the end has no edge back.
pub fn by_contraction(problem: &Problem, charges: &Charges) -> u128 {
    let mut ways: Vec<Vec<Way>> = problem.successors().into_iter().map(|ends| ends.into_iter().map(|end| (end, 0)).collect()).collect();
    let mut arrival: Vec<u128> = charges.visit.iter().map(|&charge| u128::from(charge)).collect();
    // an inner loop's header is above that of the loop around it
    for (l, &entry) in problem.loops.iter().zip(&charges.entry).rev() {
        contract(l, &mut ways, &arrival);
        // no way is left from the range to the header, so whoever arrives there, or starts there, enters the loop
        arrival[l.header as usize] += u128::from(entry);
    }
    let lengths = lengths_from(0, problem.last_vertex(), &ways, &arrival);
    lengths[problem.vertices.len() - 1].expect("a lawful walk exists in every lawful problem")
}

/// A stay that earns the most visits its header as often as it may, takes the longest iteration each time but the last, and
/// leaves in the last one. So a loop becomes its header alone, with a way on for each edge out of the range that carries
/// (bound - 1) times the longest iteration and the longest way from the header to that edge. A loop that nothing leaves becomes a
/// vertex with no way on, and plays no part.
fn contract(l: &Loop, ways: &mut [Vec<Way>], arrival: &[u128]) {
    let lengths = lengths_from(l.header, l.last, ways, arrival);
    let mut iteration = 0;
    let mut ways_out: Vec<Way> = Vec::new();
    for vertex in l.header..=l.last {
        let ways_on = std::mem::take(&mut ways[vertex as usize]);
        let Some(length) = lengths[(vertex - l.header) as usize] else { continue };
        for (end, between) in ways_on {
            let length = length.saturating_add(between);
            if end == l.header {
                iteration = iteration.max(length);
            } else if !l.holds(end) {
                ways_out.push((end, length));
            }
        }
    }
    let earlier = iteration.saturating_mul(u128::from(l.bound - 1));
    for way in &mut ways_out {
        // the charge of the header is added on arriving there, as for any other vertex
        way.1 = (way.1 - arrival[l.header as usize]).saturating_add(earlier);
    }
    ways[l.header as usize] = ways_out;
}

/// The greatest charges from a vertex to each vertex up to `last` along ascending ways, both ends included.
fn lengths_from(first: u32, last: u32, ways: &[Vec<Way>], arrival: &[u128]) -> Vec<Option<u128>> {
    let mut lengths: Vec<Option<u128>> = vec![None; (last - first + 1) as usize];
    lengths[0] = Some(arrival[first as usize]);
    for vertex in first..=last {
        let Some(length) = lengths[(vertex - first) as usize] else { continue };
        for &(end, between) in &ways[vertex as usize] {
            if end > vertex && end <= last {
                let there = length.saturating_add(between).saturating_add(arrival[end as usize]);
                let best = &mut lengths[(end - first) as usize];
                *best = (*best).max(Some(there));
            }
        }
    }
    lengths
}

/// Where a walk may be: its vertex, and the visits to each loop's header in the present stay.
type State = (u32, Vec<u32>);

/// The state after one more step, or nothing if a stay would visit its header too often.
fn step(problem: &Problem, visits: &[u32], vertex: u32) -> Option<State> {
    let mut after = vec![0; visits.len()];
    for (index, l) in problem.loops.iter().enumerate() {
        if l.holds(vertex) {
            after[index] = visits[index] + u32::from(l.header == vertex);
            if after[index] > l.bound {
                return None;
            }
        }
    }
    Some((vertex, after))
}

/// What the visit that leads to a state is charged.
fn charge_of(problem: &Problem, charges: &Charges, (vertex, visits): &State) -> u128 {
    let mut charge = u128::from(charges.visit[*vertex as usize]);
    for ((l, visits), &entry) in problem.loops.iter().zip(visits).zip(&charges.entry) {
        if l.header == *vertex && *visits == 1 {
            charge += u128::from(entry);
        }
    }
    charge
}

/// The graph unfolded by its visit counts, which then has no cycle, and a longest path through it: the greatest sum with a
/// lawful walk that earns it. Nothing if there are more than `most` states: for small problems.
pub fn by_states(problem: &Problem, charges: &Charges, most: usize) -> Option<(u128, Vec<u32>)> {
    let successors = problem.successors();
    let start = step(problem, &vec![0; problem.loops.len()], 0).expect("every bound is at least 1");
    // what is earned from a state to the end of the best walk on, and its next state; nothing where no lawful walk goes on
    let mut best: HashMap<State, Option<(u128, Option<State>)>> = HashMap::new();
    let mut open = vec![(start.clone(), false)];
    while let Some((state, followed)) = open.pop() {
        let next_states = || successors[state.0 as usize].iter().filter_map(|&v| step(problem, &state.1, v));
        if !followed {
            if best.contains_key(&state) {
                continue;
            }
            if best.len() >= most {
                return None;
            }
            best.insert(state.clone(), None);
            open.push((state.clone(), true));
            open.extend(next_states().map(|next| (next, false)));
            continue;
        }
        let charge = charge_of(problem, charges, &state);
        let ahead = if state.0 == problem.last_vertex() {
            Some((charge, None))
        } else {
            let goes_on = next_states().filter_map(|next| best[&next].as_ref().map(|(sum, _)| (*sum, next.clone())));
            goes_on.max_by_key(|(sum, _)| *sum).map(|(sum, next)| (sum.saturating_add(charge), Some(next)))
        };
        best.insert(state, ahead);
    }
    let (sum, _) = best[&start].clone()?;
    let mut walk = Vec::new();
    let mut at = Some(start);
    while let Some(state) = at {
        walk.push(state.0);
        at = best[&state].clone().and_then(|(_, next)| next);
    }
    Some((sum, walk))
}

/// Calls `each` with every lawful walk. Says false, having stopped, if that takes more than `most` steps: for tiny problems.
pub fn lawful_walks(problem: &Problem, most: usize, each: &mut dyn FnMut(&[u32])) -> bool {
    let successors = problem.successors();
    let start = step(problem, &vec![0; problem.loops.len()], 0).expect("every bound is at least 1");
    let mut steps = 0;
    let mut walk: Vec<u32> = Vec::new();
    // states to visit, each with the length of the walk before it
    let mut open = vec![(0, start)];
    while let Some((length, (vertex, visits))) = open.pop() {
        steps += 1;
        if steps > most {
            return false;
        }
        walk.truncate(length);
        walk.push(vertex);
        if vertex == problem.last_vertex() {
            each(&walk);
        }
        for &next in &successors[vertex as usize] {
            if let Some(state) = step(problem, &visits, next) {
                open.push((length + 1, state));
            }
        }
    }
    true
}
