//! Random walks, lawful and broken.

use reference::problem::*;

use crate::random::Random;

/// Takes random steps through a problem without passing a loop's bound.
struct Walker<'a> {
    problem: &'a Problem,
    successors: Vec<Vec<u32>>,
    /// Steps to the last vertex, bounds aside.
    distance: Vec<Option<usize>>,
    visits: Vec<u32>,
    walk: Vec<u32>,
}

/// For each vertex, the steps to the last one, bounds aside, if any lead there.
pub fn distances(problem: &Problem) -> Vec<Option<usize>> {
    let mut distance = vec![None; problem.vertices.len()];
    let predecessors = problem.predecessors();
    let mut reached = vec![problem.last_vertex()];
    distance[problem.vertices.len() - 1] = Some(0);
    let mut steps = 0;
    while !reached.is_empty() {
        steps += 1;
        let mut further = Vec::new();
        for vertex in reached {
            for &before in &predecessors[vertex as usize] {
                if distance[before as usize].is_none() {
                    distance[before as usize] = Some(steps);
                    further.push(before);
                }
            }
        }
        reached = further;
    }
    distance
}

impl Walker<'_> {
    fn new(problem: &Problem) -> Walker<'_> {
        let mut walker = Walker {
            problem,
            successors: problem.successors(),
            distance: distances(problem),
            visits: vec![0; problem.loops.len()],
            walk: Vec::new(),
        };
        walker.enter(0);
        walker
    }

    fn at(&self) -> u32 {
        *self.walk.last().expect("a walk starts at vertex 0")
    }

    fn may_enter(&self, vertex: u32) -> bool {
        self.problem.loops.iter().zip(&self.visits).all(|(l, &visits)| l.header != vertex || !l.holds(self.at()) || visits < l.bound)
    }

    fn enter(&mut self, vertex: u32) {
        for (l, visits) in self.problem.loops.iter().zip(&mut self.visits) {
            if !l.holds(vertex) {
                *visits = 0;
            } else if l.header == vertex {
                *visits += 1;
            }
        }
        self.walk.push(vertex);
    }

    /// The vertices that a step may lead to, if the last vertex is to stay within so many steps.
    fn choices(&self, steps: usize) -> Vec<u32> {
        let near = |v: u32| self.distance[v as usize].is_some_and(|distance| distance <= steps);
        self.successors[self.at() as usize].iter().copied().filter(|&v| near(v) && self.may_enter(v)).collect()
    }
}

/// A walk that goes on at random for about `length` entries and then makes for the last vertex. It may fail to get there, where loops
/// may not be visited again: then it ends elsewhere. Never longer than `most`.
pub fn wandering(random: &mut Random, problem: &Problem, length: usize, most: usize) -> Vec<u32> {
    let mut walker = Walker::new(problem);
    while walker.at() != problem.last_vertex() && walker.walk.len() < most {
        let mut choices = walker.choices(most - walker.walk.len() - 1);
        if walker.walk.len() < length {
            prefer(&mut choices, |v| v != problem.last_vertex());
        } else if let Some(nearest) = choices.iter().map(|&v| walker.distance[v as usize]).min() {
            choices.retain(|&v| walker.distance[v as usize] == nearest || random.percent(5));
        }
        if choices.is_empty() {
            break;
        }
        let next = *random.pick(&choices);
        walker.enter(next);
    }
    walker.walk
}

/// A lawful walk of about `length` entries, at most `most`, if a few tries find one.
pub fn lawful(random: &mut Random, problem: &Problem, length: usize, most: usize) -> Option<Vec<u32>> {
    (0..8).map(|_| wandering(random, problem, length, most)).find(|walk| walk.last() == Some(&problem.last_vertex()))
}

/// A walk that follows edges at random for `length` entries, or to the last vertex, and minds no bound.
pub fn roaming(random: &mut Random, problem: &Problem, length: usize) -> Vec<u32> {
    let successors = problem.successors();
    let mut walk = vec![0];
    let mut at = 0;
    while walk.len() < length && at != problem.last_vertex() {
        at = *random.pick(&successors[at as usize]);
        walk.push(at);
    }
    walk
}

/// What [`damaged`] does to a walk.
pub const DAMAGES: u32 = 9;

/// A walk with one thing done to it, by number below [`DAMAGES`]. Most of what comes out is unlawful.
pub fn damaged(random: &mut Random, problem: &Problem, walk: &[u32], damage: u32) -> Vec<u32> {
    let mut walk = walk.to_vec();
    let vertices = problem.vertices.len() as u32;
    let position = random.count(0..=walk.len().max(1) - 1);
    match damage {
        0 => walk.clear(),
        1 => walk.truncate(position),
        2 => walk.push(random.field(0..=vertices - 1)),
        // an entry that the edges or the bounds may forbid, at the start, inside or at the end
        3 if !walk.is_empty() => walk[position] = random.field(0..=vertices - 1),
        4 if !walk.is_empty() => *walk.last_mut().expect("not empty") = random.field(0..=vertices - 1),
        5 if !walk.is_empty() => walk[0] = random.field(0..=vertices),
        // a vertex that there is none of; some look like one in their low bits
        6 if !walk.is_empty() => {
            let likeness = walk[position];
            walk[position] = *random.pick(&[vertices, 128, 255, 256 + likeness, 65_536 + likeness, 1 << 31, u32::MAX]);
        }
        7 if !walk.is_empty() => {
            walk.remove(position);
        }
        // an iteration taken again, as often as its bound says
        _ => {
            let mut spans = Vec::new();
            for l in problem.loops.iter().filter(|l| l.bound <= 100) {
                let mut since: Option<usize> = None;
                for (at, &vertex) in walk.iter().enumerate() {
                    if vertex == l.header {
                        spans.extend(since.map(|start| (start, at, l.bound)));
                        since = Some(at);
                    } else if !l.holds(vertex) {
                        since = None;
                    }
                }
            }
            if !spans.is_empty() {
                let (start, end, bound) = *random.pick(&spans);
                let again = walk[start..end].repeat(bound as usize);
                walk.splice(start..start, again);
            }
        }
    }
    walk
}

/// Drops the choices that are not preferred, if some are.
fn prefer(choices: &mut Vec<u32>, preferred: impl Fn(u32) -> bool) {
    if choices.iter().any(|&v| preferred(v)) {
        choices.retain(|&v| preferred(v));
    }
}

/// For each number of steps below `most`, the vertices from which so many lead to the first visit to `goal`. Bounds play no part, and no vertex is
/// followed by itself.
fn steps_to(problem: &Problem, goal: u32, most: usize) -> Vec<Vec<bool>> {
    let mut exact = vec![vec![false; problem.vertices.len()]; most];
    exact[0][goal as usize] = true;
    for steps in 1..most {
        for edge in &problem.edges {
            if exact[steps - 1][edge.to as usize] && edge.from != goal && edge.from != edge.to {
                exact[steps][edge.from as usize] = true;
            }
        }
    }
    exact
}

/// Laps of an outermost loop, from its header back to it, so long that its visits do for a walk of some length.
struct Laps {
    length: usize,
    /// For each loop, its vertices by their steps to the header.
    to_header: Vec<Vec<Vec<bool>>>,
    /// The steps that are left of the present lap.
    left: usize,
}

impl Laps {
    fn new(problem: &Problem, length: usize, most: usize) -> Laps {
        Laps { length, to_header: problem.loops.iter().map(|l| steps_to(problem, l.header, most)).collect(), left: 0 }
    }

    /// Drops the choices with which the present lap is too short or too long, if some are not.
    fn keep(&mut self, random: &mut Random, walker: &Walker, choices: &mut Vec<u32>) {
        let Some(outermost) = walker.problem.loops.iter().position(|l| l.holds(walker.at())) else { return };
        let (l, to_header) = (walker.problem.loops[outermost], &self.to_header[outermost]);
        if walker.at() == l.header {
            let least = self.length / l.bound as usize + 1;
            self.left = random.count(least..=least + 50).min(to_header.len());
        }
        self.left = self.left.saturating_sub(1);
        prefer(choices, |v| to_header[self.left][v as usize]);
    }
}

/// A lawful walk of exactly `length` entries, if random steps find one. Towards its end it keeps to vertices from which the last one is
/// exactly so many steps away.
pub fn of_length(random: &mut Random, problem: &Problem, length: usize) -> Option<Vec<u32>> {
    let aim = 400.min(length);
    let to_last = steps_to(problem, problem.last_vertex(), aim);
    let mut laps = Laps::new(problem, length, aim);
    'tries: for _ in 0..5 {
        let mut walker = Walker::new(problem);
        while walker.walk.len() < length {
            let steps = length - walker.walk.len() - 1;
            let mut choices = walker.choices(usize::MAX);
            choices.retain(|&v| to_last[steps.min(aim - 1)][v as usize]);
            if steps >= aim {
                laps.keep(random, &walker, &mut choices);
            }
            if choices.is_empty() {
                continue 'tries;
            }
            let next = *random.pick(&choices);
            walker.enter(next);
        }
        return Some(walker.walk);
    }
    None
}
