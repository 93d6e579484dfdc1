//! Eviction: searches backwards from the vertex, level by level, a level being one word of vertices for each phase.
//!
//! One search that goes past no vertex of the vertex's own function says who interferes and whether vertex 0 is reached, so whether the
//! vertex can be come to fresh; then its levels lead there. For a function that interferes the levels are of both phases. Either way the
//! walk goes from vertex 0 down the levels, along the first edge each time.

use super::{edges_out, judge_layout, read, Flat};
use crate::eviction::{Eviction, Reason};
use crate::problem::{Refusal, MOST_FUNCTIONS, MOST_VERTICES, REGIONS};

/// The vertices of a level in either phase: in phase 1 the walk is to arrive as it should if nothing more happens.
type Level = [u128; 2];

/// Eviction.
pub fn eviction(file: &[u8], layout: &[u8], vertex: u64, walk: &mut [u32]) -> Result<Eviction, Refusal> {
    let flat = read(file)?;
    let (region, members, _) = judge_layout(&flat, layout)?;
    if vertex >= flat.vertices as u64 {
        return Err(Refusal { number: 21, place: vertex });
    }
    let vertex = vertex as usize;
    let own = usize::from(flat.function[vertex]) % MOST_FUNCTIONS;
    let rivals = members[usize::from(region[own]) % REGIONS] & !(1 << own);
    let mut search = Search::to(&flat, vertex, own);
    let (interfering, fresh) = search.fresh();
    let (reason, depth) = match (interfering & rivals, fresh) {
        (0, None) => return Ok(Eviction { reason: Reason::Never, count: 0 }),
        (0, Some(depth)) => (Reason::FirstLoad, depth),
        (both, _) => (Reason::EveryVisit(both.trailing_zeros()), search.evicted(both.trailing_zeros() as usize)),
    };
    let count = depth + 1;
    let Some(room) = walk.get_mut(..count) else {
        return Err(Refusal::at(10, count));
    };
    search.descend(room, usize::from(reason == Reason::FirstLoad));
    Ok(Eviction { reason, count })
}

struct Search<'a> {
    flat: &'a Flat,
    /// The starts of the edges into each vertex.
    before: [u128; MOST_VERTICES],
    /// The vertices of the function that ends phase 1, and of the one that begins it.
    ends: u128,
    begins: u128,
    /// By steps to the vertex searched for.
    levels: [Level; 2 * MOST_VERTICES],
}

impl Search<'_> {
    fn to(flat: &Flat, vertex: usize, own: usize) -> Search<'_> {
        let mut search =
            Search { flat, before: [0; MOST_VERTICES], ends: vertices_of(flat, own), begins: 0, levels: [[0; 2]; 2 * MOST_VERTICES] };
        for &(from, to) in &flat.edge[..flat.edges] {
            search.before[usize::from(to) % MOST_VERTICES] |= 1 << from;
        }
        search.levels[0][1] = 1 << vertex;
        search
    }

    /// The vertices with an edge to one of these.
    #[inline(always)]
    fn before(&self, vertices: u128) -> u128 {
        let mut starts = 0;
        let mut rest = vertices;
        while rest != 0 {
            starts |= self.before[rest.trailing_zeros() as usize];
            rest &= rest - 1;
        }
        starts
    }

    /// The functions on ways to the vertex that pass no vertex of its own function, and the fewest steps of one that starts at vertex 0.
    fn fresh(&mut self) -> (u32, Option<usize>) {
        let mut reached = 0;
        let mut steps = 0;
        let mut from_first = None;
        let mut front = self.levels[0][1];
        while front != 0 {
            if front & 1 == 1 {
                from_first = Some(steps);
            }
            front = self.before(front) & !(self.ends | reached);
            reached |= front;
            steps += 1;
            self.levels[steps] = [0, front];
        }
        let mut functions = 0;
        while reached != 0 {
            functions |= 1 << self.flat.function[reached.trailing_zeros() as usize];
            reached &= reached - 1;
        }
        (functions, from_first)
    }

    /// The fewest steps of a walk that arrives with a function visited since the latest visit to the vertex's own: there is one.
    fn evicted(&mut self, rival: usize) -> usize {
        self.begins = vertices_of(self.flat, rival);
        let mut reached = self.levels[0];
        let mut front = reached;
        let mut steps = 0;
        while front[0] & 1 == 0 {
            let [to_0, to_1] = front.map(|vertices| self.before(vertices));
            let start_0 = to_0 & !self.begins | to_1 & self.begins;
            let start_1 = to_1 & !self.ends | to_0 & self.ends;
            front = [start_0 & !reached[0], start_1 & !reached[1]];
            reached = [reached[0] | front[0], reached[1] | front[1]];
            steps += 1;
            self.levels[steps] = front;
        }
        steps
    }

    /// Fills the walk that starts at vertex 0 in a phase: the lowest vertex of each level that an edge leads to.
    fn descend(&self, walk: &mut [u32], begun: usize) {
        let starts = edges_out(self.flat);
        let (mut at, mut phase) = (0, begun);
        let levels = self.levels[..walk.len() - 1].iter().rev();
        walk[0] = 0;
        for (entry, level) in walk[1..].iter_mut().zip(levels) {
            if self.ends >> at & 1 == 1 {
                phase = 0;
            } else if self.begins >> at & 1 == 1 {
                phase = 1;
            }
            let edges = &self.flat.edge[usize::from(starts[at])..usize::from(starts[at + 1])];
            let first = edges.iter().find(|&&(_, to)| level[phase] >> to & 1 == 1);
            at = first.map_or(0, |&(_, to)| usize::from(to)) % MOST_VERTICES;
            *entry = at as u32;
        }
    }
}

fn vertices_of(flat: &Flat, function: usize) -> u128 {
    let functions = flat.function[..flat.vertices].iter().enumerate();
    functions.fold(0, |vertices, (vertex, &of)| vertices | u128::from(usize::from(of) == function) << vertex)
}
