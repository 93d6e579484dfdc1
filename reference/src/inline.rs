//! One problem from a drawing: refusals 18 to 20, and those of each graph by itself.

use std::ops::RangeInclusive;

use crate::drawing::*;
use crate::problem::*;
use crate::{file, graph};

/// Judges the numbers of a drawing: what they say if it can be inlined.
pub fn judge(numbers: &Numbers) -> Result<Drawing, Refusal> {
    let (scratchpad, count) = (numbers[0], numbers[1]);
    let in_range = |number: u32, range: RangeInclusive<u32>| range.contains(&number);
    if !in_range(scratchpad, 1..=MOST_SIZE) || !in_range(count, 1..=MOST_FUNCTIONS as u32) {
        return Err(Refusal::at(3, 0));
    }
    let mut functions = Vec::new();
    for (index, places) in numbers[2..].chunks(GRAPH).take(count as usize).enumerate() {
        let (drawn, counts) = graph_of(places, count);
        // placed by the function, whatever is wrong in it
        judge_graph(&drawn, counts).map_err(|refusal| Refusal::at(refusal.number, index))?;
        functions.push(drawn);
    }
    let drawing = Drawing { scratchpad, functions };
    let lowest_that = |number: u8, wrong: &dyn Fn(u32) -> bool| match (0..count).find(|&function| wrong(function)) {
        Some(function) => Err(Refusal::at(number, function as usize)),
        None => Ok(()),
    };
    lowest_that(20, &|function| last_calls(&drawing.functions[function as usize]))?;
    lowest_that(18, &|function| reaches_itself(&drawing, function))?;
    let [vertices, edges, loops] = true_counts(&drawing, 0, &mut vec![None; count as usize]);
    if vertices > MOST_VERTICES as u128 || edges > MOST_EDGES as u128 || loops > MOST_LOOPS as u128 {
        return Err(Refusal::at(19, 0));
    }
    Ok(drawing)
}

/// A graph by itself, in the order in which it would be written. Its vertices' functions are those that they call.
fn judge_graph(drawn: &DrawnFunction, counts: Counts) -> Result<(), Refusal> {
    let alone = drawn.alone(1);
    file::encode(&alone, counts)?;
    graph::check(&alone)
}

fn last_calls(drawn: &DrawnFunction) -> bool {
    drawn.callee_of(drawn.last_vertex()).is_some()
}

/// Whether a function is met again on going from callee to callee.
fn reaches_itself(drawing: &Drawing, function: u32) -> bool {
    let callees = |function: u32| drawing.functions[function as usize].vertices.iter().filter_map(|v| v.callee);
    let mut met = vec![false; drawing.functions.len()];
    let mut open: Vec<u32> = callees(function).collect();
    while let Some(callee) = open.pop() {
        if !std::mem::replace(&mut met[callee as usize], true) {
            open.extend(callees(callee));
        }
    }
    met[function as usize]
}

/// The numbers of vertices, edges and loops of a function inlined whole, where none reaches itself; `known` are those found so far. They
/// may pass every machine number, so they stop at the greatest `u128`: that is far above the limits, and adding keeps them there.
pub fn true_counts(drawing: &Drawing, function: u32, known: &mut Vec<Option<[u128; 3]>>) -> [u128; 3] {
    if let Some(counts) = known[function as usize] {
        return counts;
    }
    let drawn = &drawing.functions[function as usize];
    let mut counts = [drawn.vertices.len(), drawn.edges.len(), drawn.loops.len()].map(|count| count as u128);
    for callee in drawn.vertices.iter().filter_map(|v| v.callee) {
        let [vertices, edges, loops] = true_counts(drawing, callee, known);
        // the edge from the call to the copy is one more
        let more = [vertices, edges.saturating_add(1), loops];
        counts.iter_mut().zip(more).for_each(|(count, more)| *count = count.saturating_add(more));
    }
    known[function as usize] = Some(counts);
    counts
}

/// Vertices, edges and loops of the one problem, in the making.
#[derive(Default)]
struct Whole {
    vertices: Vec<Vertex>,
    edges: Vec<Edge>,
    loops: Vec<Loop>,
}

impl Whole {
    fn next_vertex(&self) -> u32 {
        self.vertices.len() as u32
    }

    /// A callee's copy behind what is there, its numbers moved.
    fn take_in(&mut self, copy: Whole) {
        let by = self.next_vertex();
        self.vertices.extend(copy.vertices);
        self.edges.extend(copy.edges.iter().map(|e| Edge { from: e.from + by, to: e.to + by }));
        self.loops.extend(copy.loops.iter().map(|l| Loop { header: l.header + by, last: l.last + by, bound: l.bound }));
    }
}

/// A function inlined whole, from vertex 0 on: each callee is inlined whole and moved behind its call vertex.
fn whole(drawing: &Drawing, function: u32) -> Whole {
    let drawn = &drawing.functions[function as usize];
    let mut whole = Whole::default();
    // of each drawn vertex: its own number, and the last of the copy that it brings with it
    let mut first = Vec::new();
    let mut last = Vec::new();
    for vertex in &drawn.vertices {
        let own = whole.next_vertex();
        whole.vertices.push(Vertex { function, cost: vertex.cost });
        if let Some(callee) = vertex.callee {
            whole.edges.push(Edge { from: own, to: own + 1 });
            whole.take_in(self::whole(drawing, callee));
        }
        first.push(own);
        last.push(whole.next_vertex() - 1);
    }
    whole.edges.extend(drawn.edges.iter().map(|e| Edge { from: last[e.from as usize], to: first[e.to as usize] }));
    let around = |l: &Loop| Loop { header: first[l.header as usize], last: last[l.last as usize], bound: l.bound };
    whole.loops.extend(drawn.loops.iter().map(around));
    whole
}

fn problem_of(drawing: &Drawing, mut whole: Whole) -> Problem {
    whole.edges.sort_unstable();
    whole.loops.sort_by_key(|l| l.header);
    Problem {
        scratchpad: drawing.scratchpad,
        functions: drawing.functions.iter().map(|drawn| drawn.function).collect(),
        vertices: whole.vertices,
        edges: whole.edges,
        loops: whole.loops,
    }
}

/// The one problem of a drawing that passed [`judge`].
pub fn recursively(drawing: &Drawing) -> Problem {
    problem_of(drawing, whole(drawing, 0))
}

/// As [`recursively`], from function 0's graph on, one call at a time: the callee's graph, just as it is drawn, is put in behind the lowest
/// call vertex whose call still stands, and everything behind it is moved up.
pub fn by_splicing(drawing: &Drawing) -> Problem {
    let labelled = |function: u32| {
        let drawn = &drawing.functions[function as usize];
        drawn.vertices.iter().map(move |v| (Vertex { function, cost: v.cost }, v.callee))
    };
    let DrawnFunction { mut edges, mut loops, .. } = drawing.functions[0].clone();
    let mut vertices: Vec<(Vertex, Option<u32>)> = labelled(0).collect();
    while let Some(at) = vertices.iter().position(|(_, callee)| callee.is_some()) {
        let callee = vertices[at].1.take().expect("it was found there");
        let drawn = &drawing.functions[callee as usize];
        let (call, more) = (at as u32, drawn.vertices.len() as u32);
        let up = |vertex: u32| if vertex > call { vertex + more } else { vertex };
        // what left the call vertex leaves the copy's last one, and a range that ends at it ends there
        let end = |vertex: u32| if vertex == call { call + more } else { up(vertex) };
        edges.iter_mut().for_each(|e| *e = Edge { from: end(e.from), to: up(e.to) });
        loops.iter_mut().for_each(|l| *l = Loop { header: up(l.header), last: end(l.last), ..*l });
        let first = call + 1;
        edges.push(Edge { from: call, to: first });
        edges.extend(drawn.edges.iter().map(|e| Edge { from: first + e.from, to: first + e.to }));
        loops.extend(drawn.loops.iter().map(|l| Loop { header: first + l.header, last: first + l.last, ..*l }));
        vertices.splice(at + 1..at + 1, labelled(callee));
    }
    problem_of(drawing, Whole { vertices: vertices.into_iter().map(|(vertex, _)| vertex).collect(), edges, loops })
}
