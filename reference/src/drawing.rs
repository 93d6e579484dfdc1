//! Drawn programs: a graph for each function, whose vertices may call other functions.

use crate::problem::*;

/// The places of a graph: size, load cost and check cost, and each count followed by all the places for its items.
pub const GRAPH: usize = 3 + (1 + 2 * MOST_VERTICES) + (1 + 2 * MOST_EDGES) + (1 + 3 * MOST_LOOPS);
/// The places of a drawing: the scratchpad size, the number of functions, and a graph for each function that there may be.
pub const DRAWING: usize = 2 + MOST_FUNCTIONS * GRAPH;
/// Among a drawing's numbers: the vertex calls nothing.
pub const NO_CALLEE: u32 = 255;

/// The numbers of a drawing.
pub type Numbers = [u32; DRAWING];

/// A vertex of a function's graph.
#[derive(Clone, Copy, Debug, PartialEq, Eq)]
pub struct DrawnVertex {
    /// The function that it calls.
    pub callee: Option<u32>,
    /// Its own cost, in cycles.
    pub cost: u32,
}

/// A function, with its graph.
#[derive(Clone, Debug, PartialEq, Eq)]
pub struct DrawnFunction {
    /// Its size, load cost and check cost.
    pub function: Function,
    /// The vertices, by index.
    pub vertices: Vec<DrawnVertex>,
    /// The edges.
    pub edges: Vec<Edge>,
    /// The loops.
    pub loops: Vec<Loop>,
}

/// A drawing, lawful or not.
#[derive(Clone, Debug, PartialEq, Eq)]
pub struct Drawing {
    /// The scratchpad size in bytes.
    pub scratchpad: u32,
    /// The functions, by index.
    pub functions: Vec<DrawnFunction>,
}

impl DrawnFunction {
    /// The highest vertex.
    pub fn last_vertex(&self) -> u32 {
        self.vertices.len() as u32 - 1
    }

    /// The function that a vertex calls.
    pub fn callee_of(&self, vertex: u32) -> Option<u32> {
        self.vertices[vertex as usize].callee
    }

    /// The graph by itself, as a problem of one function.
    pub fn alone(&self, scratchpad: u32) -> Problem {
        Problem {
            scratchpad,
            functions: vec![self.function],
            vertices: self.vertices.iter().map(|v| Vertex { function: v.callee.unwrap_or(0), cost: v.cost }).collect(),
            edges: self.edges.clone(),
            loops: self.loops.clone(),
        }
    }

    /// The numbers of a graph, every spare place zero. A count is as it is, even where items have no place.
    fn to_numbers(&self) -> Vec<u32> {
        let mut numbers = vec![self.function.size, self.function.load, self.function.check];
        let mut list = |count: usize, items: Vec<u32>, places: usize| {
            let end = numbers.len() + 1 + places;
            numbers.push(count as u32);
            numbers.extend(items);
            numbers.resize(end, 0);
        };
        let callee = |v: &DrawnVertex| v.callee.unwrap_or(NO_CALLEE);
        list(self.vertices.len(), self.vertices.iter().flat_map(|v| [callee(v), v.cost]).collect(), 2 * MOST_VERTICES);
        list(self.edges.len(), self.edges.iter().flat_map(|e| [e.from, e.to]).collect(), 2 * MOST_EDGES);
        list(self.loops.len(), self.loops.iter().flat_map(|l| [l.header, l.last, l.bound]).collect(), 3 * MOST_LOOPS);
        numbers
    }
}

impl Drawing {
    /// Its numbers, every spare place zero. A count is as it is, even where items have no place.
    pub fn to_numbers(&self) -> Box<Numbers> {
        let mut numbers = vec![self.scratchpad, self.functions.len() as u32];
        numbers.extend(self.functions.iter().take(MOST_FUNCTIONS).flat_map(DrawnFunction::to_numbers));
        numbers.resize(DRAWING, 0);
        numbers.try_into().expect("so many")
    }
}

/// What the numbers of a graph say: its counts as they stand, and the items that they cover as far as there are places.
pub fn graph_of(numbers: &[u32], functions: u32) -> (DrawnFunction, Counts) {
    let (amounts, rest) = numbers.split_at(3);
    let (vertices, rest) = rest.split_at(1 + 2 * MOST_VERTICES);
    let (edges, loops) = rest.split_at(1 + 2 * MOST_EDGES);
    let items =
        |list: &[u32], width: usize| -> Vec<Vec<u32>> { list[1..].chunks(width).take(list[0] as usize).map(<[u32]>::to_vec).collect() };
    let callee = |number: u32| (number != NO_CALLEE).then_some(number);
    let drawn = DrawnFunction {
        function: Function { size: amounts[0], load: amounts[1], check: amounts[2] },
        vertices: items(vertices, 2).iter().map(|v| DrawnVertex { callee: callee(v[0]), cost: v[1] }).collect(),
        edges: items(edges, 2).iter().map(|e| Edge { from: e[0], to: e[1] }).collect(),
        loops: items(loops, 3).iter().map(|l| Loop { header: l[0], last: l[1], bound: l[2] }).collect(),
    };
    (drawn, Counts { functions, vertices: vertices[0], edges: edges[0], loops: loops[0] })
}
