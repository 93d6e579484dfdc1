//! Problems, refusals, and the greatest values of the field table.

use std::fmt;

/// The greatest number of functions.
pub const MOST_FUNCTIONS: usize = 32;
/// The greatest number of vertices.
pub const MOST_VERTICES: usize = 128;
/// The greatest number of edges.
pub const MOST_EDGES: usize = 512;
/// The greatest number of loops.
pub const MOST_LOOPS: usize = 32;
/// The greatest scratchpad size, function size, load cost and own cost.
pub const MOST_SIZE: u32 = 16_777_215;
/// The greatest check cost.
pub const MOST_CHECK: u32 = 65_535;
/// The greatest bound of a loop.
pub const MOST_VISITS: u32 = 4_096;
/// Regions are 0 to 31.
pub const REGIONS: usize = 32;
/// The greatest bound that the operation Bound gives.
pub const MOST_BOUND: u64 = 1_000_000_000_000_000_000;
/// The greatest length of a walk that Run takes.
pub const MOST_ENTRIES: usize = 1_000_000;
/// No walk that Eviction shows has more entries.
pub const MOST_SHOWN: usize = 256;

/// The places of a record: the scratchpad size, and each count followed by all the places for its items.
pub const FIELDS: usize = 1 + (1 + 3 * MOST_FUNCTIONS) + (1 + 2 * MOST_VERTICES) + (1 + 2 * MOST_EDGES) + (1 + 3 * MOST_LOOPS);

/// A refusal: its number, and the place.
#[derive(Clone, Copy, Debug, PartialEq, Eq, Hash)]
pub struct Refusal {
    /// 1 to 22.
    pub number: u8,
    /// What the place means depends on the number.
    pub place: u64,
}

impl Refusal {
    pub(crate) fn at(number: u8, place: usize) -> Refusal {
        Refusal { number, place: place as u64 }
    }
}

impl fmt::Display for Refusal {
    fn fmt(&self, f: &mut fmt::Formatter<'_>) -> fmt::Result {
        write!(f, "refused {} at {}", self.number, self.place)
    }
}

impl std::error::Error for Refusal {}

/// A function: its size in bytes, and what loading it and looking whether it is loaded cost in cycles.
#[derive(Clone, Copy, Debug, PartialEq, Eq)]
pub struct Function {
    /// Bytes.
    pub size: u32,
    /// Cycles.
    pub load: u32,
    /// Cycles.
    pub check: u32,
}

/// A vertex: the function that its code belongs to, and its own cost in cycles.
#[derive(Clone, Copy, Debug, PartialEq, Eq)]
pub struct Vertex {
    /// Index of the function.
    pub function: u32,
    /// Cycles.
    pub cost: u32,
}

/// An edge of the graph. Edges compare by (from, to).
#[derive(Clone, Copy, Debug, PartialEq, Eq, PartialOrd, Ord, Hash)]
pub struct Edge {
    /// Where it starts.
    pub from: u32,
    /// Where it ends.
    pub to: u32,
}

/// A loop: its range is `header` to `last`, both counted; no stay may visit the header more often than `bound`.
#[derive(Clone, Copy, Debug, PartialEq, Eq)]
pub struct Loop {
    /// The lowest vertex of the range, where it is entered.
    pub header: u32,
    /// The highest vertex of the range.
    pub last: u32,
    /// The most visits to the header in one stay.
    pub bound: u32,
}

impl Loop {
    /// Whether the range holds a vertex.
    pub fn holds(&self, vertex: u32) -> bool {
        (self.header..=self.last).contains(&vertex)
    }
}

/// The numbers of items.
#[derive(Clone, Copy, Debug, PartialEq, Eq)]
pub struct Counts {
    /// Functions.
    pub functions: u32,
    /// Vertices.
    pub vertices: u32,
    /// Edges.
    pub edges: u32,
    /// Loops.
    pub loops: u32,
}

/// A problem, lawful or not.
#[derive(Clone, Debug, PartialEq, Eq)]
pub struct Problem {
    /// The scratchpad size in bytes.
    pub scratchpad: u32,
    /// The functions, by index.
    pub functions: Vec<Function>,
    /// The vertices, by index.
    pub vertices: Vec<Vertex>,
    /// The edges.
    pub edges: Vec<Edge>,
    /// The loops.
    pub loops: Vec<Loop>,
}

impl Problem {
    /// The numbers of items.
    pub fn counts(&self) -> Counts {
        Counts {
            functions: self.functions.len() as u32,
            vertices: self.vertices.len() as u32,
            edges: self.edges.len() as u32,
            loops: self.loops.len() as u32,
        }
    }

    /// The edition that is written: 1 has no check costs, so it is written where all are zero.
    pub fn edition(&self) -> u32 {
        if self.functions.iter().all(|function| function.check == 0) {
            1
        } else {
            2
        }
    }

    /// The function of a vertex.
    pub fn function_of(&self, vertex: u32) -> u32 {
        self.vertices[vertex as usize].function
    }

    /// The highest vertex.
    pub fn last_vertex(&self) -> u32 {
        self.vertices.len() as u32 - 1
    }

    /// For each vertex, the ends of its edges out, ascending where the edges ascend.
    pub fn successors(&self) -> Vec<Vec<u32>> {
        let mut successors = vec![Vec::new(); self.vertices.len()];
        for edge in &self.edges {
            successors[edge.from as usize].push(edge.to);
        }
        successors
    }

    /// For each vertex, the starts of its edges in.
    pub fn predecessors(&self) -> Vec<Vec<u32>> {
        let mut predecessors = vec![Vec::new(); self.vertices.len()];
        for edge in &self.edges {
            predecessors[edge.to as usize].push(edge.from);
        }
        predecessors
    }

    /// The record of a problem whose counts fit, every spare place zero.
    pub fn to_fields(&self) -> [u32; FIELDS] {
        let mut fields = [0; FIELDS];
        let mut at = 0;
        let mut part = |numbers: &[u32], places: usize| {
            fields[at..at + numbers.len()].copy_from_slice(numbers);
            at += places;
        };
        let counts = self.counts();
        part(&[self.scratchpad], 1);
        part(&[counts.functions], 1);
        part(&self.functions.iter().flat_map(|f| [f.size, f.load, f.check]).collect::<Vec<_>>(), 3 * MOST_FUNCTIONS);
        part(&[counts.vertices], 1);
        part(&self.vertices.iter().flat_map(|v| [v.function, v.cost]).collect::<Vec<_>>(), 2 * MOST_VERTICES);
        part(&[counts.edges], 1);
        part(&self.edges.iter().flat_map(|e| [e.from, e.to]).collect::<Vec<_>>(), 2 * MOST_EDGES);
        part(&[counts.loops], 1);
        part(&self.loops.iter().flat_map(|l| [l.header, l.last, l.bound]).collect::<Vec<_>>(), 3 * MOST_LOOPS);
        fields
    }
}

/// What a record says: its counts as they stand, and the items that they cover as far as there are places.
pub fn from_fields(fields: &[u32; FIELDS]) -> (Problem, Counts) {
    let mut rest: &[u32] = fields;
    let mut take = |places: usize| {
        let (part, behind) = rest.split_at(places);
        rest = behind;
        part
    };
    let scratchpad = take(1)[0];
    let functions = take(1)[0];
    let function_places = take(3 * MOST_FUNCTIONS);
    let vertices = take(1)[0];
    let vertex_places = take(2 * MOST_VERTICES);
    let edges = take(1)[0];
    let edge_places = take(2 * MOST_EDGES);
    let loops = take(1)[0];
    let loop_places = take(3 * MOST_LOOPS);
    let problem = Problem {
        scratchpad,
        functions: function_places.chunks(3).take(functions as usize).map(|f| Function { size: f[0], load: f[1], check: f[2] }).collect(),
        vertices: vertex_places.chunks(2).take(vertices as usize).map(|v| Vertex { function: v[0], cost: v[1] }).collect(),
        edges: edge_places.chunks(2).take(edges as usize).map(|e| Edge { from: e[0], to: e[1] }).collect(),
        loops: loop_places.chunks(3).take(loops as usize).map(|l| Loop { header: l[0], last: l[1], bound: l[2] }).collect(),
    };
    (problem, Counts { functions, vertices, edges, loops })
}
