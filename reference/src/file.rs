//! The problem file: refusals 1 to 5 in reading, 3 and 4 in writing. Numbers may be padded in reading; what is written is the shortest file.
//! Edition 2 has each function's check cost behind its load cost. Edition 1 has none: they are zero.

use std::ops::RangeInclusive;

use crate::problem::*;

/// The most bytes that a number may have.
pub const MOST_BYTES: usize = 5;

/// The editions that are read.
pub const EDITIONS: RangeInclusive<u32> = 1..=2;

/// The longest file that is written, which has every number at its greatest. A size, a load cost or an own cost takes four bytes, a check cost
/// three, a loop's bound and the counts of vertices and edges two, and any other number one.
pub const LONGEST: usize = 1 + 4 + (1 + 11 * MOST_FUNCTIONS) + (2 + 5 * MOST_VERTICES) + (2 + 2 * MOST_EDGES) + (1 + 4 * MOST_LOOPS);

/// A place in a file that is being read.
struct Cursor<'a> {
    file: &'a [u8],
    at: usize,
}

impl Cursor<'_> {
    /// The next number, padded or not, which must lie in `range`.
    fn number(&mut self, range: RangeInclusive<u32>) -> Result<u32, Refusal> {
        let start = self.at;
        let mut value = 0;
        for group in 0..MOST_BYTES {
            let Some(&byte) = self.file.get(start + group) else {
                return Err(Refusal::at(1, self.file.len()));
            };
            if group == MOST_BYTES - 1 && byte > 0x0F {
                return Err(Refusal::at(2, start));
            }
            value |= u32::from(byte & 0x7F) << (7 * group);
            if byte & 0x80 == 0 {
                self.at = start + group + 1;
                break;
            }
        }
        if range.contains(&value) {
            Ok(value)
        } else {
            Err(Refusal::at(3, start))
        }
    }
}

/// The problem that the fields of a file spell, before its graph is judged.
pub fn parse(file: &[u8]) -> Result<Problem, Refusal> {
    let mut cursor = Cursor { file, at: 0 };
    let edition = cursor.number(EDITIONS)?;
    let scratchpad = cursor.number(1..=MOST_SIZE)?;

    let mut functions = Vec::new();
    for _ in 0..cursor.number(1..=MOST_FUNCTIONS as u32)? {
        let size = cursor.number(1..=MOST_SIZE)?;
        let load = cursor.number(0..=MOST_SIZE)?;
        let check = if edition == 1 { 0 } else { cursor.number(0..=MOST_CHECK)? };
        functions.push(Function { size, load, check });
    }

    let mut vertices = Vec::new();
    for _ in 0..cursor.number(1..=MOST_VERTICES as u32)? {
        let function = cursor.number(0..=functions.len() as u32 - 1)?;
        let cost = cursor.number(0..=MOST_SIZE)?;
        vertices.push(Vertex { function, cost });
    }
    let last_vertex = vertices.len() as u32 - 1;

    let mut edges: Vec<Edge> = Vec::new();
    for _ in 0..cursor.number(0..=MOST_EDGES as u32)? {
        let start = cursor.at;
        let from = cursor.number(0..=last_vertex)?;
        let to = cursor.number(0..=last_vertex)?;
        let edge = Edge { from, to };
        if edges.last().is_some_and(|before| *before >= edge) {
            return Err(Refusal::at(4, start));
        }
        edges.push(edge);
    }

    let mut loops: Vec<Loop> = Vec::new();
    for _ in 0..cursor.number(0..=MOST_LOOPS as u32)? {
        let start = cursor.at;
        let header = cursor.number(0..=last_vertex)?;
        let last = cursor.number(header..=last_vertex)?;
        let bound = cursor.number(1..=MOST_VISITS)?;
        if loops.last().is_some_and(|before| before.header >= header) {
            return Err(Refusal::at(4, start));
        }
        loops.push(Loop { header, last, bound });
    }

    if cursor.at < file.len() {
        return Err(Refusal::at(5, cursor.at));
    }
    Ok(Problem { scratchpad, functions, vertices, edges, loops })
}

/// One number in as few bytes as it needs.
pub fn spell(value: u32) -> Vec<u8> {
    let mut bytes = Vec::new();
    let mut rest = value;
    while rest >= 0x80 {
        bytes.push(rest as u8 | 0x80);
        rest >>= 7;
    }
    bytes.push(rest as u8);
    bytes
}

/// One number in so many bytes, where it needs fewer: padded with groups of zero. In more than [`MOST_BYTES`] it is misspelt.
pub fn spell_in(value: u32, bytes: usize) -> Vec<u8> {
    let mut padded = spell(value);
    while padded.len() < bytes {
        *padded.last_mut().expect("no number is empty") |= 0x80;
        padded.push(0);
    }
    padded
}

/// A file that is being written.
struct Pen(Vec<u8>);

impl Pen {
    fn number(&mut self, value: u32, range: RangeInclusive<u32>) -> Result<(), Refusal> {
        if !range.contains(&value) {
            return Err(Refusal::at(3, self.0.len()));
        }
        self.0.extend(spell(value));
        Ok(())
    }
}

/// The file of a problem, its graph not judged. `counts` are those that the record states; a list is as long as its count
/// wherever the count is in range.
pub fn encode(problem: &Problem, counts: Counts) -> Result<Vec<u8>, Refusal> {
    let mut pen = Pen(Vec::new());
    let edition = problem.edition();
    pen.number(edition, EDITIONS)?;
    pen.number(problem.scratchpad, 1..=MOST_SIZE)?;

    pen.number(counts.functions, 1..=MOST_FUNCTIONS as u32)?;
    for function in &problem.functions {
        pen.number(function.size, 1..=MOST_SIZE)?;
        pen.number(function.load, 0..=MOST_SIZE)?;
        if edition > 1 {
            pen.number(function.check, 0..=MOST_CHECK)?;
        }
    }

    pen.number(counts.vertices, 1..=MOST_VERTICES as u32)?;
    for vertex in &problem.vertices {
        pen.number(vertex.function, 0..=counts.functions - 1)?;
        pen.number(vertex.cost, 0..=MOST_SIZE)?;
    }

    pen.number(counts.edges, 0..=MOST_EDGES as u32)?;
    for (index, edge) in problem.edges.iter().enumerate() {
        let start = pen.0.len();
        pen.number(edge.from, 0..=counts.vertices - 1)?;
        pen.number(edge.to, 0..=counts.vertices - 1)?;
        if index > 0 && problem.edges[index - 1] >= *edge {
            return Err(Refusal::at(4, start));
        }
    }

    pen.number(counts.loops, 0..=MOST_LOOPS as u32)?;
    for (index, l) in problem.loops.iter().enumerate() {
        let start = pen.0.len();
        pen.number(l.header, 0..=counts.vertices - 1)?;
        pen.number(l.last, l.header..=counts.vertices - 1)?;
        pen.number(l.bound, 1..=MOST_VISITS)?;
        if index > 0 && problem.loops[index - 1].header >= l.header {
            return Err(Refusal::at(4, start));
        }
    }
    Ok(pen.0)
}
