//! Inline, quickly.
//!
//! - A graph is judged in the tables of [`Flat`], by the same rules as a file's.
//! - Callees first, each function's vertex, edge and loop counts are found once, and where each of its vertices stands in a copy.
//! - The rows of the result are followed once with a stack of copies, each with its place in the lists of its graph: so vertices, edges
//!   and loops come out in the order of the file.

use super::{below, judge_edges, nest, Flat};
use crate::drawing::{Numbers, GRAPH, NO_CALLEE};
use crate::file::LONGEST;
use crate::problem::{Refusal, MOST_CHECK, MOST_EDGES, MOST_FUNCTIONS, MOST_LOOPS, MOST_SIZE, MOST_VERTICES, MOST_VISITS};

/// Where the function's own numbers stand in a graph.
const SIZE: usize = 0;
const LOAD: usize = 1;
const CHECK: usize = 2;
/// Where the lists of a graph begin among its numbers, each behind its count.
const VERTICES: usize = CHECK + 2;
const EDGES: usize = VERTICES + 2 * MOST_VERTICES + 1;
const LOOPS: usize = EDGES + 2 * MOST_EDGES + 1;

/// The numbers of a graph.
#[derive(Clone, Copy)]
struct Graph<'a>(&'a [u32]);

impl<'a> Graph<'a> {
    fn of(numbers: &'a Numbers, function: usize) -> Graph<'a> {
        Graph(&numbers[2 + function * GRAPH..][..GRAPH])
    }

    /// The callee and the own cost of each vertex.
    fn vertices(self) -> impl Iterator<Item = (u32, u32)> + 'a {
        self.0[VERTICES..EDGES - 1].chunks_exact(2).take(self.0[VERTICES - 1] as usize).map(|v| (v[0], v[1]))
    }

    fn edges(self) -> &'a [u32] {
        &self.0[EDGES..][..2 * self.0[EDGES - 1] as usize]
    }

    fn loops(self) -> &'a [u32] {
        &self.0[LOOPS..][..3 * self.0[LOOPS - 1] as usize]
    }
}

/// Whether a number lies in a range.
#[inline(always)]
fn within(number: u32, least: u32, greatest: u32) -> bool {
    number.wrapping_sub(least) <= greatest - least
}

/// Judges a graph by itself: the functions that it calls, a bit for each, or the number of the refusal.
fn judge(graph: Graph, functions: u32, flat: &mut Flat) -> Result<u32, u8> {
    let counts = [graph.0[VERTICES - 1], graph.0[EDGES - 1], graph.0[LOOPS - 1]];
    let fits = |fits: bool, number: u8| if fits { Ok(()) } else { Err(number) };
    fits(within(graph.0[SIZE], 1, MOST_SIZE) && graph.0[LOAD] <= MOST_SIZE && graph.0[CHECK] <= MOST_CHECK, 3)?;
    fits(within(counts[0], 1, MOST_VERTICES as u32), 3)?;
    flat.vertices = counts[0] as usize;
    let last_vertex = counts[0] - 1;
    let mut called = 0u32;
    for (callee, cost) in graph.vertices() {
        fits((callee < functions || callee == NO_CALLEE) && cost <= MOST_SIZE, 3)?;
        called |= u32::from(callee != NO_CALLEE) << (callee % 32);
    }

    fits(counts[1] <= MOST_EDGES as u32, 3)?;
    flat.edges = counts[1] as usize;
    let mut lowest_next = 0;
    let mut has_lower = 1u128;
    let mut has_way_out = 1u128 << last_vertex;
    for (edge, drawn) in flat.edge.iter_mut().zip(graph.edges().chunks_exact(2)) {
        let (from, to) = (drawn[0], drawn[1]);
        fits(from <= last_vertex && to <= last_vertex, 3)?;
        let key = from << 8 | to;
        fits(key >= lowest_next, 4)?;
        lowest_next = key + 1;
        has_lower |= u128::from(from < to) << to;
        has_way_out |= 1 << from;
        *edge = (from as u8, to as u8);
    }

    fits(counts[2] <= MOST_LOOPS as u32, 3)?;
    flat.loops = counts[2] as usize;
    lowest_next = 0;
    for (looped, drawn) in flat.looped.iter_mut().zip(graph.loops().chunks_exact(3)) {
        let (header, last, bound) = (drawn[0], drawn[1], drawn[2]);
        fits(header <= last_vertex && within(last, header, last_vertex) && within(bound, 1, MOST_VISITS), 3)?;
        fits(header >= lowest_next, 4)?;
        lowest_next = header + 1;
        *looped = (header as u8, last as u8, bound);
    }
    fits(below(flat.vertices) & !(has_lower & has_way_out) == 0, 6)?;
    flat.headed = [0; MOST_VERTICES];
    nest(flat).and_then(|()| judge_edges(flat)).map_err(|refusal| refusal.number)?;
    Ok(called)
}

/// The lowest function that reaches itself is refused; else the functions, each behind those that it calls.
fn callees_first(called: &[u32]) -> Result<[u8; MOST_FUNCTIONS], Refusal> {
    let mut order = [0; MOST_FUNCTIONS];
    let mut taken = 0u32;
    for place in order.iter_mut().take(called.len()) {
        let ready = |&function: &usize| taken >> function & 1 == 0 && called[function] & !taken == 0;
        let Some(function) = (0..called.len()).rev().find(ready) else {
            return Err(Refusal::at(18, lowest_on_a_circle(called)));
        };
        taken |= 1 << function;
        *place = function as u8;
    }
    Ok(order)
}

fn lowest_on_a_circle(called: &[u32]) -> usize {
    let mut reached = [0u32; MOST_FUNCTIONS];
    reached[..called.len()].copy_from_slice(called);
    for by in 0..called.len() {
        for from in 0..called.len() {
            if reached[from] >> by & 1 == 1 {
                reached[from] |= reached[by];
            }
        }
    }
    (0..called.len()).find(|&function| reached[function] >> function & 1 == 1).expect("there is one")
}

/// A function inlined whole. Counts stop one past their limits.
#[derive(Clone, Copy)]
struct Size {
    vertices: u32,
    edges: u32,
    loops: u32,
    /// Where each vertex of the graph stands in a copy, and where the copy ends.
    at: [u8; MOST_VERTICES + 1],
}

fn size(graph: Graph, sizes: &[Size; MOST_FUNCTIONS]) -> Size {
    let mut size = Size { vertices: 0, edges: graph.0[EDGES - 1], loops: graph.0[LOOPS - 1], at: [0; MOST_VERTICES + 1] };
    for ((callee, _), at) in graph.vertices().zip(&mut size.at) {
        *at = size.vertices as u8;
        size.vertices += 1;
        if callee != NO_CALLEE {
            let callee = &sizes[callee as usize % MOST_FUNCTIONS];
            size.vertices += callee.vertices;
            size.edges = (size.edges + callee.edges + 1).min(MOST_EDGES as u32 + 1);
            size.loops = (size.loops + callee.loops).min(MOST_LOOPS as u32 + 1);
        }
        size.vertices = size.vertices.min(MOST_VERTICES as u32 + 1);
    }
    size.at[graph.0[VERTICES - 1] as usize] = size.vertices as u8;
    size
}

/// A file in the making.
struct Pen {
    bytes: [u8; LONGEST],
    at: usize,
}

impl Pen {
    #[inline(always)]
    fn number(&mut self, mut value: u32) {
        while value >= 0x80 {
            self.bytes[self.at] = value as u8 | 0x80;
            self.at += 1;
            value >>= 7;
        }
        self.bytes[self.at] = value as u8;
        self.at += 1;
    }

    /// What stands before the vertices. Check costs are written where one of them is not zero.
    fn head(&mut self, numbers: &Numbers, functions: usize) {
        let graphs = || (0..functions).map(|function| Graph::of(numbers, function));
        let checks = graphs().any(|graph| graph.0[CHECK] > 0);
        self.number(1 + u32::from(checks));
        self.number(numbers[0]);
        self.number(functions as u32);
        for graph in graphs() {
            self.number(graph.0[SIZE]);
            self.number(graph.0[LOAD]);
            if checks {
                self.number(graph.0[CHECK]);
            }
        }
    }
}

/// A copy of a function that is being followed.
#[derive(Clone, Copy)]
struct Copy<'a> {
    graph: Graph<'a>,
    at: &'a [u8; MOST_VERTICES + 1],
    first: u32,
    vertex: u32,
    /// The drawn edges and loops from the present vertex on.
    edges: &'a [u32],
    loops: &'a [u32],
}

/// The edges and loops of the result, in the making.
struct Rows {
    edges: [(u8, u8); MOST_EDGES],
    edge_count: usize,
    loops: [(u8, u8, u32); MOST_LOOPS],
    loop_count: usize,
}

impl Rows {
    #[inline(always)]
    fn edge(&mut self, from: u32, to: u32) {
        self.edges[self.edge_count % MOST_EDGES] = (from as u8, to as u8);
        self.edge_count += 1;
    }

    /// A copy's edges from its present vertex, drawn from `row` on.
    #[inline(always)]
    fn leave(&mut self, copy: &mut Copy, row: u32) {
        while let [from, to, rest @ ..] = copy.edges {
            if *from != copy.vertex {
                break;
            }
            self.edge(row, copy.first + u32::from(copy.at[*to as usize % MOST_VERTICES]));
            copy.edges = rest;
        }
    }

    /// A copy's loop that its present vertex heads.
    #[inline(always)]
    fn head(&mut self, copy: &mut Copy, row: u32) {
        if let [header, last, bound, rest @ ..] = copy.loops {
            if *header == copy.vertex {
                let end = copy.first + u32::from(copy.at[*last as usize % MOST_VERTICES + 1]) - 1;
                self.loops[self.loop_count % MOST_LOOPS] = (row as u8, end as u8, *bound);
                self.loop_count += 1;
                copy.loops = rest;
            }
        }
    }
}

/// Inline.
pub fn inline(numbers: &Numbers, out: &mut [u8]) -> Result<usize, Refusal> {
    let [scratchpad, count] = [numbers[0], numbers[1]];
    if !within(scratchpad, 1, MOST_SIZE) || !within(count, 1, MOST_FUNCTIONS as u32) {
        return Err(Refusal::at(3, 0));
    }
    let functions = count as usize;
    let mut called = [0u32; MOST_FUNCTIONS];
    let mut flat = Flat::empty();
    for (function, called) in called.iter_mut().enumerate().take(functions) {
        *called = judge(Graph::of(numbers, function), count, &mut flat).map_err(|number| Refusal::at(number, function))?;
    }
    let calls_last = |function: usize| Graph::of(numbers, function).vertices().last().is_some_and(|(callee, _)| callee != NO_CALLEE);
    if let Some(function) = (0..functions).find(|&function| calls_last(function)) {
        return Err(Refusal::at(20, function));
    }
    let mut sizes = [Size { vertices: 0, edges: 0, loops: 0, at: [0; MOST_VERTICES + 1] }; MOST_FUNCTIONS];
    for &function in &callees_first(&called[..functions])?[..functions] {
        let function = usize::from(function) % MOST_FUNCTIONS;
        sizes[function] = size(Graph::of(numbers, function), &sizes);
        if function == 0 {
            break;
        }
    }
    let whole = &sizes[0];
    if whole.vertices > MOST_VERTICES as u32 || whole.edges > MOST_EDGES as u32 || whole.loops > MOST_LOOPS as u32 {
        return Err(Refusal::at(19, 0));
    }
    let pen = write(numbers, functions, &sizes);
    let needed = pen.at;
    let room = out.get_mut(..needed).ok_or(Refusal::at(10, needed))?;
    room.copy_from_slice(&pen.bytes[..needed]);
    Ok(needed)
}

/// The file of the result.
fn write(numbers: &Numbers, functions: usize, sizes: &[Size; MOST_FUNCTIONS]) -> Pen {
    let mut pen = Pen { bytes: [0; LONGEST], at: 0 };
    pen.head(numbers, functions);
    pen.number(sizes[0].vertices);
    let mut rows = Rows { edges: [(0, 0); MOST_EDGES], edge_count: 0, loops: [(0, 0, 0); MOST_LOOPS], loop_count: 0 };
    let begun = |function: usize, first: u32| {
        let graph = Graph::of(numbers, function);
        Copy { graph, at: &sizes[function].at, first, vertex: 0, edges: graph.edges(), loops: graph.loops() }
    };
    // no deeper than there are functions, since none reaches itself
    let mut waiting = [(begun(0, 0), 0); MOST_FUNCTIONS];
    let mut depth = 0;
    let (mut copy, mut function) = waiting[0];
    for row in 0..sizes[0].vertices {
        let place = VERTICES + 2 * copy.vertex as usize;
        let (callee, cost) = (copy.graph.0[place], copy.graph.0[place + 1]);
        pen.number(function);
        pen.number(cost);
        rows.head(&mut copy, row);
        if callee != NO_CALLEE {
            rows.edge(row, row + 1);
            waiting[depth % MOST_FUNCTIONS] = (copy, function);
            depth += 1;
            function = callee;
            copy = begun(callee as usize % MOST_FUNCTIONS, row + 1);
            continue;
        }
        // the last vertex of a copy has the edges of the call, which is not the last of its graph
        if copy.vertex + 1 == copy.graph.0[VERTICES - 1] && depth > 0 {
            depth -= 1;
            (copy, function) = waiting[depth % MOST_FUNCTIONS];
        }
        rows.leave(&mut copy, row);
        copy.vertex += 1;
    }
    pen.number(rows.edge_count as u32);
    for &(from, to) in &rows.edges[..rows.edge_count] {
        pen.number(u32::from(from));
        pen.number(u32::from(to));
    }
    pen.number(rows.loop_count as u32);
    for &(header, last, bound) in &rows.loops[..rows.loop_count] {
        pen.number(u32::from(header));
        pen.number(u32::from(last));
        pen.number(bound);
    }
    pen
}
