//! The quickest honest methods known to us, for the benchmark.
//!
//! Honest: each operation starts from the bytes of the file, the numbers of the drawing, the remark or the text, and gives exactly what the
//! documents ask for, refusals and lent memory included; nothing is kept from one call to the next. The tests hold it to the plain methods of
//! this crate.
//!
//! - A set of vertices, functions or loops is one machine word.
//! - Interference is a flow along the edges, in sweeps over the vertices whose rows have grown since they were last passed on.
//! - Bound needs no interference table. A vertex is contested exactly if some walk arrives at it with another function as the latest
//!   one visited in the region of its own: one word a vertex says which functions may be the latest of their region, and one which
//!   may not have been visited yet. These also say which vertices are early, one pass over the edges says which are entered, and both totals
//!   come of one pass over the vertices.
//! - Run looks each step up in a table of all pairs of vertices, which says too whether the function is checked, and counts visits to every
//!   vertex as if it were a header.
//! - Inline, Eviction and the sentences are in files of their own.

mod eviction;
mod inline;
mod sentence;

pub use eviction::eviction;
pub use inline::inline;
pub use sentence::{read_sentence, word};

use crate::layout::Bound;
use crate::problem::{
    Refusal, MOST_BOUND, MOST_CHECK, MOST_EDGES, MOST_ENTRIES, MOST_FUNCTIONS, MOST_LOOPS, MOST_SIZE, MOST_VERTICES, MOST_VISITS, REGIONS,
};
use crate::run::Run;

const NONE: u8 = 255;

/// A lawful problem in flat tables. Places past a count hold nothing of meaning.
pub struct Flat {
    scratchpad: u32,
    functions: usize,
    vertices: usize,
    edges: usize,
    loops: usize,
    size: [u32; MOST_FUNCTIONS],
    load: [u32; MOST_FUNCTIONS],
    check: [u32; MOST_FUNCTIONS],
    function: [u8; MOST_VERTICES],
    cost: [u32; MOST_VERTICES],
    edge: [(u8, u8); MOST_EDGES],
    /// Header, last vertex and bound.
    looped: [(u8, u8, u32); MOST_LOOPS],
    /// The loops that hold each vertex, a bit for each.
    around: [u32; MOST_VERTICES],
    /// The loop whose header each vertex is, as its bit, or nothing.
    headed: [u32; MOST_VERTICES],
}

impl Flat {
    fn empty() -> Flat {
        Flat {
            scratchpad: 0,
            functions: 0,
            vertices: 0,
            edges: 0,
            loops: 0,
            size: [0; MOST_FUNCTIONS],
            load: [0; MOST_FUNCTIONS],
            check: [0; MOST_FUNCTIONS],
            function: [0; MOST_VERTICES],
            cost: [0; MOST_VERTICES],
            edge: [(0, 0); MOST_EDGES],
            looped: [(0, 0, 0); MOST_LOOPS],
            around: [0; MOST_VERTICES],
            headed: [0; MOST_VERTICES],
        }
    }

    /// The numbers of functions, vertices, edges and loops.
    pub fn counts(&self) -> [usize; 4] {
        [self.functions, self.vertices, self.edges, self.loops]
    }
}

#[inline(always)]
fn number(file: &[u8], at: &mut usize, least: u32, greatest: u32) -> Result<u32, Refusal> {
    let start = *at;
    let value = match file.get(start) {
        Some(&byte) if byte < 0x80 => {
            *at = start + 1;
            u32::from(byte)
        }
        _ => long_number(file, at)?,
    };
    if value.wrapping_sub(least) > greatest - least {
        return Err(Refusal::at(3, start));
    }
    Ok(value)
}

fn long_number(file: &[u8], at: &mut usize) -> Result<u32, Refusal> {
    let start = *at;
    let mut value = 0;
    for (group, &byte) in file[start..].iter().take(5).enumerate() {
        if group == 4 && byte > 0x0F {
            return Err(Refusal::at(2, start));
        }
        value |= u32::from(byte & 0x7F) << (7 * group);
        if byte < 0x80 {
            *at = start + group + 1;
            return Ok(value);
        }
    }
    Err(Refusal::at(1, file.len()))
}

fn below(count: usize) -> u128 {
    u128::MAX >> (128 - count)
}

/// Read.
pub fn read(file: &[u8]) -> Result<Flat, Refusal> {
    let at = &mut 0;
    let edition = number(file, at, 1, 2)?;
    let mut flat = Flat {
        scratchpad: number(file, at, 1, MOST_SIZE)?,
        functions: number(file, at, 1, MOST_FUNCTIONS as u32)? as usize,
        ..Flat::empty()
    };
    for ((size, load), check) in flat.size.iter_mut().zip(&mut flat.load).zip(&mut flat.check).take(flat.functions) {
        *size = number(file, at, 1, MOST_SIZE)?;
        *load = number(file, at, 0, MOST_SIZE)?;
        if edition == 2 {
            *check = number(file, at, 0, MOST_CHECK)?;
        }
    }
    flat.vertices = number(file, at, 1, MOST_VERTICES as u32)? as usize;
    let last_function = flat.functions as u32 - 1;
    for (function, cost) in flat.function.iter_mut().zip(&mut flat.cost).take(flat.vertices) {
        *function = number(file, at, 0, last_function)? as u8;
        *cost = number(file, at, 0, MOST_SIZE)?;
    }
    let last_vertex = flat.vertices as u32 - 1;

    flat.edges = number(file, at, 0, MOST_EDGES as u32)? as usize;
    let mut lowest_next = 0;
    let mut has_lower = 1u128;
    let mut has_way_out = 1u128 << last_vertex;
    for edge in flat.edge.iter_mut().take(flat.edges) {
        let start = *at;
        let from = number(file, at, 0, last_vertex)?;
        let to = number(file, at, 0, last_vertex)?;
        let key = from << 8 | to;
        if key < lowest_next {
            return Err(Refusal::at(4, start));
        }
        lowest_next = key + 1;
        has_lower |= u128::from(from < to) << to;
        has_way_out |= 1 << from;
        *edge = (from as u8, to as u8);
    }

    flat.loops = number(file, at, 0, MOST_LOOPS as u32)? as usize;
    lowest_next = 0;
    for l in flat.looped.iter_mut().take(flat.loops) {
        let start = *at;
        let header = number(file, at, 0, last_vertex)?;
        let last = number(file, at, header, last_vertex)?;
        let bound = number(file, at, 1, MOST_VISITS)?;
        if header < lowest_next {
            return Err(Refusal::at(4, start));
        }
        lowest_next = header + 1;
        *l = (header as u8, last as u8, bound);
    }
    if *at < file.len() {
        return Err(Refusal::at(5, *at));
    }
    let lacking = below(flat.vertices) & !(has_lower & has_way_out);
    if lacking != 0 {
        return Err(Refusal::at(6, lacking.trailing_zeros() as usize));
    }
    nest(&mut flat)?;
    judge_edges(&flat)?;
    Ok(flat)
}

/// Rule 7, and the loops around each vertex.
fn nest(flat: &mut Flat) -> Result<(), Refusal> {
    let last_vertex = flat.vertices as u8 - 1;
    // the ends of the ranges that the present header lies in, the innermost on top
    let mut open = [0u8; MOST_LOOPS];
    let mut depth = 0;
    let mut ends = [0u32; MOST_VERTICES];
    for (index, &(header, last, _)) in flat.looped[..flat.loops].iter().enumerate() {
        while depth > 0 && open[depth - 1] < header {
            depth -= 1;
        }
        if last == last_vertex || (depth > 0 && open[depth - 1] < last) {
            return Err(Refusal::at(7, index));
        }
        open[depth] = last;
        depth += 1;
        flat.headed[usize::from(header)] = 1 << index;
        ends[usize::from(last)] |= 1 << index;
    }
    let mut around = 0;
    for ((here, headed), ends) in flat.around.iter_mut().zip(&flat.headed).zip(&ends).take(flat.vertices) {
        around |= headed;
        *here = around;
        around &= !ends;
    }
    Ok(())
}

/// Rules 8 and 9.
fn judge_edges(flat: &Flat) -> Result<(), Refusal> {
    let mut returned = 0;
    for (index, &(from, to)) in flat.edge[..flat.edges].iter().enumerate() {
        let around_from = flat.around[usize::from(from)];
        let headed = flat.headed[usize::from(to)];
        let entered = flat.around[usize::from(to)] & !around_from;
        let back = headed & around_from;
        if entered & !headed != 0 || (to <= from && back == 0) {
            return Err(Refusal::at(8, index));
        }
        returned |= back;
    }
    let lacking = ((1u64 << flat.loops) - 1) as u32 & !returned;
    if lacking != 0 {
        return Err(Refusal::at(9, lacking.trailing_zeros() as usize));
    }
    Ok(())
}

/// For each vertex, where its edges out begin in the list; one place more, for the end.
fn edges_out(flat: &Flat) -> [u16; MOST_VERTICES + 1] {
    let mut starts = [0u16; MOST_VERTICES + 1];
    for &(from, _) in &flat.edge[..flat.edges] {
        starts[usize::from(from) + 1] += 1;
    }
    for vertex in 0..flat.vertices {
        starts[vertex + 1] += starts[vertex];
    }
    starts
}

/// The starts of the edges into each vertex, ascending, and for each vertex where they begin in that list.
fn edges_in(flat: &Flat) -> ([u16; MOST_VERTICES + 1], [u8; MOST_EDGES]) {
    let mut starts = [0u16; MOST_VERTICES + 1];
    for &(_, to) in &flat.edge[..flat.edges] {
        starts[usize::from(to) + 1] += 1;
    }
    for vertex in 0..flat.vertices {
        starts[vertex + 1] += starts[vertex];
    }
    let mut filled = starts;
    let mut origins = [0u8; MOST_EDGES];
    for &(from, to) in &flat.edge[..flat.edges] {
        let place = &mut filled[usize::from(to)];
        origins[usize::from(*place) % MOST_EDGES] = from;
        *place += 1;
    }
    (starts, origins)
}

/// The vertices whose news are still to be passed on, taken in ascending sweeps: what a vertex learns at or below the present one
/// waits for the next sweep.
struct Sweep {
    open: u128,
    /// The vertices above the present one.
    ahead: u128,
}

impl Sweep {
    fn over(vertices: usize) -> Sweep {
        Sweep { open: below(vertices), ahead: u128::MAX }
    }

    #[inline(always)]
    fn next(&mut self) -> Option<usize> {
        if self.open == 0 {
            return None;
        }
        let choice = if self.open & self.ahead != 0 { self.open & self.ahead } else { self.open };
        let lowest = choice & choice.wrapping_neg();
        self.open ^= lowest;
        self.ahead = !(lowest | (lowest - 1));
        Some(lowest.trailing_zeros() as usize)
    }

    #[inline(always)]
    fn again(&mut self, vertices: u128) {
        self.open |= vertices;
    }
}

/// Interference.
pub fn interference(file: &[u8], words: &mut [u32]) -> Result<usize, Refusal> {
    let flat = read(file)?;
    let needed = flat.vertices * flat.functions;
    let Some(words) = words.get_mut(..needed) else {
        return Err(Refusal::at(10, needed));
    };
    match flat.functions {
        0..=4 => flow::<4>(&flat, words),
        5..=8 => flow::<8>(&flat, words),
        9..=16 => flow::<16>(&flat, words),
        _ => flow::<32>(&flat, words),
    }
    Ok(needed)
}

/// A row of sets for each vertex, made wider where the next power of two is.
fn flow<const WIDTH: usize>(flat: &Flat, words: &mut [u32]) {
    let (starts, origins) = edges_in(flat);
    let mut ends = [0u128; MOST_VERTICES];
    for &(from, to) in &flat.edge[..flat.edges] {
        ends[usize::from(from)] |= 1 << to;
    }
    // the sets on arriving at each vertex, and on leaving it
    let mut arriving = [[0u32; WIDTH]; MOST_VERTICES];
    let mut leaving = [[0u32; WIDTH]; MOST_VERTICES];
    let mut new = below(flat.vertices);
    let mut sweep = Sweep::over(flat.vertices);
    while let Some(vertex) = sweep.next() {
        let mut row = [0u32; WIDTH];
        for &from in &origins[usize::from(starts[vertex])..usize::from(starts[vertex + 1])] {
            for (word, &more) in row.iter_mut().zip(&leaving[usize::from(from) % MOST_VERTICES]) {
                *word |= more;
            }
        }
        if row != arriving[vertex] || new >> vertex & 1 == 1 {
            new &= !(1 << vertex);
            arriving[vertex] = row;
            let function = usize::from(flat.function[vertex]);
            for (word, &arrived) in leaving[vertex].iter_mut().zip(&row) {
                *word = arrived | 1 << function;
            }
            leaving[vertex][function % WIDTH] = 0;
            sweep.again(ends[vertex]);
        }
    }
    for (words, row) in words.chunks_exact_mut(flat.functions).zip(&arriving) {
        words.copy_from_slice(&row[..flat.functions]);
    }
}

/// The region of each function, where the layout lists known regions only: the free ones go to the functions beyond its end, the lowest
/// first. With no more functions than regions there is always one left.
fn filled(layout: &[u8], functions: usize) -> [u8; MOST_FUNCTIONS] {
    let mut region = [0u8; MOST_FUNCTIONS];
    region[..layout.len()].copy_from_slice(layout);
    let mut free = layout.iter().fold(u32::MAX, |free, &listed| free & !(1 << listed));
    for place in &mut region[layout.len()..functions] {
        *place = free.trailing_zeros() as u8;
        free &= free - 1;
    }
    region
}

/// A layout judged through 13: the region of each function, the functions of each region, and the bytes needed.
fn judge_layout(flat: &Flat, layout: &[u8]) -> Result<([u8; MOST_FUNCTIONS], [u32; REGIONS], u64), Refusal> {
    if layout.len() > flat.functions {
        return Err(Refusal::at(11, flat.functions));
    }
    if let Some(function) = layout.iter().position(|&region| usize::from(region) >= REGIONS) {
        return Err(Refusal::at(12, function));
    }
    let region = filled(layout, flat.functions);
    let mut members = [0u32; REGIONS];
    let mut largest = [0u32; REGIONS];
    for (function, (&region, &size)) in region.iter().zip(&flat.size).enumerate().take(flat.functions) {
        let region = usize::from(region) % REGIONS;
        members[region] |= 1 << function;
        largest[region] = largest[region].max(size);
    }
    let need = largest.iter().map(|&size| u64::from(size)).sum();
    if need > u64::from(flat.scratchpad) {
        return Err(Refusal { number: 13, place: need });
    }
    Ok((region, members, need))
}

/// The check cost of each vertex that is entered, 0 of the others.
fn checks(flat: &Flat) -> [u32; MOST_VERTICES] {
    // all bits are set of those that are entered
    let mut entered = [0u32; MOST_VERTICES];
    entered[0] = u32::MAX;
    for &(from, to) in &flat.edge[..flat.edges] {
        let (from, to) = (usize::from(from) % MOST_VERTICES, usize::from(to) % MOST_VERTICES);
        entered[to] |= u32::from(flat.function[from] != flat.function[to]).wrapping_neg();
    }
    for (check, &function) in entered.iter_mut().zip(&flat.function) {
        *check &= flat.check[usize::from(function) % MOST_FUNCTIONS];
    }
    entered
}

/// Bound.
pub fn bound(file: &[u8], layout: &[u8]) -> Result<Bound, Refusal> {
    let flat = read(file)?;
    let (region, members, need) = judge_layout(&flat, layout)?;

    // Low half: the functions that may be the latest of their region. High half: those that may not have been visited yet.
    let mut arriving = [0u64; MOST_VERTICES];
    arriving[0] = u64::MAX << 32;
    let mut rivals = [0u32; MOST_FUNCTIONS];
    let mut kept = [0u64; MOST_FUNCTIONS];
    for function in 0..flat.functions {
        let shared = members[usize::from(region[function]) % REGIONS];
        rivals[function] = shared & !(1 << function);
        kept[function] = !(u64::from(shared) | 1 << (32 + function));
    }
    let starts = edges_out(&flat);
    let mut sweep = Sweep::over(flat.vertices);
    while let Some(vertex) = sweep.next() {
        let function = usize::from(flat.function[vertex]) % MOST_FUNCTIONS;
        let after = arriving[vertex] & kept[function] | 1 << function;
        for &(_, to) in &flat.edge[usize::from(starts[vertex])..usize::from(starts[vertex + 1])] {
            let there = &mut arriving[usize::from(to) % MOST_VERTICES];
            if after & !*there != 0 {
                *there |= after;
                sweep.again(1 << to);
            }
        }
    }

    let checks = checks(&flat);
    let mut contested = 0;
    let mut early = Early::default();
    let mut charge = [[0u64; 2]; MOST_VERTICES];
    for (vertex, charge) in charge.iter_mut().enumerate().take(flat.vertices) {
        let function = usize::from(flat.function[vertex]) % MOST_FUNCTIONS;
        let (cost, load) = (u64::from(flat.cost[vertex] + checks[vertex]), u64::from(flat.load[function]));
        *charge = [cost; 2];
        if arriving[vertex] as u32 & rivals[function] != 0 {
            contested += 1;
            *charge = [cost + load; 2];
        } else if arriving[vertex] >> (32 + function) & 1 == 1 {
            early.note(function, flat.around[vertex]);
            charge[1] += if flat.around[vertex] == 0 { load } else { 0 };
        }
    }
    let [visits, second] = greatest(&flat, &charge, &early.entries(&flat));
    let bound = (visits + loads_of(&flat, early.anywhere)).min(second);
    if bound > MOST_BOUND {
        return Err(Refusal::at(14, 0));
    }
    Ok(Bound { need, contested, first_loads: bound - visits, bound })
}

/// The functions that have early vertices.
#[derive(Default)]
struct Early {
    anywhere: u32,
    /// In the range of each outermost loop.
    held: [u32; MOST_LOOPS],
}

impl Early {
    /// Notes an early vertex of a function with these loops around it, of which the outermost is the lowest.
    #[inline(always)]
    fn note(&mut self, function: usize, around: u32) {
        self.anywhere |= 1 << function;
        if around != 0 {
            self.held[around.trailing_zeros() as usize] |= 1 << function;
        }
    }

    /// What an entry of each loop is charged in the second total.
    fn entries(&self, flat: &Flat) -> [u64; MOST_LOOPS] {
        let mut entry = [0; MOST_LOOPS];
        for (entry, &functions) in entry.iter_mut().zip(&self.held).take(flat.loops) {
            *entry = loads_of(flat, functions);
        }
        entry
    }
}

/// The load costs of these functions, each once.
fn loads_of(flat: &Flat, functions: u32) -> u64 {
    let mut sum = 0;
    let mut rest = functions;
    while rest != 0 {
        sum += u64::from(flat.load[rest.trailing_zeros() as usize]);
        rest &= rest - 1;
    }
    sum
}

/// Two sums, each kept up to some number above the limit.
type Sums = [u64; 2];

const CAP: u64 = MOST_BOUND + 1;

#[inline(always)]
fn add(one: Sums, other: Sums) -> Sums {
    [(one[0] + other[0]).min(CAP), (one[1] + other[1]).min(CAP)]
}

/// The greatest sums of two kinds of charges at once, or some number above the limit where one passes that. The second kind is charged at
/// entries of loops too.
fn greatest(flat: &Flat, charge: &[Sums; MOST_VERTICES], entry: &[u64; MOST_LOOPS]) -> Sums {
    let (starts, origins) = edges_in(flat);
    let origins_of = |vertex: usize| &origins[usize::from(starts[vertex])..usize::from(starts[vertex + 1])];
    // the greatest sums at each vertex since the present iteration of the innermost loop around it began, or since the start
    let mut sum = [[0u64; 2]; MOST_VERTICES];
    // what leaving a loop adds: the sums on entering it, and all iterations but the last
    let mut left = [[0u64; 2]; MOST_LOOPS];
    // the greatest sums with which these edges arrive at a vertex; every loop that they leave is closed
    let arriving = |origins: &[u8], vertex: usize, sum: &[Sums; MOST_VERTICES], left: &[Sums; MOST_LOOPS]| {
        let mut best = [0; 2];
        for &from in origins {
            let mut total = sum[usize::from(from) % MOST_VERTICES];
            let mut leaving = flat.around[usize::from(from) % MOST_VERTICES] & !flat.around[vertex];
            while leaving != 0 {
                total = add(total, left[leaving.trailing_zeros() as usize]);
                leaving &= leaving - 1;
            }
            best = [best[0].max(total[0]), best[1].max(total[1])];
        }
        best
    };
    // the loops around the present vertex, the innermost on top
    let mut open = [0u8; MOST_LOOPS];
    let mut depth = 0;
    for vertex in 0..flat.vertices {
        let origins = origins_of(vertex);
        let lower = origins.iter().take_while(|&&from| usize::from(from) < vertex).count();
        let mut best = arriving(&origins[..lower], vertex, &sum, &left);
        if flat.headed[vertex] != 0 {
            let index = flat.headed[vertex].trailing_zeros() as usize;
            left[index] = add(best, [0, entry[index]]);
            open[depth] = index as u8;
            depth += 1;
            best = [0; 2];
        }
        sum[vertex] = add(best, charge[vertex]);
        while depth > 0 {
            let index = usize::from(open[depth - 1]);
            let (header, last, bound) = flat.looped[index];
            if usize::from(last) != vertex {
                break;
            }
            depth -= 1;
            let header = usize::from(header);
            let origins = origins_of(header);
            let lower = origins.iter().take_while(|&&from| usize::from(from) < header).count();
            let iteration = arriving(&origins[lower..], header, &sum, &left);
            let earlier = |length: u64| (u128::from(length) * u128::from(bound - 1)).min(u128::from(CAP)) as u64;
            left[index] = add(left[index], iteration.map(earlier));
        }
    }
    sum[flat.vertices - 1]
}

/// Run. No step branches on what the walk does: only a refusal leaves the loop.
pub fn run(file: &[u8], layout: &[u8], walk: &[u32]) -> Result<Run, Refusal> {
    // what an edge does to the visits to its end in the present stay, told by the sign
    const STARTS: i8 = 1;
    const GOES_ON: i8 = -3;
    // that it leads to another function: a bit that neither of the two has
    const CHECKED: i8 = 2;
    let flat = read(file)?;
    let (region, _, _) = judge_layout(&flat, layout)?;
    if walk.len() > MOST_ENTRIES {
        return Err(Refusal::at(17, MOST_ENTRIES));
    }
    if walk.first() != Some(&0) {
        return Err(Refusal::at(15, 0));
    }
    // for each pair of vertices, the edge from one to the other, 0 for none
    let mut edges = [0i8; MOST_VERTICES * MOST_VERTICES];
    for &(from, to) in &flat.edge[..flat.edges] {
        let returns = flat.around[usize::from(from)] & flat.headed[usize::from(to)] != 0;
        let checked = if flat.function[usize::from(from)] != flat.function[usize::from(to)] { CHECKED } else { 0 };
        edges[usize::from(from) * MOST_VERTICES + usize::from(to)] = if returns { GOES_ON } else { STARTS } | checked;
    }
    let mut stops = [Stop { costs: [0; 4], bound: u32::MAX, visits: 0, function: NONE, region: 0 }; MOST_VERTICES];
    for (stop, (&function, &cost)) in stops.iter_mut().zip(flat.function.iter().zip(&flat.cost)).take(flat.vertices) {
        let [load, check] = [flat.load[usize::from(function)], flat.check[usize::from(function)]];
        stop.costs = [cost, cost + check, cost + check + load, 0];
        stop.function = function;
        stop.region = region[usize::from(function)];
    }
    for &(header, _, bound) in &flat.looped[..flat.loops] {
        stops[usize::from(header)].bound = bound;
    }

    stops[0].visits = 1;
    let mut held = [NONE; REGIONS];
    held[usize::from(stops[0].region)] = stops[0].function;
    let mut cycles = u64::from(stops[0].costs[2]);
    let mut loads = 1;
    let mut before = 0;
    for (position, &entry) in walk.iter().enumerate().skip(1) {
        let vertex = entry as usize;
        if vertex >= MOST_VERTICES {
            return Err(Refusal::at(15, position));
        }
        let edge = edges[before * MOST_VERTICES + vertex];
        let stop = &mut stops[vertex];
        stop.visits = (stop.visits & i32::from(edge >> 7) as u32) + 1;
        if edge == 0 {
            return Err(Refusal::at(15, position));
        }
        if stop.visits > stop.bound {
            return Err(Refusal::at(16, position));
        }
        let place = &mut held[usize::from(stop.region) % REGIONS];
        let loaded = usize::from(*place != stop.function);
        *place = stop.function;
        loads += loaded as u64;
        let checked = usize::from(edge & CHECKED != 0);
        cycles += u64::from(stop.costs[(loaded + checked) % 4]);
        before = vertex;
    }
    if before != flat.vertices - 1 {
        return Err(Refusal::at(15, walk.len()));
    }
    Ok(Run { cycles, loads, held })
}

/// What a visit to a vertex looks at.
#[derive(Clone, Copy)]
struct Stop {
    /// What a visit costs as it is, with a check, and with a check and a load: what was visited just before is held, so a load is never without
    /// a check. The last place is for the index alone.
    costs: [u32; 4],
    /// The bound of the loop whose header the vertex is, or no bound.
    bound: u32,
    visits: u32,
    function: u8,
    region: u8,
}
