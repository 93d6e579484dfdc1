//! Layouts, contested vertices and the bound: refusals 11 to 14.

use crate::interference::by_search;
use crate::problem::*;
use crate::totals::Totals;

/// What Bound gives.
#[derive(Clone, Copy, Debug, PartialEq, Eq)]
pub struct Bound {
    /// The bytes that the layout needs.
    pub need: u64,
    /// The number of contested vertices.
    pub contested: u64,
    /// The bound less the greatest visit charges, in cycles.
    pub first_loads: u64,
    /// The bound, in cycles: the smaller of the two totals.
    pub bound: u64,
}

/// The filled-in layout: the region of each function. Listed functions have what the layout lists; the regions that none of these has
/// are dealt out to the others in ascending order.
pub fn filled(layout: &[u8], functions: usize) -> Vec<u8> {
    let free = (0..REGIONS as u8).filter(|region| !layout.contains(region));
    layout.iter().copied().chain(free).take(functions).collect()
}

/// As [`filled`], in turn: each function beyond the layout's end gets the lowest region that no earlier function has.
pub fn filled_in_turn(layout: &[u8], functions: usize) -> Vec<u8> {
    let mut regions = layout.to_vec();
    while regions.len() < functions {
        let lowest = (0..REGIONS as u8).find(|region| !regions.contains(region));
        regions.push(lowest.expect("a problem has no more functions than there are regions"));
    }
    regions
}

/// Judges a layout through 13: the region of each function, and the bytes needed by the filled-in layout.
pub fn check(problem: &Problem, layout: &[u8]) -> Result<(Vec<u8>, u64), Refusal> {
    if layout.len() > problem.functions.len() {
        return Err(Refusal::at(11, problem.functions.len()));
    }
    if let Some(function) = layout.iter().position(|&region| usize::from(region) >= REGIONS) {
        return Err(Refusal::at(12, function));
    }
    let regions = filled(layout, problem.functions.len());
    let need = need(problem, &regions);
    if need > u64::from(problem.scratchpad) {
        return Err(Refusal { number: 13, place: need });
    }
    Ok((regions, need))
}

/// For each region used, the size of its largest function, all added.
pub fn need(problem: &Problem, regions: &[u8]) -> u64 {
    let largest_in = |region: usize| {
        let sizes = problem.functions.iter().zip(regions).filter(|(_, &r)| usize::from(r) == region).map(|(f, _)| u64::from(f.size));
        sizes.max().unwrap_or(0)
    };
    (0..REGIONS).map(largest_in).sum()
}

/// Whether each vertex is contested: whether the interference set of the vertex and its function has a function in the region
/// of its function. `sets` are the words of the interference sets.
pub fn contested(problem: &Problem, sets: &[u32], regions: &[u8]) -> Vec<bool> {
    let functions = problem.functions.len();
    let is_contested = |(index, vertex): (usize, &Vertex)| {
        let set = sets[index * functions + vertex.function as usize];
        (0..functions).any(|g| set >> g & 1 == 1 && regions[g] == regions[vertex.function as usize])
    };
    problem.vertices.iter().enumerate().map(is_contested).collect()
}

/// The bound for a layout that passed [`check`]: the smaller of the two totals; 14 where it passes the limit.
pub fn bound(problem: &Problem, regions: &[u8], need: u64) -> Result<Bound, Refusal> {
    let contested = contested(problem, &by_search(problem), regions);
    let totals = Totals::of(problem, &contested);
    match u64::try_from(totals.smaller()) {
        Ok(bound) if bound <= MOST_BOUND => {
            let contested = contested.iter().filter(|&&c| c).count() as u64;
            let visits = u64::try_from(totals.visits).expect("visit charges never pass a total");
            Ok(Bound { need, contested, first_loads: bound - visits, bound })
        }
        _ => Err(Refusal::at(14, 0)),
    }
}
