//! Walks and runs: refusals 15 to 17, and the simulation.

use crate::problem::*;

/// What Run gives.
#[derive(Clone, Debug, PartialEq, Eq)]
pub struct Run {
    /// The simulated cycles.
    pub cycles: u64,
    /// How often a function was loaded.
    pub loads: u64,
    /// The function held in each region afterwards, 255 for none.
    pub held: [u8; REGIONS],
}

/// Judges a walk: 17, then 15 and 16 at the first bad position.
pub fn check(problem: &Problem, walk: &[u32]) -> Result<(), Refusal> {
    if walk.len() > MOST_ENTRIES {
        return Err(Refusal::at(17, MOST_ENTRIES));
    }
    let successors = problem.successors();
    // the visits to each loop's header in the present stay
    let mut visits = vec![0u32; problem.loops.len()];
    let mut before: Option<u32> = None;
    for (position, &vertex) in walk.iter().enumerate() {
        let follows = match before {
            None => vertex == 0,
            Some(before) => successors[before as usize].contains(&vertex),
        };
        if !follows {
            return Err(Refusal::at(15, position));
        }
        for (visits, l) in visits.iter_mut().zip(&problem.loops) {
            if !l.holds(vertex) {
                *visits = 0;
            } else if l.header == vertex {
                *visits += 1;
                if *visits > l.bound {
                    return Err(Refusal::at(16, position));
                }
            }
        }
        before = Some(vertex);
    }
    if before == Some(problem.last_vertex()) {
        Ok(())
    } else {
        Err(Refusal::at(15, walk.len()))
    }
}

/// As [`check`], by looking back from each position. For short walks.
pub fn check_by_looking_back(problem: &Problem, walk: &[u32]) -> Result<(), Refusal> {
    if walk.len() > MOST_ENTRIES {
        return Err(Refusal::at(17, MOST_ENTRIES));
    }
    let bad_step = |position: usize| {
        let known = |vertex: u32| vertex <= problem.last_vertex();
        if position == walk.len() {
            return position == 0 || walk[position - 1] != problem.last_vertex();
        }
        match position.checked_sub(1) {
            None => walk[0] != 0,
            Some(before) => !known(walk[position]) || !problem.edges.contains(&Edge { from: walk[before], to: walk[position] }),
        }
    };
    // the visits to the header, at this position too, since the walk was last outside the range
    let beyond_bound = |position: usize| {
        let stay = |l: &Loop| walk[..=position].iter().rev().take_while(|&&v| l.holds(v)).filter(|&&v| v == l.header).count();
        problem.loops.iter().any(|l| l.header == walk[position] && stay(l) > l.bound as usize)
    };
    for position in 0..=walk.len() {
        if bad_step(position) {
            return Err(Refusal::at(15, position));
        }
        if position < walk.len() && beyond_bound(position) {
            return Err(Refusal::at(16, position));
        }
    }
    Ok(())
}

/// Runs a walk through the vertices of a problem, lawful or not, from empty regions. The check is paid at the first visit, and at each that comes
/// from another function.
pub fn simulate(problem: &Problem, regions: &[u8], walk: &[u32]) -> Run {
    let mut run = Run { cycles: 0, loads: 0, held: [255; REGIONS] };
    let mut before = None;
    for &vertex in walk {
        let Vertex { function, cost } = problem.vertices[vertex as usize];
        let Function { load, check, .. } = problem.functions[function as usize];
        let held = &mut run.held[usize::from(regions[function as usize])];
        run.cycles += u64::from(cost);
        if u32::from(*held) != function {
            run.cycles += u64::from(load);
            run.loads += 1;
            *held = function as u8;
        }
        if before.replace(function) != Some(function) {
            run.cycles += u64::from(check);
        }
    }
    run
}

/// As [`simulate`], where each visit looks for the latest one in its region, and at the one before it. For short walks.
pub fn simulate_by_looking_back(problem: &Problem, regions: &[u8], walk: &[u32]) -> Run {
    let region_of = |vertex: u32| regions[problem.function_of(vertex) as usize];
    // the function held in a region after some entries of the walk
    let held = |region: u8, entries: usize| {
        let latest = walk[..entries].iter().rev().find(|&&v| region_of(v) == region);
        latest.map(|&v| problem.function_of(v))
    };
    let loads = |&position: &usize| held(region_of(walk[position]), position) != Some(problem.function_of(walk[position]));
    let own: u64 = walk.iter().map(|&v| u64::from(problem.vertices[v as usize].cost)).sum();
    let loading: Vec<usize> = (0..walk.len()).filter(loads).collect();
    let function_at = |position: usize| problem.functions[problem.function_of(walk[position]) as usize];
    let load_costs: u64 = loading.iter().map(|&position| u64::from(function_at(position).load)).sum();
    let goes_on = |position: usize| position > 0 && problem.function_of(walk[position - 1]) == problem.function_of(walk[position]);
    let checking = (0..walk.len()).filter(|&position| !goes_on(position));
    let check_costs: u64 = checking.map(|position| u64::from(function_at(position).check)).sum();
    let mut after = [255; REGIONS];
    for (region, after) in after.iter_mut().enumerate() {
        if let Some(function) = held(region as u8, walk.len()) {
            *after = function as u8;
        }
    }
    Run { cycles: own + load_costs + check_costs, loads: loading.len() as u64, held: after }
}
