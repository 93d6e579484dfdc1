//! Random problems that pass every check of Read.

use std::collections::BTreeSet;
use std::ops::RangeInclusive;

use reference::problem::*;

use crate::random::Random;

/// From which values costs and sizes are drawn.
#[derive(Clone, Copy, Debug, PartialEq, Eq)]
pub enum Amounts {
    /// Up to 20.
    Small,
    /// Over the whole range.
    Any,
    /// The least and the greatest value of the range.
    Ends,
}

/// Which functions have a check cost above zero.
#[derive(Clone, Copy, Debug, PartialEq, Eq)]
pub enum Checks {
    /// None: the problem is written as edition 1.
    Nowhere,
    /// About every second one.
    Somewhere,
    /// All.
    Everywhere,
    /// One, which has the greatest.
    OneGreatest,
}

impl Checks {
    /// Any of these, every third time none.
    pub fn random(random: &mut Random) -> Checks {
        *random.pick(&[Checks::Nowhere, Checks::Nowhere, Checks::Somewhere, Checks::Somewhere, Checks::Everywhere, Checks::OneGreatest])
    }

    /// Gives functions their check costs.
    pub fn deal(self, random: &mut Random, of: Amounts, functions: &mut [Function]) {
        if self == Checks::OneGreatest {
            let one = random.count(0..=functions.len() - 1);
            functions[one].check = MOST_CHECK;
            return;
        }
        for function in functions {
            // nothing is drawn where there are none, so that a seed gives the problem that it gave before there were check costs
            if self == Checks::Everywhere || self == Checks::Somewhere && random.percent(50) {
                function.check = amount(random, 1..=MOST_CHECK, of);
            }
        }
    }
}

/// What a problem should look like.
#[derive(Clone, Debug)]
pub struct Plan {
    /// Functions.
    pub functions: usize,
    /// Vertices.
    pub vertices: usize,
    /// Edges; there may be fewer where the graph has no room for them, and more where the rules need them.
    pub edges: usize,
    /// Loops; there may be fewer where the graph has no room for them.
    pub loops: usize,
    /// Loop bounds are drawn from these.
    pub bounds: Vec<u32>,
    /// Own costs and load costs.
    pub costs: Amounts,
    /// Function sizes.
    pub sizes: Amounts,
    /// Check costs, which are drawn as the other costs are.
    pub checks: Checks,
    /// How many loops in a hundred are to have no way out.
    pub dead: u64,
    /// Loops that hold one another, as deep as there are loops.
    pub deep: bool,
    /// The first loop holds all vertices but the first and the last, if there are others.
    pub around: bool,
}

impl Plan {
    /// A random plan of at most so many vertices.
    pub fn small(random: &mut Random, most: usize) -> Plan {
        let vertices = random.count(1..=most);
        let amounts = [Amounts::Small, Amounts::Small, Amounts::Any, Amounts::Ends];
        let bounds = [vec![1], vec![1, 2], vec![1, 2, 3], vec![1, 2, 3, 5], vec![4]];
        Plan {
            functions: random.count(1..=5),
            vertices,
            edges: random.count(0..=vertices * 3),
            loops: random.count(0..=vertices.min(5)),
            bounds: random.pick(&bounds).clone(),
            costs: *random.pick(&amounts),
            sizes: Amounts::Small,
            checks: Checks::random(random),
            dead: if random.percent(30) { 40 } else { 0 },
            deep: random.percent(15),
            around: random.percent(10),
        }
    }

    /// A random plan of at most so many vertices, with few edges and many functions: different branches meet different functions.
    pub fn branching(random: &mut Random, most: usize) -> Plan {
        let plan = Plan::small(random, most);
        let functions = random.count(2..=plan.vertices.clamp(2, MOST_FUNCTIONS));
        let loops = random.count(0..=plan.vertices.min(12) / 3);
        Plan { functions, loops, edges: random.count(0..=plan.vertices), dead: 0, around: false, ..plan }
    }

    /// A random plan of any size.
    pub fn medium(random: &mut Random) -> Plan {
        let vertices = random.count(2..=MOST_VERTICES);
        let bounds = [vec![1], vec![1, 2, 3], vec![1, 7, 100], vec![MOST_VISITS], vec![1, MOST_VISITS]];
        Plan {
            functions: random.count(1..=MOST_FUNCTIONS),
            vertices,
            edges: random.count(0..=MOST_EDGES),
            loops: random.count(0..=MOST_LOOPS),
            bounds: random.pick(&bounds).clone(),
            costs: *random.pick(&[Amounts::Small, Amounts::Any, Amounts::Ends]),
            sizes: *random.pick(&[Amounts::Small, Amounts::Small, Amounts::Any, Amounts::Ends]),
            checks: Checks::random(random),
            dead: if random.percent(30) { 30 } else { 0 },
            deep: random.percent(20),
            around: random.percent(20),
        }
    }

    /// A random plan of a kind that goes by the number of the case: of twenty, one has every count at its greatest, two are of any size, seven
    /// have many functions, and ten are small.
    pub fn of_any_size(random: &mut Random, case: usize) -> Plan {
        match case % 20 {
            0 => Plan::largest(random),
            1 | 2 => Plan::medium(random),
            3..=9 => Plan::branching(random, 24),
            _ => Plan::small(random, 14),
        }
    }

    /// A random plan with every count at its greatest.
    pub fn largest(random: &mut Random) -> Plan {
        Plan {
            functions: MOST_FUNCTIONS,
            vertices: MOST_VERTICES,
            edges: MOST_EDGES,
            loops: MOST_LOOPS,
            dead: if random.percent(25) { 20 } else { 0 },
            ..Plan::medium(random)
        }
    }
}

/// The ranges of the loops of a graph in the making.
struct Nest {
    vertices: usize,
    loops: Vec<(usize, usize)>,
    dead: Vec<bool>,
}

impl Nest {
    fn random(random: &mut Random, plan: &Plan) -> Nest {
        let vertices = plan.vertices;
        let wanted = plan.loops.min(vertices - 1);
        let around = plan.around && vertices > 2 && wanted > 0;
        let outermost = if around { Some((1, vertices - 2)) } else { None };
        let mut loops =
            if plan.deep { Nest::deep(random, vertices, wanted, outermost) } else { Nest::broad(random, vertices, wanted, outermost) };
        loops.sort_unstable();
        // what follows a loop without a way out is reached from before it, so vertex 0 heads none
        let dead = loops.iter().map(|&(header, _)| header > 0 && random.percent(plan.dead)).collect();
        Nest { vertices, loops, dead }
    }

    /// Each range inside the one before.
    fn deep(random: &mut Random, vertices: usize, wanted: usize, outermost: Option<(usize, usize)>) -> Vec<(usize, usize)> {
        let mut headers: Vec<usize> = (outermost.map_or(0, |(header, _)| header + 1)..vertices - 1).collect();
        random.shuffle(&mut headers);
        headers.truncate(wanted - outermost.map_or(0, |_| 1));
        headers.sort_unstable();
        let innermost = headers.last().copied().unwrap_or(0);
        let mut lasts: Vec<usize> = headers.iter().map(|_| random.count(innermost..=vertices - 2)).collect();
        lasts.sort_unstable();
        outermost.into_iter().chain(headers.into_iter().zip(lasts.into_iter().rev())).collect()
    }

    /// Ranges as they come, where they fit in with those before; single vertices once that has failed often.
    fn broad(random: &mut Random, vertices: usize, wanted: usize, outermost: Option<(usize, usize)>) -> Vec<(usize, usize)> {
        let mut loops: Vec<(usize, usize)> = outermost.into_iter().collect();
        let mut tries = 0;
        while loops.len() < wanted {
            tries += 1;
            let header = random.count(0..=vertices - 2);
            let last = if tries < 200 { random.count(header..=vertices - 2) } else { header };
            let fits = |&(h, l): &(usize, usize)| {
                let nested = (header < h && l <= last) || (h < header && last <= l);
                let disjoint = l < header || last < h;
                nested || disjoint
            };
            if loops.iter().all(fits) {
                loops.push((header, last));
            }
        }
        loops
    }

    /// Whether the rules allow an edge, and no dead loop is left by it.
    fn allows(&self, from: usize, to: usize) -> bool {
        let holds = |&(header, last): &(usize, usize), v: usize| header <= v && v <= last;
        let enters_well = self.loops.iter().all(|l| holds(l, from) || !holds(l, to) || l.0 == to);
        let returns_well = to > from || self.loops.iter().any(|l| l.0 == to && holds(l, from));
        let leaves_well = self.loops.iter().zip(&self.dead).all(|(l, &dead)| !dead || !holds(l, from) || holds(l, to));
        from != self.vertices - 1 && enters_well && returns_well && leaves_well
    }

    fn random_edges(&self, random: &mut Random, wanted: usize) -> Vec<(usize, usize)> {
        let n = self.vertices;
        let mut allowed: Vec<(usize, usize)> =
            (0..n).flat_map(|u| (0..n).map(move |v| (u, v))).filter(|&(u, v)| self.allows(u, v)).collect();
        // what each vertex and each loop must have
        let mut needs: Vec<Vec<(usize, usize)>> = Vec::new();
        needs.extend((1..n).map(|vertex| (0..vertex).map(|u| (u, vertex)).collect()));
        needs.extend(self.loops.iter().map(|&(header, last)| (header..=last).map(|u| (u, header)).collect()));
        needs.extend((0..n - 1).map(|vertex| (0..n).map(|v| (vertex, v)).collect()));
        let mut edges = BTreeSet::new();
        for mut choices in needs {
            if !choices.iter().any(|edge| edges.contains(edge)) {
                choices.retain(|&(u, v)| self.allows(u, v));
                edges.insert(*random.pick(&choices));
            }
        }
        random.shuffle(&mut allowed);
        for edge in allowed {
            if edges.len() >= wanted {
                break;
            }
            edges.insert(edge);
        }
        edges.into_iter().collect()
    }
}

fn amount(random: &mut Random, range: RangeInclusive<u32>, of: Amounts) -> u32 {
    let (least, greatest) = (*range.start(), *range.end());
    match of {
        Amounts::Small => random.field(least..=20),
        Amounts::Any => random.field(range),
        Amounts::Ends => *random.pick(&[least, greatest]),
    }
}

/// A lawful problem after a plan, with the greatest scratchpad.
pub fn lawful(random: &mut Random, plan: &Plan) -> Problem {
    let nest = Nest::random(random, plan);
    let edges = nest.random_edges(random, plan.edges);
    // now and then few of the functions are used, so that others have no vertex
    let used = if random.percent(20) { random.count(1..=plan.functions) } else { plan.functions };
    let mut problem = Problem {
        scratchpad: MOST_SIZE,
        functions: (0..plan.functions)
            .map(|_| Function {
                size: amount(random, 1..=MOST_SIZE, plan.sizes),
                load: amount(random, 0..=MOST_SIZE, plan.costs),
                check: 0,
            })
            .collect(),
        vertices: (0..plan.vertices)
            .map(|_| Vertex { function: random.count(0..=used - 1) as u32, cost: amount(random, 0..=MOST_SIZE, plan.costs) })
            .collect(),
        edges: edges.into_iter().map(|(from, to)| Edge { from: from as u32, to: to as u32 }).collect(),
        loops: nest
            .loops
            .iter()
            .map(|&(header, last)| Loop { header: header as u32, last: last as u32, bound: *random.pick(&plan.bounds) })
            .collect(),
    };
    plan.checks.deal(random, plan.costs, &mut problem.functions);
    problem
}

/// A problem with every count at its greatest, whose numbers are as long as their ranges allow: no longer file is written.
pub fn longest(random: &mut Random) -> Problem {
    loop {
        let plan = Plan { dead: 0, ..Plan::largest(random) };
        let mut problem = lawful(random, &plan);
        if problem.edges.len() == MOST_EDGES {
            problem.functions.fill(Function { size: MOST_SIZE, load: MOST_SIZE, check: MOST_CHECK });
            problem.vertices.iter_mut().for_each(|vertex| vertex.cost = MOST_SIZE);
            problem.loops.iter_mut().for_each(|l| l.bound = MOST_VISITS);
            return problem;
        }
    }
}

/// A problem whose greatest visit charges under the empty layout are exactly `total` and whose one function has a load cost of
/// `load`.
pub fn with_total(total: u64, load: u32) -> Problem {
    let functions = vec![Function { size: 1, load, check: 0 }];
    followed_by(Problem { scratchpad: MOST_SIZE, functions, vertices: vec![], edges: vec![], loops: vec![] }, total)
}

/// The problem with more vertices behind its last one, whose own costs are exactly `more` on a walk that makes the most of them: nests of
/// four, three, two and one loops of the most visits, and a vertex outside all loops, each as often as it goes into the rest. They are of
/// the function of that last vertex, so they are neither contested nor early, and either total is greater by `more`.
pub fn followed_by(mut problem: Problem, more: u64) -> Problem {
    let function = problem.vertices.last().map_or(0, |vertex| vertex.function);
    let mut rest = more;
    for depth in (0..=4u32).rev() {
        let visits = u64::from(MOST_VISITS).pow(depth);
        let cost = (rest / visits).min(u64::from(MOST_SIZE));
        rest -= cost * visits;
        // headers without cost around the vertex that has it, which is the header of the innermost
        let first = problem.vertices.len() as u32;
        let last = first + depth.saturating_sub(1);
        for vertex in first..=last {
            problem.vertices.push(Vertex { function, cost: if vertex == last { cost as u32 } else { 0 } });
            problem.edges.extend(vertex.checked_sub(1).map(|from| Edge { from, to: vertex }));
            if depth > 0 {
                problem.loops.push(Loop { header: vertex, last, bound: MOST_VISITS });
                problem.edges.push(Edge { from: last, to: vertex });
            }
        }
    }
    assert_eq!(rest, 0, "after each nest less is left than the visits that it makes");
    problem.edges.sort_unstable();
    problem
}

/// A lawful problem whose vertices stand in layers of at most three, with edges from each to the next in any order, so that several walks to a
/// vertex have as few entries. About every second has a loop around all but the last vertex.
pub fn braided(random: &mut Random) -> Problem {
    let mut edges = BTreeSet::new();
    let mut layer = vec![0];
    let widths: Vec<u32> = (0..random.count(2..=4)).map(|_| random.field(1..=3)).chain([1]).collect();
    for width in widths {
        let first = layer[layer.len() - 1] + 1;
        let next: Vec<u32> = (first..first + width).collect();
        edges.extend(layer.iter().map(|&from| (from, *random.pick(&next))));
        edges.extend(next.iter().map(|&to| (*random.pick(&layer), to)));
        layer = next;
    }
    let last = layer[0];
    let mut loops = Vec::new();
    if random.percent(50) {
        edges.insert((random.field(0..=last - 1), 0));
        loops.push(Loop { header: 0, last: last - 1, bound: random.field(1..=2) });
    }
    let functions = random.count(2..=4);
    Problem {
        scratchpad: MOST_SIZE,
        functions: vec![Function { size: 1, load: 1, check: 0 }; functions],
        vertices: (0..=last).map(|_| Vertex { function: random.count(0..=functions - 1) as u32, cost: 1 }).collect(),
        edges: edges.into_iter().map(|(from, to)| Edge { from, to }).collect(),
        loops,
    }
}
