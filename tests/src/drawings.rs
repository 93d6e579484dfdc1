//! Random drawings, lawful and damaged, and runs of them.

use reference::drawing::*;
use reference::inline::true_counts;
use reference::problem::*;
use reference::stack::{self, Stack};

use crate::damage::{damaged_problem, ODD_VALUES, PROBLEM_DAMAGES};
use crate::problems::{self, Amounts, Checks, Plan};
use crate::random::Random;
use crate::walks::distances;

/// Who calls whom. Functions stand in some order, and call only those behind them.
#[derive(Clone, Copy, Debug, PartialEq, Eq)]
pub enum Shape {
    /// Any function behind.
    Any,
    /// The next function alone.
    Deep,
    /// Only the first function calls.
    Wide,
    /// One of the last two functions, which all share.
    Shared,
}

/// What a drawing should look like.
#[derive(Clone, Debug)]
pub struct DrawingPlan {
    /// Functions.
    pub functions: usize,
    /// What a graph may look like. Its vertices, edges and loops are the most that a graph is to have.
    pub graph: Plan,
    /// Which functions have a check cost; those of a graph alone play no part.
    pub checks: Checks,
    /// Who calls whom.
    pub shape: Shape,
    /// How many vertices in a hundred call; vertex 0, headers and last vertices of loops do so more often.
    pub calls: u64,
    /// Calls are taken back until the one problem passes no count.
    pub fits: bool,
}

impl DrawingPlan {
    /// A random plan of so many functions at most, and so many vertices in a graph.
    pub fn random(random: &mut Random, functions: usize, vertices: usize) -> DrawingPlan {
        let bounds = [vec![1], vec![1, 2], vec![1, 2, 3], vec![1, 2, 3, 5], vec![4], vec![1, MOST_VISITS]];
        DrawingPlan {
            functions: random.count(1..=functions),
            graph: Plan {
                functions: 1,
                vertices,
                edges: 3 * vertices,
                loops: random.count(0..=vertices.min(6)),
                bounds: random.pick(&bounds).clone(),
                costs: *random.pick(&[Amounts::Small, Amounts::Small, Amounts::Any, Amounts::Ends]),
                sizes: Amounts::Small,
                checks: Checks::Nowhere,
                dead: if random.percent(10) { 30 } else { 0 },
                deep: random.percent(15),
                around: random.percent(15),
            },
            checks: Checks::random(random),
            shape: *random.pick(&[Shape::Any, Shape::Any, Shape::Deep, Shape::Wide, Shape::Shared]),
            calls: *random.pick(&[10, 25, 50, 80]),
            fits: random.percent(85),
        }
    }
}

/// A graph within a plan, mostly one that has a vertex to call from.
fn graph(random: &mut Random, most: &Plan) -> DrawnFunction {
    let least = if random.percent(80) { most.vertices.min(2) } else { 1 };
    let vertices = random.count(least..=most.vertices);
    let edges = random.count(0..=most.edges.min(3 * vertices));
    let loops = random.count(0..=most.loops.min(vertices));
    let problem = problems::lawful(random, &Plan { vertices, edges, loops, ..most.clone() });
    drawn(&problem)
}

/// The graph of a problem, as that of its first function, without calls.
pub fn drawn(problem: &Problem) -> DrawnFunction {
    DrawnFunction {
        function: problem.functions[0],
        vertices: problem.vertices.iter().map(|v| DrawnVertex { callee: None, cost: v.cost }).collect(),
        edges: problem.edges.clone(),
        loops: problem.loops.clone(),
    }
}

/// The vertices where calls are the hardest to get right.
fn is_delicate(drawn: &DrawnFunction, vertex: usize) -> bool {
    let vertex = vertex as u32;
    vertex == 0 || drawn.loops.iter().any(|l| l.header == vertex || l.last == vertex)
}

/// Whether the one problem of a drawing keeps to the greatest counts.
pub fn fits(drawing: &Drawing) -> bool {
    let [vertices, edges, loops] = true_counts(drawing, 0, &mut vec![None; drawing.functions.len()]);
    vertices <= MOST_VERTICES as u128 && edges <= MOST_EDGES as u128 && loops <= MOST_LOOPS as u128
}

/// A drawing after a plan, with the greatest scratchpad. It is lawful where it is to fit.
pub fn lawful(random: &mut Random, plan: &DrawingPlan) -> Drawing {
    let mut functions: Vec<DrawnFunction> = (0..plan.functions).map(|_| graph(random, &plan.graph)).collect();
    // function 0 is nearly always the first; else those before it are reached by nothing
    let mut order: Vec<usize> = (0..plan.functions).collect();
    let stays_first = usize::from(random.percent(85));
    random.shuffle(&mut order[stays_first..]);
    if plan.shape == Shape::Wide {
        let wider = Plan { vertices: (3 * plan.graph.vertices).min(MOST_VERTICES), ..plan.graph.clone() };
        functions[order[0]] = graph(random, &wider);
    }
    for place in 0..plan.functions {
        let behind = &order[place + 1..];
        let callees = match plan.shape {
            Shape::Any => behind,
            Shape::Deep => &behind[..behind.len().min(1)],
            Shape::Wide if place > 0 => &[],
            Shape::Wide => behind,
            Shape::Shared => &behind[behind.len().saturating_sub(2)..],
        };
        let caller = &mut functions[order[place]];
        for vertex in 0..caller.vertices.len() - 1 {
            let share = if is_delicate(caller, vertex) { 100 - (100 - plan.calls) / 2 } else { plan.calls };
            if !callees.is_empty() && random.percent(share) {
                caller.vertices[vertex].callee = Some(*random.pick(callees) as u32);
            }
        }
    }
    deal_checks(random, plan, &mut functions);
    let mut drawing = Drawing { scratchpad: MOST_SIZE, functions };
    while plan.fits && !fits(&drawing) {
        take_back_a_call(random, &mut drawing);
    }
    drawing
}

fn deal_checks(random: &mut Random, plan: &DrawingPlan, functions: &mut [DrawnFunction]) {
    let mut dealt: Vec<Function> = functions.iter().map(|drawn| drawn.function).collect();
    plan.checks.deal(random, plan.graph.costs, &mut dealt);
    functions.iter_mut().zip(dealt).for_each(|(drawn, function)| drawn.function = function);
}

fn take_back_a_call(random: &mut Random, drawing: &mut Drawing) {
    let vertices = drawing.functions.iter_mut().flat_map(|drawn| &mut drawn.vertices);
    let mut calls: Vec<&mut DrawnVertex> = vertices.filter(|v| v.callee.is_some()).collect();
    let choice = random.count(0..=calls.len() - 1);
    calls[choice].callee = None;
}

/// What [`damaged`] does to a drawing.
pub const DRAWING_DAMAGES: u32 = 7;

/// A drawing with one thing done to it, by number below [`DRAWING_DAMAGES`]. What comes out need not be unlawful.
pub fn damaged(random: &mut Random, drawing: &Drawing, damage: u32) -> Drawing {
    let mut drawing = drawing.clone();
    let functions = drawing.functions.len();
    let function = random.count(0..=functions - 1);
    let drawn = &mut drawing.functions[function];
    let vertex = random.count(0..=drawn.vertices.len() - 1);
    match damage {
        // a call that there should not be, of any function: at a last vertex, or anywhere
        0 => drawn.vertices.last_mut().expect("no graph is empty").callee = Some(random.count(0..=functions - 1) as u32),
        1 => {
            let vertex = random.count(0..=drawn.vertices.len().max(2) - 2);
            drawn.vertices[vertex].callee = Some(random.count(0..=functions - 1) as u32);
        }
        // a callee that there is none of
        2 => drawn.vertices[vertex].callee = Some(functions as u32 + random.field(0..=2)),
        3 => drawn.vertices[vertex].callee = Some(*random.pick(&[31, 32, 33, 254, 256, 511, 65_535, u32::MAX])),
        // a check cost at the end of its range or past it
        4 => drawn.function.check = *random.pick(&[0, MOST_CHECK, MOST_CHECK + 1, 70_000, u32::MAX]),
        // a graph that breaks a rule
        _ => {
            let damage = random.field(0..=PROBLEM_DAMAGES - 1);
            let problem = damaged_problem(random, &drawn.alone(1), damage);
            drawn.edges = problem.edges;
            drawn.loops = problem.loops;
        }
    }
    drawing
}

/// The numbers of a graph before its lists: size, load cost and check cost.
const AMOUNTS: usize = 3;

/// The places of a graph's counts, with the numbers of an item and the most items.
const LISTS: [(usize, usize, usize); 3] = {
    let vertices = AMOUNTS;
    let edges = vertices + 1 + 2 * MOST_VERTICES;
    let loops = edges + 1 + 2 * MOST_EDGES;
    [(vertices, 2, MOST_VERTICES), (edges, 2, MOST_EDGES), (loops, 3, MOST_LOOPS)]
};

/// The places of a drawing that are not spare: those of its functions, up to each count.
pub fn counted_places(numbers: &Numbers) -> Vec<usize> {
    let mut places = vec![0, 1];
    for function in 0..(numbers[1] as usize).min(MOST_FUNCTIONS) {
        let graph = 2 + GRAPH * function;
        places.extend(graph..graph + AMOUNTS);
        for (count, width, most) in LISTS {
            let used = width * (numbers[graph + count] as usize).min(most);
            places.extend(graph + count..=graph + count + used);
        }
    }
    places
}

/// Gives the spare places of a drawing any values.
pub fn fill_spare_places(random: &mut Random, numbers: &mut Numbers) {
    let mut spare = vec![true; DRAWING];
    counted_places(numbers).into_iter().for_each(|place| spare[place] = false);
    for (number, _) in numbers.iter_mut().zip(spare).filter(|(_, spare)| *spare) {
        let any = random.any();
        let high = (any >> 32) as u32;
        *number = if any & 1 == 0 { high } else { ODD_VALUES[high as usize % ODD_VALUES.len()] };
    }
}

/// Changes one number that counts in a drawing: scratchpad, a count, a size, a load cost or check cost, or a number of an item.
pub fn damage_numbers(random: &mut Random, numbers: &mut Numbers) {
    let functions = (numbers[1] as usize).clamp(1, MOST_FUNCTIONS);
    let graph = 2 + GRAPH * random.count(0..=functions - 1);
    let (count, width, most) = *random.pick(&LISTS);
    let place = match random.count(0..=9) {
        0 => random.count(0..=1),
        1 => graph + random.count(0..=AMOUNTS - 1),
        2 | 3 => graph + count,
        _ => graph + count + random.count(0..=width * (numbers[graph + count] as usize).min(most)),
    };
    numbers[place] = if random.percent(30) { numbers[place].wrapping_add(1) } else { *random.pick(&ODD_VALUES) };
}

/// The vertices of each function inlined whole, where function 0 reaches it; of the others there may be too many to say.
pub fn sizes(drawing: &Drawing) -> Vec<u32> {
    let mut known = vec![None; drawing.functions.len()];
    (0..known.len() as u32).map(|function| true_counts(drawing, function, &mut known)[0].min(u128::from(u32::MAX)) as u32).collect()
}

/// The walk of the one problem that a run is.
pub fn walk_of(drawing: &Drawing, run: &[Stack]) -> Vec<u32> {
    let sizes = sizes(drawing);
    run.iter().map(|stack| stack::number(drawing, &sizes, stack)).collect()
}

/// A lawful run that goes on at random for about `length` stacks and then makes for the end, if a few tries find one of at most `most`.
pub fn lawful_run(random: &mut Random, drawing: &Drawing, length: usize, most: usize) -> Option<Vec<Stack>> {
    let distances: Vec<_> = drawing.functions.iter().map(|drawn| distances(&drawn.alone(1))).collect();
    let distance = |stack: &Stack| {
        let running = stack::running(stack);
        distances[running.function as usize][running.vertex as usize]
    };
    'tries: for _ in 0..8 {
        let mut run = vec![stack::start(drawing)];
        while !stack::ended(drawing, &run[run.len() - 1]) {
            let mut choices = stack::next(drawing, &run[run.len() - 1]);
            choices.retain(|stack| distance(stack).is_some());
            if run.len() >= length {
                let nearest = choices.iter().filter_map(distance).min();
                choices.retain(|stack| distance(stack) == nearest || random.percent(5));
            }
            if choices.is_empty() || run.len() == most {
                continue 'tries;
            }
            run.push(random.pick(&choices).clone());
        }
        return Some(run);
    }
    None
}
