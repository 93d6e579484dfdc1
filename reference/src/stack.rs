//! Runs of a drawn program, with a call stack.

use crate::drawing::*;
use crate::problem::*;
use crate::run::Run;

/// A call of a function that is under way.
#[derive(Clone, Debug, PartialEq, Eq)]
pub struct Activation {
    /// The function.
    pub function: u32,
    /// The vertex of its graph that it is at; a call vertex while the callee runs.
    pub vertex: u32,
    /// Of each loop of its graph, the visits to the header in the present stay. A stay goes on while a callee runs.
    visits: Vec<u32>,
}

/// The activations under way. The last one runs, each other waits for the one behind it.
pub type Stack = Vec<Activation>;

/// An activation that comes to a vertex, its visits before being these; nothing if a stay would visit its header too often.
fn at(drawn: &DrawnFunction, function: u32, vertex: u32, before: &[u32]) -> Option<Activation> {
    let mut visits = vec![0; drawn.loops.len()];
    for (index, l) in drawn.loops.iter().enumerate() {
        if l.holds(vertex) {
            visits[index] = before[index] + u32::from(l.header == vertex);
            if visits[index] > l.bound {
                return None;
            }
        }
    }
    Some(Activation { function, vertex, visits })
}

/// A function begins at vertex 0, with no visits counted.
fn begun(drawing: &Drawing, function: u32) -> Activation {
    let drawn = &drawing.functions[function as usize];
    at(drawn, function, 0, &vec![0; drawn.loops.len()]).expect("every bound is at least 1")
}

/// Where every run begins.
pub fn start(drawing: &Drawing) -> Stack {
    vec![begun(drawing, 0)]
}

/// The running activation.
pub fn running(stack: &Stack) -> &Activation {
    stack.last().expect("a stack is never empty")
}

/// Whether a run is over: function 0 at its last vertex.
pub fn ended(drawing: &Drawing, stack: &Stack) -> bool {
    stack.len() == 1 && stack[0].vertex == drawing.functions[0].last_vertex()
}

/// The stacks that may follow one, each activation within its bounds.
pub fn next(drawing: &Drawing, stack: &Stack) -> Vec<Stack> {
    let drawn = |activation: &Activation| &drawing.functions[activation.function as usize];
    let mut stack = stack.clone();
    if let Some(callee) = drawn(running(&stack)).callee_of(running(&stack).vertex) {
        stack.push(begun(drawing, callee));
        return vec![stack];
    }
    if running(&stack).vertex == drawn(running(&stack)).last_vertex() {
        // back to the caller, which goes on from the call vertex
        stack.pop();
    }
    let Some(from) = stack.pop() else { return vec![] };
    let drawn = drawn(&from);
    let goes_on = drawn.edges.iter().filter(|e| e.from == from.vertex);
    let arrived = goes_on.filter_map(|e| at(drawn, from.function, e.to, &from.visits));
    arrived.map(|activation| [&stack[..], &[activation]].concat()).collect()
}

/// Calls `each` with every lawful run. Says false, having stopped, if that takes more than `most` steps: for tiny drawings.
pub fn lawful_runs(drawing: &Drawing, most: usize, each: &mut dyn FnMut(&[Stack])) -> bool {
    let mut steps = 0;
    let mut run: Vec<Stack> = Vec::new();
    // stacks to come to, each with the length of the run before it
    let mut open = vec![(0, start(drawing))];
    while let Some((length, stack)) = open.pop() {
        steps += 1;
        if steps > most {
            return false;
        }
        run.truncate(length);
        open.extend(next(drawing, &stack).into_iter().map(|next| (length + 1, next)));
        run.push(stack);
        if ended(drawing, &run[length]) {
            each(&run);
        }
    }
    true
}

/// The vertex of the one problem at which a stack stands. `sizes` are the vertices of each function inlined whole.
pub fn number(drawing: &Drawing, sizes: &[u32], stack: &Stack) -> u32 {
    // what an activation's graph has before its vertex, copies counted
    let before = |activation: &Activation| -> u32 {
        let vertices = &drawing.functions[activation.function as usize].vertices[..activation.vertex as usize];
        vertices.iter().map(|v| 1 + v.callee.map_or(0, |callee| sizes[callee as usize])).sum()
    };
    // a callee's copy begins behind the call vertex
    let calls = stack.len() as u32 - 1;
    stack.iter().map(before).sum::<u32>() + calls
}

/// Runs a drawn program from empty regions. The check is paid at the first visit, and wherever another function runs than before: on each call
/// and on each return.
pub fn simulate(drawing: &Drawing, regions: &[u8], run: &[Stack]) -> Run {
    let mut result = Run { cycles: 0, loads: 0, held: [255; REGIONS] };
    let mut before = None;
    for Activation { function, vertex, .. } in run.iter().map(running) {
        let drawn = &drawing.functions[*function as usize];
        let held = &mut result.held[usize::from(regions[*function as usize])];
        result.cycles += u64::from(drawn.vertices[*vertex as usize].cost);
        if u32::from(*held) != *function {
            result.cycles += u64::from(drawn.function.load);
            result.loads += 1;
            *held = *function as u8;
        }
        if before.replace(*function) != Some(*function) {
            result.cycles += u64::from(drawn.function.check);
        }
    }
    result
}
