//! The overlay examiner once more, written from documents 01 and 02 alone.
//!
//! It exists to be compared with the proved library, so it shares neither code nor representation with it: a problem is a few
//! `Vec`s, and where document 01 speaks of *all walks* the methods differ as well.
//!
//! | question | method used by the operations | checked against |
//! |---|---|---|
//! | interference | [`interference::by_search`]: a search backwards for each vertex and function | [`interference::by_states`]: a search over what walks have visited |
//! | greatest charges of a walk | [`longest::by_contraction`]: loops become edges, the innermost first | [`longest::by_states`]: the graph unfolded by its visit counts; [`longest::lawful_walks`]: every lawful walk, charged by looking back |
//! | early vertices | [`totals::early`]: a search for each function | [`totals::early_by_states`]: a search over what walks have visited |
//! | the filled-in layout | [`layout::filled`]: the free regions are dealt out | [`layout::filled_in_turn`]: each function looks at all before it |
//! | why a vertex pays its load | [`eviction::Searched`]: its interference set, then a search forwards over vertices and phases | [`eviction::AllWalks`]: every walk by length, looking back |
//! | entered vertices | [`totals::entered`]: each vertex looks at all edges | [`fast`]: each edge marks its end |
//! | a run | [`run::simulate`]: one pass | [`run::simulate_by_looking_back`]: each visit looks at all before it |
//! | sentences | [`sentence::among`]: each form of sentence held to the text in turn | [`fast::read_sentence`]: its numbers first; sentences written that begin with a front |
//! | one problem from a drawing | [`inline::recursively`]: each callee is inlined whole and moved | [`inline::by_splicing`]: one call at a time; [`stack::lawful_runs`]: every lawful run with a call stack |
//!
//! [`fast`] holds the quickest honest methods known to us; the benchmark measures the library against these.
//!
//! The operations below take the problem as its file, as the exports of the library do; two make such a file, and two are about sentences.

pub mod drawing;
pub mod eviction;
pub mod examples;
pub mod fast;
pub mod file;
pub mod graph;
pub mod inline;
pub mod interference;
pub mod layout;
pub mod longest;
pub mod problem;
pub mod run;
pub mod sentence;
pub mod stack;
pub mod totals;

pub use drawing::{Drawing, DrawnFunction, DrawnVertex, DRAWING};
pub use eviction::{Eviction, Reason};
pub use layout::Bound;
pub use problem::{Counts, Edge, Function, Loop, Problem, Refusal, Vertex, FIELDS};
pub use run::Run;
pub use sentence::{Form, Remark};
pub use totals::Totals;

/// Read: the problem that a file holds.
pub fn read(file: &[u8]) -> Result<Problem, Refusal> {
    let problem = file::parse(file)?;
    graph::check(&problem)?;
    Ok(problem)
}

/// Write, for a problem given as its file: the bytes written, those of the shortest file with its content.
pub fn write(file: &[u8], out: &mut [u8]) -> Result<usize, Refusal> {
    let problem = read(file)?;
    write_problem(&problem, problem.counts(), out)
}

/// Write, for any record: `fields` holds the scratchpad size, then each count with all the places for its items.
pub fn write_fields(fields: &[u32; FIELDS], out: &mut [u8]) -> Result<usize, Refusal> {
    let (problem, counts) = problem::from_fields(fields);
    write_problem(&problem, counts, out)
}

fn write_problem(problem: &Problem, counts: Counts, out: &mut [u8]) -> Result<usize, Refusal> {
    let bytes = file::encode(problem, counts)?;
    graph::check(problem)?;
    let room = out.get_mut(..bytes.len()).ok_or(Refusal::at(10, bytes.len()))?;
    room.copy_from_slice(&bytes);
    Ok(bytes.len())
}

/// Inline: writes the one problem of a drawing, given as its numbers, and gives the bytes written.
pub fn inline(numbers: &drawing::Numbers, out: &mut [u8]) -> Result<usize, Refusal> {
    let problem = inline::recursively(&inline::judge(numbers)?);
    write_problem(&problem, problem.counts(), out)
}

/// Interference: fills a word for each vertex and function, and gives the number of words filled.
pub fn interference(file: &[u8], words: &mut [u32]) -> Result<usize, Refusal> {
    let problem = read(file)?;
    let sets = interference::by_search(&problem);
    let room = words.get_mut(..sets.len()).ok_or(Refusal::at(10, sets.len()))?;
    room.copy_from_slice(&sets);
    Ok(sets.len())
}

/// Bound: what a layout needs and the worst-case time it gives.
pub fn bound(file: &[u8], layout: &[u8]) -> Result<Bound, Refusal> {
    let problem = read(file)?;
    let (regions, need) = layout::check(&problem, layout)?;
    layout::bound(&problem, &regions, need)
}

/// Run: the simulated cycles of a walk.
pub fn run(file: &[u8], layout: &[u8], walk: &[u32]) -> Result<Run, Refusal> {
    let problem = read(file)?;
    let (regions, _) = layout::check(&problem, layout)?;
    run::check(&problem, walk)?;
    Ok(run::simulate(&problem, &regions, walk))
}

/// Eviction: why a vertex pays its load. Writes the shortest walk that shows it.
pub fn eviction(file: &[u8], layout: &[u8], vertex: u64, walk: &mut [u32]) -> Result<Eviction, Refusal> {
    let problem = read(file)?;
    let (regions, _) = layout::check(&problem, layout)?;
    eviction::of(&problem, &regions, vertex, walk)
}

/// Word: writes the sentence of a remark, and gives the bytes written. 3 where it has none, then 10.
pub fn word(remark: Remark, text: &mut [u8]) -> Result<usize, Refusal> {
    let sentence = sentence::sentence(remark).ok_or(Refusal::at(3, 0))?;
    let room = text.get_mut(..sentence.len()).ok_or(Refusal::at(10, sentence.len()))?;
    room.copy_from_slice(sentence.as_bytes());
    Ok(sentence.len())
}

/// Read-sentence: the remark whose sentence a text is.
pub fn read_sentence(text: &[u8]) -> Result<Remark, Refusal> {
    sentence::among(Form::refusals().chain(Form::reasons()), text)
}
