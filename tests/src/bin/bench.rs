//! The library against the quickest honest methods of the independent implementation, in one run.
//!
//! Both start from the bytes of the file, the numbers of the drawing, the remark or the text at each call, on the same inputs, in turns. Build
//! it for release.

use std::hint::black_box;
use std::time::{Duration, Instant};

use examiner_tests::damage::{file_of, numbers};
use examiner_tests::drawings::drawn;
use examiner_tests::evictions::{Shown, REASONS};
use examiner_tests::padding::in_five_bytes;
use examiner_tests::problems::{lawful, Amounts, Checks, Plan};
use examiner_tests::random::Random;
use examiner_tests::sentences::{bytes_of, plain_remark, refused, wrapped_remark};
use examiner_tests::walks;
use reference::drawing::Numbers;
use reference::eviction::Searched;
use reference::examples::{longest_shown, WorkedEviction};
use reference::fast;
use reference::file::LONGEST;
use reference::layout::check;
use reference::problem::*;
use reference::{Drawing, DrawnFunction, Reason, Remark};

/// Turns that each of the two takes; the median counts.
const TURNS: usize = 201;
/// How long one turn lasts at least. Short, so that few turns are broken into by other programs.
const TURN: Duration = Duration::from_micros(300);

/// The time of one call, by the clock.
fn time(calls: usize, call: &mut dyn FnMut()) -> f64 {
    // other programs that wait for the processor go first
    std::thread::yield_now();
    let started = Instant::now();
    for _ in 0..calls {
        call();
    }
    started.elapsed().as_secs_f64() / calls as f64
}

/// The times of one call of each in every turn, in seconds.
fn turns(one: &mut dyn FnMut(), other: &mut dyn FnMut()) -> Vec<(f64, f64)> {
    let calls = |call: &mut dyn FnMut()| (TURN.as_secs_f64() / time(3, call).max(1e-9)).ceil() as usize;
    let (calls_of_one, calls_of_other) = (calls(one), calls(other));
    let mut random = Random::seeded(1);
    let mut turn = || {
        // either goes first, at random
        if random.percent(50) {
            return (time(calls_of_one, one), time(calls_of_other, other));
        }
        let other = time(calls_of_other, other);
        (time(calls_of_one, one), other)
    };
    (0..TURNS).map(|_| turn()).collect()
}

fn median(turns: &[(f64, f64)], of: fn(&(f64, f64)) -> f64) -> f64 {
    let mut numbers: Vec<f64> = turns.iter().map(of).collect();
    numbers.sort_by(f64::total_cmp);
    numbers[TURNS / 2]
}

/// The median times of one call of each, in seconds.
fn measure(library: &mut dyn FnMut(), reference: &mut dyn FnMut()) -> (f64, f64) {
    let turns = turns(library, reference);
    (median(&turns, |turn| turn.0), median(&turns, |turn| turn.1))
}

fn micros(seconds: f64) -> String {
    format!("{:.2} µs", seconds * 1e6)
}

/// A problem with its file and a layout that Bound accepts.
#[derive(Clone)]
struct Subject {
    name: String,
    problem: Problem,
    file: Vec<u8>,
    layout: Vec<u8>,
}

impl Subject {
    /// The same problem under another layout.
    fn under(&self, layout: Vec<u8>) -> Subject {
        Subject { layout, ..self.clone() }
    }

    /// The problem with a check cost for each function, so of edition 2, under the same layout.
    fn checked(&self) -> Subject {
        let mut problem = self.problem.clone();
        Checks::Everywhere.deal(&mut Random::seeded(1), Amounts::Any, &mut problem.functions);
        Subject { name: format!("{}, check costs", self.name), file: file_of(&problem), problem, layout: self.layout.clone() }
    }

    /// The same problem by a file with every number in five bytes.
    fn padded(&self) -> Subject {
        Subject { name: format!("{}, padded", self.name), file: in_five_bytes(&numbers(&self.problem)), ..self.clone() }
    }
}

/// The first lawful problem of a plan, by seeds ascending from `first`, with an accepted layout of eight regions and what else is asked of it.
fn subject(name: &str, plan: &Plan, first: u64, suits: impl Fn(&Problem) -> bool) -> Subject {
    for seed in first..2_000 {
        let mut random = Random::seeded(seed);
        let problem = lawful(&mut random, plan);
        let layout: Vec<u8> = (0..plan.functions).map(|_| random.field(0..=7) as u8).collect();
        let file = file_of(&problem);
        if reference::bound(&file, &layout).is_ok() && suits(&problem) {
            return Subject { name: name.to_string(), problem, file, layout };
        }
    }
    panic!("no seed suits {name}")
}

/// The problem with its loops at their greatest bound, and a lawful walk of 1,000,000 entries through it, if one is found.
fn long_walk(problem: &Problem) -> Option<(Problem, Vec<u32>)> {
    let mut problem = problem.clone();
    problem.loops.iter_mut().for_each(|l| l.bound = MOST_VISITS);
    let walk = walks::of_length(&mut Random::seeded(1), &problem, MOST_ENTRIES)?;
    Some((problem, walk))
}

/// Every count at its greatest, or as the fields given say.
fn largest() -> Plan {
    Plan {
        functions: MOST_FUNCTIONS,
        vertices: MOST_VERTICES,
        edges: MOST_EDGES,
        loops: MOST_LOOPS,
        bounds: vec![2, 3],
        costs: Amounts::Any,
        sizes: Amounts::Small,
        checks: Checks::Nowhere,
        dead: 0,
        deep: false,
        around: true,
    }
}

/// A lawful drawing as its numbers, with the file of its one problem.
struct Sketch {
    name: &'static str,
    numbers: Box<Numbers>,
    file: Vec<u8>,
}

/// The drawing of these graphs, where `calls` has for each function some vertices with the functions that they call.
fn sketch(name: &'static str, mut functions: Vec<DrawnFunction>, calls: &dyn Fn(usize) -> Vec<(usize, usize)>) -> Sketch {
    for (function, drawn) in functions.iter_mut().enumerate() {
        for (vertex, callee) in calls(function) {
            drawn.vertices[vertex].callee = Some(callee as u32);
        }
    }
    let numbers = Drawing { scratchpad: MOST_SIZE, functions }.to_numbers();
    let mut file = vec![0; LONGEST];
    let written = reference::inline(&numbers, &mut file).expect("lawful");
    file.truncate(written);
    Sketch { name, numbers, file }
}

/// So many graphs of a plan with all the edges that it asks for, by ascending seeds.
fn graphs(count: usize, plan: &Plan) -> Vec<DrawnFunction> {
    let problems = (1..).map(|seed| lawful(&mut Random::seeded(seed), plan));
    problems.filter(|problem| problem.edges.len() == plan.edges).take(count).map(|problem| drawn(&problem)).collect()
}

/// 32 full graphs. Function 0 calls nothing, since it has all the vertices that the result may have; of the others every second vertex calls.
fn full_graphs() -> Sketch {
    sketch("32 full graphs", graphs(MOST_FUNCTIONS, &largest()), &|function| {
        let behind = MOST_FUNCTIONS - 1 - function;
        let callers = (0..MOST_VERTICES - 1).step_by(2).filter(|_| function > 0 && behind > 0);
        callers.map(|vertex| (vertex, function + 1 + vertex / 2 % behind)).collect()
    })
}

/// Four graphs of 20 vertices: function 0 calls functions 1 and 2, and each of these calls function 3.
fn four_graphs() -> Sketch {
    let plan = Plan { vertices: 20, edges: 40, loops: 4, ..largest() };
    sketch("four graphs of 20 vertices", graphs(4, &plan), &|function| match function {
        0 => vec![(6, 1), (13, 2)],
        1 | 2 => vec![(9, 3)],
        _ => vec![],
    })
}

/// The median times of the library and of the reference.
type Times = (f64, f64);

fn read(subject: &Subject) -> Times {
    measure(&mut || _ = black_box(examiner::read(black_box(&subject.file))), &mut || _ = black_box(fast::read(black_box(&subject.file))))
}

fn inline(sketch: &Sketch) -> Times {
    let mut library_out = vec![0u8; LONGEST];
    let mut reference_out = library_out.clone();
    let (numbers, mut answer) = (&sketch.numbers, [0u64; 4]);
    let mut library = || {
        let (numbers, out) = (black_box(numbers), black_box(&mut library_out));
        // SAFETY: a drawing has all its places; it, `out` and `answer` are valid for the call, and apart.
        let number = unsafe { examiner::raw::examiner_inline(numbers.as_ptr(), out.as_mut_ptr(), out.len(), answer.as_mut_ptr()) };
        black_box(number);
    };
    let times = measure(&mut library, &mut || _ = black_box(fast::inline(black_box(numbers), black_box(&mut reference_out))));
    assert_eq!(answer[0], sketch.file.len() as u64);
    assert!(library_out.starts_with(&sketch.file) && reference_out.starts_with(&sketch.file));
    times
}

fn interference(subject: &Subject) -> Times {
    let mut library_words = vec![0u32; MOST_VERTICES * MOST_FUNCTIONS];
    let mut reference_words = library_words.clone();
    let times =
        measure(&mut || _ = black_box(examiner::interference(black_box(&subject.file), black_box(&mut library_words))), &mut || {
            _ = black_box(fast::interference(black_box(&subject.file), black_box(&mut reference_words)))
        });
    assert_eq!(library_words, reference_words);
    times
}

fn bound(subject: &Subject) -> Times {
    let library = examiner::bound(&subject.file, &subject.layout).expect("accepted");
    let reference = fast::bound(&subject.file, &subject.layout).expect("accepted");
    assert_eq!((library.first_loads, library.bound), (reference.first_loads, reference.bound));
    measure(&mut || _ = black_box(examiner::bound(black_box(&subject.file), black_box(&subject.layout))), &mut || {
        _ = black_box(fast::bound(black_box(&subject.file), black_box(&subject.layout)))
    })
}

fn eviction(subject: &Subject, vertex: u32) -> Times {
    let vertex = u64::from(vertex);
    let mut library_walk = [0; MOST_SHOWN];
    let mut reference_walk = [0; MOST_SHOWN];
    let library = examiner::eviction(&subject.file, &subject.layout, vertex, &mut library_walk).expect("accepted");
    let reference = fast::eviction(&subject.file, &subject.layout, vertex, &mut reference_walk).expect("accepted");
    assert_eq!((library.count, library_walk), (reference.count, reference_walk));
    let (file, layout) = (&subject.file, &subject.layout);
    let mut library = || _ = black_box(examiner::eviction(black_box(file), black_box(layout), vertex, black_box(&mut library_walk)));
    measure(&mut library, &mut || _ = black_box(fast::eviction(black_box(file), black_box(layout), vertex, black_box(&mut reference_walk))))
}

fn word(remark: Remark) -> Times {
    let wrapped = wrapped_remark(remark).expect("in range");
    let mut library_text = [0; examiner::MOST_SENTENCE];
    let mut reference_text = library_text;
    let written = examiner::word(wrapped, &mut library_text).expect("room enough");
    assert_eq!(fast::word(remark, &mut reference_text), Ok(written));
    assert_eq!(library_text, reference_text);
    let mut library = || _ = black_box(examiner::word(black_box(wrapped), black_box(&mut library_text)));
    measure(&mut library, &mut || _ = black_box(fast::word(black_box(remark), black_box(&mut reference_text))))
}

fn read_sentence(remark: Remark) -> Times {
    let text = &bytes_of(remark)[..];
    assert_eq!(examiner::read_sentence(text).map(plain_remark), Ok(remark));
    assert_eq!(fast::read_sentence(text), Ok(remark));
    let mut library = || _ = black_box(examiner::read_sentence(black_box(text)));
    measure(&mut library, &mut || _ = black_box(fast::read_sentence(black_box(text))))
}

/// By what part the library's Bound takes longer where the regions are filled in than where the same regions are listed. It is small beside
/// the spread of the times, so each turn is taken by itself; it may come out negative.
fn filling(short: &Subject, listed: &Subject) -> f64 {
    let call = |subject: &Subject| _ = black_box(examiner::bound(black_box(&subject.file), black_box(&subject.layout)));
    median(&turns(&mut || call(short), &mut || call(listed)), |(filled, kept)| (filled - kept) / kept)
}

fn run(subject: &Subject) -> Times {
    let (problem, walk) = long_walk(&subject.problem).expect("the problem was chosen for it");
    let file = file_of(&problem);
    let library = examiner::run(&file, &subject.layout, &walk).expect("lawful");
    assert_eq!(library.cycles, fast::run(&file, &subject.layout, &walk).expect("lawful").cycles);
    measure(&mut || _ = black_box(examiner::run(black_box(&file), black_box(&subject.layout), black_box(&walk))), &mut || {
        _ = black_box(fast::run(black_box(&file), black_box(&subject.layout), black_box(&walk)))
    })
}

fn row(operation: &str, subject: &Subject, times: Times, note: impl Fn(f64, f64) -> String) {
    named_row(operation, &subject.name, times, &note(times.0, times.1));
}

fn named_row(operation: &str, name: &str, (library, reference): Times, note: &str) {
    println!("| {operation} | {name} | {} | {} | {:.2} | {note} |", micros(library), micros(reference), library / reference);
}

fn row_of_a_drawing(sketch: &Sketch) {
    let counts = reference::read(&sketch.file).expect("lawful").counts();
    let note = format!("{} vertices, {} edges and {} loops in {} bytes", counts.vertices, counts.edges, counts.loops, sketch.file.len());
    named_row("Inline", sketch.name, inline(sketch), &note);
}

/// Read, Interference, Bound and Run on the largest problems; the third has no loops, so no long walk.
fn rows_of_the_largest(subjects: &[Subject; 3]) {
    for subject in subjects {
        row("Read", subject, read(subject), |_, _| format!("{} bytes", subject.file.len()));
        let padded = subject.padded();
        row("Read", &padded, read(&padded), |_, _| format!("{} bytes, five a number", padded.file.len()));
    }
    for subject in subjects {
        row("Interference", subject, interference(subject), |_, _| "4,096 words".to_string());
    }
    for subject in subjects {
        row("Bound", subject, bound(subject), |_, _| "32 functions in 8 regions".to_string());
    }
    for subject in subjects {
        rows_of_functions_apart(subject);
    }
    for subject in &subjects[..2] {
        row("Run", subject, run(subject), |library, reference| {
            format!("1,000,000 entries: {:.2} ns a step, reference {:.2}", library * 1e3, reference * 1e3)
        });
    }
}

/// Bound where every function has a region of its own, which the layout lists or which is filled in.
fn rows_of_functions_apart(subject: &Subject) {
    let listed = subject.under((0..MOST_FUNCTIONS as u8).collect());
    let empty = subject.under(vec![]);
    row("Bound", &listed, bound(&listed), |_, _| "32 functions in 32 regions, all listed".to_string());
    let filling = 100.0 * filling(&empty, &listed);
    row("Bound", &empty, bound(&empty), |_, _| format!("32 functions, the empty layout: {filling:+.1} % on the row above"));
}

/// Eviction of the vertices whose walks are the longest: one charged on every visit in eight regions, and in a region for each function one
/// charged as a first load and one never, where there is one.
fn rows_of_evictions(subject: &Subject) {
    let graph = Searched::new(&subject.problem);
    let apart = subject.under(vec![]);
    for (subject, reasons) in [(subject, &REASONS[..1]), (&apart, &REASONS[1..])] {
        let (regions, _) = check(&subject.problem, &subject.layout).expect("accepted");
        let all = Shown::all(&graph, &regions);
        for reason in reasons {
            let of_this = all.iter().filter(|shown| shown.reasons().contains(&(reason, true)));
            let Some(shown) = of_this.max_by_key(|shown| shown.walk.len()) else { continue };
            row("Eviction", subject, eviction(subject, shown.vertex), |_, _| format!("{reason}, by {} entries", shown.walk.len()));
        }
    }
}

/// Read and Eviction where the walk is the longest that there is.
fn rows_of_the_longest_walk() {
    let WorkedEviction { what, problem, layout, vertex, walk, .. } = longest_shown();
    let subject = Subject { name: what.to_string(), file: file_of(&problem), problem, layout };
    row("Read", &subject, read(&subject), |_, _| format!("{} bytes", subject.file.len()));
    row("Eviction", &subject, eviction(&subject, vertex), |_, _| format!("{}, by {} entries", REASONS[0], walk.len()));
}

/// Word and Read-sentence of the longest sentence, which is a refusal's, and of a reason.
fn rows_of_sentences() {
    println!("\n| operation | sentence | library | reference | ratio | |");
    println!("|---|---|---|---|---|---|");
    let sentences = [("a refusal", refused(15, u64::MAX)), ("a reason", Remark::Explained(Reason::EveryVisit(31)))];
    for (operation, measured) in [("Word", word as fn(Remark) -> Times), ("Read-sentence", read_sentence)] {
        for (name, remark) in sentences {
            let times = measured(remark);
            let note = format!("{} bytes: {:.0} ns, reference {:.0}", bytes_of(remark).len(), times.0 * 1e9, times.1 * 1e9);
            named_row(operation, name, times, &note);
        }
    }
}

fn cell((library, reference): Times) -> String {
    format!("{} ({:.2})", micros(library), library / reference)
}

fn main() {
    if cfg!(debug_assertions) {
        println!("This build is not for release: the numbers mean nothing.\n");
    }
    println!("Median of {TURNS} turns of at least {} µs each, the two in turns; one thread.", TURN.as_micros());
    println!("The reference is the independent implementation by its quickest methods, built for release.");
    println!("Every call starts from the bytes of the problem file, the numbers of the drawing, the remark or the text.");
    println!("Buffers are not cleared between repetitions.\n");

    let full = |problem: &Problem| problem.edges.len() == MOST_EDGES;
    let long = |problem: &Problem| full(problem) && long_walk(problem).is_some();
    // from seed 2 on comes the problem that BENCHMARKS.md has had from the beginning
    let subjects = [
        subject("loops side by side and nested", &largest(), 2, long),
        subject("32 loops, each in the one before", &Plan { deep: true, ..largest() }, 1, long),
        subject("no loops", &Plan { loops: 0, ..largest() }, 1, full),
    ];
    println!("| operation | largest problem | library | reference | ratio | |");
    println!("|---|---|---|---|---|---|");
    rows_of_the_largest(&subjects);
    subjects.iter().for_each(rows_of_evictions);
    rows_of_the_longest_walk();

    println!("\nThe largest problems once more, with a check cost for each function.\n");
    println!("| operation | largest problem | library | reference | ratio | |");
    println!("|---|---|---|---|---|---|");
    rows_of_the_largest(&subjects.each_ref().map(Subject::checked));

    println!("\n| operation | drawing | library | reference | ratio | the one problem |");
    println!("|---|---|---|---|---|---|");
    for sketch in [full_graphs(), four_graphs()] {
        row_of_a_drawing(&sketch);
    }

    rows_of_sentences();

    println!("\nHow the library's cost grows; in brackets its ratio to the reference.\n");
    println!("| functions | vertices | edges | loops | Read | Interference | Bound |");
    println!("|---|---|---|---|---|---|---|");
    let mut grown: Vec<Plan> = Vec::new();
    grown.extend([16, 32, 64, 128].map(|vertices| Plan { vertices, edges: 2 * vertices, loops: 4, ..largest() }));
    grown.extend([384, 512].map(|edges| Plan { edges, loops: 4, ..largest() }));
    grown.extend([1, 4, 16, 32].map(|functions| Plan { functions, ..largest() }));
    grown.extend([1, 8, 16, 32].map(|loops| Plan { loops, deep: true, ..largest() }));
    for plan in grown {
        let subject = subject("", &plan, 1, |_| true);
        let Counts { functions, vertices, edges, loops } = subject.problem.counts();
        let nested = if plan.deep { ", each in the one before" } else { "" };
        let (read, interference, bound) = (cell(read(&subject)), cell(interference(&subject)), cell(bound(&subject)));
        println!("| {functions} | {vertices} | {edges} | {loops}{nested} | {read} | {interference} | {bound} |");
    }
}
