//! The library held to the independent implementation on seeded problems, drawings, layouts, walks and sentences, lawful and damaged.
//!
//! Each call goes through the exports themselves, with guards around all lent memory, and through the safe wrapper. The returned
//! number, the place, the results and every byte of lent memory, guards and inputs included, must be what the documents say.
//! It prints what it compared; it fails at the first difference, and where some refusal was never met.
//!
//! CASES=10 in the environment tries ten times as many cases.

#[path = "compare/check_costs.rs"]
mod check_costs;
#[path = "compare/evictions.rs"]
mod evictions;
#[path = "compare/loop_bounds.rs"]
mod loop_bounds;
#[path = "compare/padding.rs"]
mod padding;
#[path = "compare/sentences.rs"]
mod sentences;

use std::collections::BTreeMap;
use std::panic::{catch_unwind, AssertUnwindSafe};
use std::process::exit;
use std::time::Instant;

use examiner_tests::damage::*;
use examiner_tests::drawings::{self, drawn, DrawingPlan, DRAWING_DAMAGES};
use examiner_tests::lent::Lent;
use examiner_tests::padding::{in_five_bytes, padded};
use examiner_tests::problems::{followed_by, lawful, longest, with_total, Amounts, Plan};
use examiner_tests::random::Random;
use examiner_tests::totals::{self, Priced};
use examiner_tests::{effort, layouts, walks};
use reference::drawing::{graph_of, Numbers, GRAPH};
use reference::examples::{at_limits, chain, d1, d2, d3, d4, d5, d6, p, q, r, s, t, u, v, w, D4, M10};
use reference::file::{spell, LONGEST};
use reference::layout::{check, filled};
use reference::longest::by_states;
use reference::problem::*;
use reference::{stack, Drawing, DrawnFunction, DrawnVertex, Remark, Run, Totals};

const SHORT: &str = "an accepted layout that is short";
const SHORT_WITH_GAP: &str = "an accepted layout that is short, with a gap below a listed region";
const WALK_WITH_GAP: &str = "a lawful walk under a short layout with a gap below a listed region";
const INLINED: &str = "a drawing that is inlined";
const CALL_AT_0: &str = "an inlined drawing with a call at vertex 0";
const CALL_IN_HEADER: &str = "an inlined drawing with a call in a header";
const CALL_AT_LAST: &str = "an inlined drawing with a call at the last vertex of a loop";
const UNREACHED: &str = "an inlined drawing with a function that nothing reaches";
const SHARED: &str = "an inlined drawing with a helper that several functions call";
const DRAWN_RUN: &str = "a run with a call stack, as a lawful walk of the one problem";
const DEEP_RUN: &str = "a run with a call stack, four activations deep";
const DRAWN_RUN_FILLED: &str = "a run with a call stack, under a short layout";
/// What drawings are refused for.
const DRAWING_REFUSED: [(u8, &str); 10] = [
    (3, "a drawing refused 3"),
    (4, "a drawing refused 4"),
    (6, "a drawing refused 6"),
    (7, "a drawing refused 7"),
    (8, "a drawing refused 8"),
    (9, "a drawing refused 9"),
    (10, "a drawing refused 10"),
    (18, "a drawing refused 18"),
    (19, "a drawing refused 19"),
    (20, "a drawing refused 20"),
];
/// How often some cases are met at least: a few layouts would not do to tell how they are filled in, nor a few drawings how they are inlined.
const LEAST: [(&str, usize); 12] = [
    (SHORT, 10_000),
    (SHORT_WITH_GAP, 5_000),
    (WALK_WITH_GAP, 1_000),
    (INLINED, 8_000),
    (CALL_AT_0, 2_000),
    (CALL_IN_HEADER, 1_000),
    (CALL_AT_LAST, 1_000),
    (UNREACHED, 2_000),
    (SHARED, 500),
    (DRAWN_RUN, 5_000),
    (DEEP_RUN, 300),
    (DRAWN_RUN_FILLED, 1_000),
];
/// How often drawings are refused for each of these at least.
const LEAST_REFUSED: usize = 200;

/// How often each case of the two totals is met at least.
fn least_of_totals() -> Vec<(&'static str, usize)> {
    let smaller = [totals::FIRST_SMALLER, totals::SECOND_SMALLER, totals::BOTH_AGREE].map(|what| (what, 2_000));
    let rarer = [&totals::SHAPES[..], &totals::LIMITS, &totals::READINGS].concat();
    smaller.into_iter().chain(rarer.into_iter().map(|what| (what, 100))).collect()
}

/// Calls both implementations and counts.
struct Comparison {
    random: Random,
    /// Calls of each export.
    calls: BTreeMap<&'static str, usize>,
    /// Refusals by number; at 0 the calls that were not refused.
    met: [usize; 23],
    /// Cases worth counting.
    seen: BTreeMap<&'static str, usize>,
    /// What was asked last, to be shown where the two differ.
    asked: Asked,
}

/// The inputs of a call, in a form to print.
#[derive(Default)]
struct Asked {
    file: Vec<u8>,
    layout: Vec<u8>,
    walk: Vec<u32>,
    vertex: Option<u64>,
    fields: Vec<u32>,
    drawing: Vec<(DrawnFunction, Counts)>,
    remark: Option<Remark>,
    text: Vec<u8>,
}

impl Asked {
    fn show(&self) {
        eprintln!("file    {:02X?}", self.file);
        eprintln!("layout  {:?}", self.layout);
        eprintln!("walk    {} entries, the first of them {:?}", self.walk.len(), &self.walk[..self.walk.len().min(500)]);
        eprintln!("vertex  {:?}", self.vertex);
        eprintln!("fields  {:?}", self.fields);
        for (function, drawn) in self.drawing.iter().enumerate() {
            eprintln!("drawn   {function}: {drawn:?}");
        }
        eprintln!("remark  {:?}", self.remark);
        eprintln!("text    \"{}\"", self.text[..self.text.len().min(500)].escape_ascii());
    }
}

/// What a call answers: the values in the order of `answer`, or the refusal.
type Expected = Result<Vec<u64>, Refusal>;

/// A result of the wrapper in the form of the independent implementation.
fn plain<T>(result: Result<T, examiner::Refusal>) -> Result<T, Refusal> {
    result.map_err(|refusal| Refusal { number: refusal.number.number() as u8, place: refusal.place })
}

impl Comparison {
    fn new() -> Comparison {
        Comparison { random: Random::seeded(0), calls: BTreeMap::new(), met: [0; 23], seen: BTreeMap::new(), asked: Asked::default() }
    }

    fn saw(&mut self, what: &'static str, it: bool) {
        *self.seen.entry(what).or_insert(0) += usize::from(it);
    }

    /// Makes one call with a guarded `answer`, and holds the returned number and all of `answer` to what is expected.
    fn call(&mut self, export: &'static str, expected: &Expected, call: impl FnOnce(*mut u64) -> u32) {
        let mut answer = Lent::random(&mut self.random, 4);
        let mut wanted = answer.clone();
        let number = match expected {
            Ok(values) => {
                wanted.part_mut()[..values.len()].copy_from_slice(values);
                0
            }
            Err(refusal) => {
                wanted.part_mut()[0] = refusal.place;
                u32::from(refusal.number)
            }
        };
        let returned = call(answer.part_mut().as_mut_ptr());
        assert_eq!((returned, &answer), (number, &wanted), "{export} returned the left, expected was {expected:?}");
        *self.calls.entry(export).or_insert(0) += 1;
        self.met[number as usize] += 1;
    }

    fn read(&mut self, file: &[u8]) {
        self.asked = Asked { file: file.to_vec(), ..Asked::default() };
        let lent = Lent::holding(&mut self.random, file);
        let before = lent.clone();
        let problem = reference::read(file);
        let counts = problem.as_ref().map(Problem::counts).map_err(|refusal| *refusal);
        let expected = counts.map(|c| [c.functions, c.vertices, c.edges, c.loops].map(u64::from).to_vec());
        let part = lent.part();
        // SAFETY: the part and the answer are valid for the call, and apart.
        self.call("examiner_read", &expected, |answer| unsafe { examiner::raw::examiner_read(part.as_ptr(), part.len(), answer) });
        let wrapped = plain(examiner::read(part)).map(|c| [c.functions, c.vertices, c.edges, c.loops].map(|count| count as u64).to_vec());
        assert_eq!(wrapped, expected);
        assert_eq!(lent, before);
        if let Ok(problem) = problem {
            self.spelt(file, problem.counts());
            self.edition(file, &problem);
        }
    }

    fn write(&mut self, file: &[u8], length: usize) {
        self.asked = Asked { file: file.to_vec(), ..Asked::default() };
        let lent = Lent::holding(&mut self.random, file);
        let before = lent.clone();
        let mut out = Lent::random(&mut self.random, length);
        let mut wrapper_out = out.clone();
        let mut wanted = out.clone();
        let written = reference::write(file, wanted.part_mut());
        let (part, room) = (lent.part(), out.part_mut());
        // SAFETY: the parts and the answer are valid for the call, and apart.
        self.call("examiner_write", &written.map(|bytes| vec![bytes as u64]), |answer| unsafe {
            examiner::raw::examiner_write(part.as_ptr(), part.len(), room.as_mut_ptr(), room.len(), answer)
        });
        assert_eq!(plain(examiner::write(part, wrapper_out.part_mut())), written);
        assert_eq!((&out, &wrapper_out, &lent), (&wanted, &wanted, &before));
        match written {
            Ok(bytes) => self.written_back(file, &out.part()[..bytes], length),
            Err(refusal) => self.refused_to_write(file, refusal),
        }
    }

    fn write_fields(&mut self, fields: &[u32; FIELDS], length: usize) {
        self.asked = Asked { fields: fields.to_vec(), ..Asked::default() };
        let lent = Lent::holding(&mut self.random, fields);
        let before = lent.clone();
        let mut out = Lent::random(&mut self.random, length);
        let mut wrapper_out = out.clone();
        let mut wanted = out.clone();
        let written = reference::write_fields(fields, wanted.part_mut());
        let (part, room) = (lent.part(), out.part_mut());
        // SAFETY: `part` has a place for each field; all are valid for the call, and apart.
        self.call("examiner_write_fields", &written.map(|bytes| vec![bytes as u64]), |answer| unsafe {
            examiner::raw::examiner_write_fields(part.as_ptr(), room.as_mut_ptr(), room.len(), answer)
        });
        assert_eq!(plain(examiner::write_fields(&wrapped_fields(fields), wrapper_out.part_mut())), written);
        assert_eq!((&out, &wrapper_out, &lent), (&wanted, &wanted, &before));
    }

    /// Inline into so many bytes: the file, if there is one.
    fn inline(&mut self, numbers: &Numbers, length: usize) -> Option<Vec<u8>> {
        let graphs = numbers[2..].chunks(GRAPH).take(numbers[1] as usize).map(|graph| graph_of(graph, numbers[1]));
        self.asked = Asked { fields: numbers[..2].to_vec(), drawing: graphs.collect(), ..Asked::default() };
        let lent = Lent::holding(&mut self.random, numbers);
        let mut out = Lent::random(&mut self.random, length);
        let mut wrapper_out = out.clone();
        let mut wanted = out.clone();
        let written = reference::inline(numbers, wanted.part_mut());
        let before = lent.clone();
        let (part, room) = (lent.part(), out.part_mut());
        // SAFETY: `part` has all places of a drawing; all are valid for the call, and apart.
        self.call("examiner_inline", &written.map(|bytes| vec![bytes as u64]), |answer| unsafe {
            examiner::raw::examiner_inline(part.as_ptr(), room.as_mut_ptr(), room.len(), answer)
        });
        if let Some(drawing) = wrapped_drawing(numbers) {
            assert_eq!(plain(examiner::inline(&drawing, wrapper_out.part_mut())), written);
            assert_eq!(wrapper_out, wanted);
        }
        assert_eq!((&out, &lent), (&wanted, &before));
        self.saw(INLINED, written.is_ok());
        for (number, what) in DRAWING_REFUSED {
            self.saw(what, written.is_err_and(|refusal| refusal.number == number));
        }
        written.ok().map(|bytes| out.part()[..bytes].to_vec())
    }

    /// A drawing with any values in its spare places, mostly into bytes enough.
    fn drawing(&mut self, drawing: &Drawing) -> Option<Vec<u8>> {
        let mut numbers = drawing.to_numbers();
        if self.random.percent(70) {
            drawings::fill_spare_places(&mut self.random, &mut numbers);
        }
        let needed = reference::inline(&numbers, &mut [0; LONGEST]).unwrap_or(40);
        let length = match self.random.count(0..=9) {
            0 => self.random.count(0..=needed - 1),
            1 => needed,
            _ => needed + self.random.count(1..=9),
        };
        self.inline(&numbers, length)
    }

    /// A lawful drawing, runs of it with a call stack, and walks through its one problem.
    fn lawful_drawing(&mut self, plan: &DrawingPlan, most: usize) {
        let mut drawing = drawings::lawful(&mut self.random, plan);
        let layout = layouts::lawful(&mut self.random, plan.functions);
        if drawings::fits(&drawing) {
            let mut problem = reference::inline::recursively(&drawing);
            layouts::fit_scratchpad(&mut self.random, &mut problem, &layout);
            drawing.scratchpad = problem.scratchpad;
            self.inlined(&drawing, &problem);
        }
        let Some(file) = self.drawing(&drawing) else { return };
        self.read(&file);
        for turn in 0..3 {
            let layout = if turn == 0 { layout.clone() } else { layouts::lawful(&mut self.random, plan.functions) };
            let length = self.random.count(1..=most);
            if let Some(run) = drawings::lawful_run(&mut self.random, &drawing, length, 2 * most + 200) {
                self.drawn_run(&drawing, &file, &layout, &run);
            }
        }
        let problem = reference::read(&file).expect("accepted");
        let walk = walks::wandering(&mut self.random, &problem, most, 2 * most + 200);
        self.layout_and_walk(&file, &layout, &walk);
        self.every_eviction(&problem, &file, &layout);
    }

    /// A lawful run of the drawn program is a lawful walk of the one problem, with the same cycles, loads and functions held in the end, and
    /// takes no longer than the bound.
    fn drawn_run(&mut self, drawing: &Drawing, file: &[u8], layout: &[u8], run: &[stack::Stack]) {
        let walk = drawings::walk_of(drawing, run);
        let bound = self.bound(file, layout);
        let Some(walked) = self.run(file, layout, &walk) else {
            // the layout does not fit; the walk is never at fault
            assert!(reference::run(file, layout, &walk).is_err_and(|refusal| refusal.number == 13));
            return;
        };
        let functions = drawing.functions.len();
        let simulated = stack::simulate(drawing, &filled(layout, functions), run);
        assert_eq!(walked, simulated, "the walk is the left, the run with a call stack the right");
        self.saw(DRAWN_RUN, true);
        self.saw(DEEP_RUN, run.iter().any(|stack| stack.len() >= 4));
        self.saw(DRAWN_RUN_FILLED, layout.len() < functions);
        if let Some(bound) = bound {
            assert!(simulated.cycles <= bound, "a run of {} cycles passes the bound {bound}", simulated.cycles);
            self.saw("a run with a call stack, that takes all of its bound", simulated.cycles == bound);
        }
    }

    /// Counts what lawful drawings are like.
    fn inlined(&mut self, drawing: &Drawing, problem: &Problem) {
        let reached = |function: usize| problem.vertices.iter().any(|v| v.function as usize == function);
        let used: Vec<&DrawnFunction> = drawing.functions.iter().enumerate().filter(|(f, _)| reached(*f)).map(|(_, drawn)| drawn).collect();
        let calls = |pick: &dyn Fn(&DrawnFunction, u32) -> bool| {
            used.iter().any(|drawn| (0..=drawn.last_vertex()).any(|v| drawn.callee_of(v).is_some() && pick(drawn, v)))
        };
        let callers = |callee: u32| used.iter().filter(|drawn| drawn.vertices.iter().any(|v| v.callee == Some(callee))).count();
        self.saw(CALL_AT_0, calls(&|_, vertex| vertex == 0));
        self.saw(CALL_IN_HEADER, calls(&|drawn, vertex| drawn.loops.iter().any(|l| l.header == vertex)));
        self.saw(CALL_AT_LAST, calls(&|drawn, vertex| drawn.loops.iter().any(|l| l.last == vertex)));
        self.saw(UNREACHED, used.len() < drawing.functions.len());
        self.saw(SHARED, (0..drawing.functions.len() as u32).any(|callee| callers(callee) > 1));
    }

    fn interference(&mut self, file: &[u8], length: usize) {
        self.asked = Asked { file: file.to_vec(), ..Asked::default() };
        let lent = Lent::holding(&mut self.random, file);
        let before = lent.clone();
        let mut words = Lent::random(&mut self.random, length);
        let mut wrapper_words = words.clone();
        let mut wanted = words.clone();
        let filled = reference::interference(file, wanted.part_mut());
        let (part, room) = (lent.part(), words.part_mut());
        // SAFETY: the parts and the answer are valid for the call, and apart.
        self.call("examiner_interference", &filled.map(|words| vec![words as u64]), |answer| unsafe {
            examiner::raw::examiner_interference(part.as_ptr(), part.len(), room.as_mut_ptr(), room.len(), answer)
        });
        assert_eq!(plain(examiner::interference(part, wrapper_words.part_mut())), filled);
        assert_eq!((&words, &wrapper_words, &lent), (&wanted, &wanted, &before));
    }

    fn bound(&mut self, file: &[u8], layout: &[u8]) -> Option<u64> {
        self.asked = Asked { file: file.to_vec(), layout: layout.to_vec(), ..Asked::default() };
        let (lent, lent_layout) = (Lent::holding(&mut self.random, file), Lent::holding(&mut self.random, layout));
        let before = (lent.clone(), lent_layout.clone());
        let bound = reference::bound(file, layout);
        let expected = bound.map(|b| vec![b.need, b.contested, b.first_loads, b.bound]);
        let (part, regions) = (lent.part(), lent_layout.part());
        // SAFETY: the parts and the answer are valid for the call, and apart.
        self.call("examiner_bound", &expected, |answer| unsafe {
            examiner::raw::examiner_bound(part.as_ptr(), part.len(), regions.as_ptr(), regions.len(), answer)
        });
        let wrapped = plain(examiner::bound(part, regions));
        assert_eq!(wrapped.map(|b| vec![b.need, b.contested, b.first_loads, b.bound]), expected);
        assert_eq!((lent, lent_layout), before);
        if let Ok(bound) = bound {
            self.saw("a contested vertex", bound.contested > 0);
            self.saw("no contested vertex", bound.contested == 0);
            self.saw("first loads", bound.first_loads > 0);
            self.saw("a bound above 2^53", bound.bound > 1 << 53);
            self.accepted(file, layout, bound.need);
        }
        bound.ok().map(|bound| bound.bound)
    }

    /// The totals of a lawful problem under a layout that fits. Counts what they are like.
    fn totals<'a>(&mut self, problem: &'a Problem, layout: &[u8]) -> Priced<'a> {
        let (regions, _) = check(problem, layout).expect("it fits");
        let priced = Priced::new(problem, &regions);
        for (what, it) in priced.cases() {
            self.saw(what, it);
        }
        priced
    }

    /// Counts the accepted layouts that had to be filled in.
    fn accepted(&mut self, file: &[u8], layout: &[u8], need: u64) {
        let problem = reference::read(file).expect("accepted");
        let short = layout.len() < problem.functions.len();
        self.saw(SHORT, short);
        self.saw(SHORT_WITH_GAP, short && layouts::has_gap(layout));
        self.saw("a short layout that takes the whole scratchpad", short && need == u64::from(problem.scratchpad));
    }

    /// Counts the lawful walks whose layout had to be filled in below what it lists.
    fn walked(&mut self, file: &[u8], layout: &[u8]) {
        let functions = reference::read(file).expect("accepted").functions.len();
        self.saw(WALK_WITH_GAP, layout.len() < functions && layouts::has_gap(layout));
    }

    fn run(&mut self, file: &[u8], layout: &[u8], walk: &[u32]) -> Option<Run> {
        self.asked = Asked { file: file.to_vec(), layout: layout.to_vec(), walk: walk.to_vec(), ..Asked::default() };
        let (lent, lent_layout) = (Lent::holding(&mut self.random, file), Lent::holding(&mut self.random, layout));
        let lent_walk = Lent::holding(&mut self.random, walk);
        let before = (lent.clone(), lent_layout.clone(), lent_walk.clone());
        let run = reference::run(file, layout, walk);
        let mut held = Lent::random(&mut self.random, REGIONS);
        let mut wanted = held.clone();
        if let Ok(run) = &run {
            wanted.part_mut().copy_from_slice(&run.held);
        }
        let expected = run.as_ref().map(|run| vec![run.cycles, run.loads]).map_err(|refusal| *refusal);
        let (part, regions, entries, held_part) = (lent.part(), lent_layout.part(), lent_walk.part(), held.part_mut());
        // SAFETY: the parts, `held` with its 32 places and the answer are valid for the call, and apart.
        self.call("examiner_run", &expected, |answer| unsafe {
            examiner::raw::examiner_run(
                part.as_ptr(),
                part.len(),
                regions.as_ptr(),
                regions.len(),
                entries.as_ptr(),
                entries.len(),
                held_part.as_mut_ptr(),
                answer,
            )
        });
        assert_eq!(held, wanted);
        let wrapped = plain(examiner::run(part, regions, entries));
        let held_after = |held: [Option<u8>; 32]| held.map(|function| function.unwrap_or(255));
        assert_eq!(wrapped.map(|w| (w.cycles, w.loads, held_after(w.held))), run.clone().map(|r| (r.cycles, r.loads, r.held)));
        assert_eq!((lent, lent_layout, lent_walk), before);
        self.saw("a lawful walk with a load of cost 0", run.as_ref().is_ok_and(|run| run.loads > 0 && run.cycles == 0));
        if run.is_ok() {
            self.walked(file, layout);
        }
        run.ok()
    }

    /// Bound and Run with one layout and one walk, and Eviction with any vertex. Where the first two give their results, no run is longer than
    /// the bound.
    fn layout_and_walk(&mut self, file: &[u8], layout: &[u8], walk: &[u32]) {
        self.some_eviction(file, layout);
        if let (Some(bound), Some(Run { cycles, .. })) = (self.bound(file, layout), self.run(file, layout, walk)) {
            assert!(cycles <= bound, "a run of {cycles} cycles passes the bound {bound}");
            self.saw("a run within its bound", cycles < bound);
            self.saw("a run that takes all of its bound", cycles == bound);
        }
    }

    /// Every operation on one file that need not be lawful.
    fn file(&mut self, file: &[u8]) {
        self.read(file);
        let problem = reference::read(file);
        // a padded file is longer than what is written of it
        let needed = problem.as_ref().map_or(file.len(), |problem| file_of(problem).len());
        let length = match self.random.count(0..=4) {
            0 => self.random.count(0..=needed),
            1 => needed,
            2 => self.random.count(needed..=file.len()),
            _ => file.len() + self.random.count(0..=9),
        };
        self.write(file, length);
        let words = problem.map_or(9, |problem| problem.vertices.len() * problem.functions.len());
        let length = match self.random.count(0..=3) {
            0 => self.random.count(0..=words),
            1 => words,
            _ => words + self.random.count(0..=9),
        };
        self.interference(file, length);
    }

    /// Every operation on one problem that need not be lawful, and random layouts and walks.
    fn problem(&mut self, problem: &Problem) {
        let file = file_of(problem);
        self.file(&file);
        self.record(problem);
        let layout = layouts::any(&mut self.random, problem.functions.len());
        self.layout_and_walk(&file, &layout, &[0]);
    }

    /// The problem as a record, if it has places for all items.
    fn record(&mut self, problem: &Problem) {
        let Counts { functions, vertices, edges, loops } = problem.counts();
        if functions > 32 || vertices > 128 || edges > 512 || loops > 32 {
            return;
        }
        let mut fields = problem.to_fields();
        if self.random.percent(70) {
            fill_spare_places(&mut self.random, &mut fields);
        }
        let needed = file_of(problem).len();
        let length = if self.random.percent(25) { self.random.count(0..=needed) } else { needed + self.random.count(0..=9) };
        self.write_fields(&fields, length);
    }

    /// A lawful problem with several layouts and walks, lawful and broken.
    fn lawful_problem(&mut self, plan: &Plan, most: usize) {
        let mut problem = lawful(&mut self.random, plan);
        let functions = problem.functions.len();
        let layout = layouts::lawful(&mut self.random, functions);
        layouts::fit_scratchpad(&mut self.random, &mut problem, &layout);
        let file = file_of(&problem);
        self.saw("all counts at their greatest", problem.counts() == Counts { functions: 32, vertices: 128, edges: 512, loops: 32 });
        let is_dead = |l: &Loop| !problem.edges.iter().any(|e| l.holds(e.from) && !l.holds(e.to));
        self.saw("a dead loop", problem.loops.iter().any(is_dead));
        self.saw("a loop of bound 1", problem.loops.iter().any(|l| l.bound == 1));
        if check(&problem, &layout).is_ok() {
            self.totals(&problem, &layout);
        }
        self.file(&file);
        self.record(&problem);
        for turn in 0..3 {
            let layout = if turn == 0 { layout.clone() } else { layouts::any(&mut self.random, functions) };
            let length = self.random.count(1..=most);
            let walk = if self.random.percent(15) {
                walks::roaming(&mut self.random, &problem, length)
            } else {
                walks::wandering(&mut self.random, &problem, length, 2 * most + 200)
            };
            self.layout_and_walk(&file, &layout, &walk);
            let damage = self.random.field(0..=walks::DAMAGES - 1);
            let broken = walks::damaged(&mut self.random, &problem, &walk, damage);
            self.layout_and_walk(&file, &layout, &broken);
            // in large problems under one layout: there are many vertices
            if turn == 0 || problem.vertices.len() <= 24 {
                self.every_eviction(&problem, &file, &layout);
            }
        }
    }
}

/// A record in the wrapper's form.
fn wrapped_fields(fields: &[u32; FIELDS]) -> examiner::Fields {
    use examiner::{Edge, Fields, Function, Loop, Vertex};
    let [functions, vertices, edges, loops] = COUNT_PLACES;
    let pair = |count: usize, item: usize| (fields[count + 1 + 2 * item], fields[count + 2 + 2 * item]);
    let mut wrapped = Fields {
        scratchpad: fields[0],
        function_count: fields[functions],
        vertex_count: fields[vertices],
        edge_count: fields[edges],
        loop_count: fields[loops],
        ..Fields::default()
    };
    for (item, function) in wrapped.functions.iter_mut().enumerate() {
        let place = functions + 1 + 3 * item;
        *function = Function { size: fields[place], load: fields[place + 1], check: fields[place + 2] };
    }
    for (item, vertex) in wrapped.vertices.iter_mut().enumerate() {
        let (function, cost) = pair(vertices, item);
        *vertex = Vertex { function, cost };
    }
    for (item, edge) in wrapped.edges.iter_mut().enumerate() {
        let (from, to) = pair(edges, item);
        *edge = Edge { from, to };
    }
    for (item, l) in wrapped.loops.iter_mut().enumerate() {
        let place = loops + 1 + 3 * item;
        *l = Loop { header: fields[place], last: fields[place + 1], bound: fields[place + 2] };
    }
    wrapped
}

/// A drawing in the wrapper's form, with more items than there are places where a count says so; nothing where there would be very many.
fn wrapped_drawing(numbers: &Numbers) -> Option<examiner::Drawing> {
    /// So many items, the first of them these.
    fn counted<T: Default + Clone>(count: u32, items: impl Iterator<Item = T>) -> Option<Vec<T>> {
        let mut items: Vec<T> = items.collect();
        items.resize(usize::try_from(count).ok().filter(|&count| count <= 1_000)?, T::default());
        Some(items)
    }
    let wrapped = |graph: &[u32]| {
        let (drawn, counts) = graph_of(graph, numbers[1]);
        let vertex = |v: &DrawnVertex| examiner::DrawnVertex { callee: v.callee, cost: v.cost };
        let edge = |e: &Edge| examiner::Edge { from: e.from, to: e.to };
        let looped = |l: &Loop| examiner::Loop { header: l.header, last: l.last, bound: l.bound };
        Some(examiner::DrawnFunction {
            size: drawn.function.size,
            load: drawn.function.load,
            check: drawn.function.check,
            vertices: counted(counts.vertices, drawn.vertices.iter().map(vertex))?,
            edges: counted(counts.edges, drawn.edges.iter().map(edge))?,
            loops: counted(counts.loops, drawn.loops.iter().map(looped))?,
        })
    };
    let functions: Option<Vec<examiner::DrawnFunction>> = numbers[2..].chunks(GRAPH).take(numbers[1] as usize).map(wrapped).collect();
    Some(examiner::Drawing { scratchpad: numbers[0], functions: counted(numbers[1], functions?.into_iter())? })
}

fn small_lawful_problems(c: &mut Comparison) {
    for _ in 0..10_000 * effort() {
        let plan = Plan::small(&mut c.random, 14);
        c.lawful_problem(&plan, 60);
    }
}

fn problems_of_any_size(c: &mut Comparison) {
    for _ in 0..1_500 * effort() {
        let plan = Plan::medium(&mut c.random);
        c.lawful_problem(&plan, 400);
    }
}

fn problems_at_every_greatest_count(c: &mut Comparison) {
    for _ in 0..300 * effort() {
        let plan = Plan::largest(&mut c.random);
        c.lawful_problem(&plan, 2_000);
    }
}

fn damaged_bytes(c: &mut Comparison) {
    for case in 0..30_000 * effort() {
        let plan = match case % 40 {
            0 => Plan::largest(&mut c.random),
            1 | 2 => Plan::medium(&mut c.random),
            _ => Plan::small(&mut c.random, 10),
        };
        let problem = lawful(&mut c.random, &plan);
        let damage = c.random.field(0..=FILE_DAMAGES - 1);
        let file = damaged_file(&mut c.random, &problem, damage);
        c.file(&file);
        let layout = layouts::any(&mut c.random, plan.functions);
        c.layout_and_walk(&file, &layout, &[0]);
    }
}

fn every_cut(c: &mut Comparison) {
    let mut problems = vec![p(), q(), r(), with_total(MOST_BOUND, 0)];
    let plan = Plan { sizes: Amounts::Any, costs: Amounts::Any, ..Plan::small(&mut c.random, 14) };
    problems.push(lawful(&mut c.random, &plan));
    let plan = Plan::largest(&mut c.random);
    problems.push(lawful(&mut c.random, &plan));
    for problem in problems {
        let numbers = numbers(&problem);
        for file in [spelled(&numbers), in_five_bytes(&numbers), padded(&mut c.random, &numbers)] {
            for length in 0..=file.len() {
                c.read(&file[..length]);
                c.write(&file[..length], file.len());
            }
        }
    }
}

fn every_value_of_every_byte(c: &mut Comparison) {
    // with all functions in one region, so that the whole file has its say in Bound
    let short = [(M10.to_vec(), &[0][..]), (file_of(&p()), &[0, 0, 0]), (file_of(&q()), &[0, 0]), (file_of(&r()), &[0, 0])];
    let padded = [(in_five_bytes(&M10.map(u32::from)), &[0][..]), (in_five_bytes(&numbers(&r())), &[0, 0])];
    for (file, shared) in short.into_iter().chain(padded) {
        for at in 0..file.len() {
            for value in 0..=255 {
                let mut file = file.clone();
                file[at] = value;
                c.read(&file);
                c.layout_and_walk(&file, shared, &[0]);
            }
        }
    }
}

fn broken_rules(c: &mut Comparison) {
    for case in 0..30_000 * effort() {
        let plan = match case % 50 {
            0 => Plan::largest(&mut c.random),
            1 | 2 => Plan::medium(&mut c.random),
            _ => Plan::small(&mut c.random, 12),
        };
        let problem = lawful(&mut c.random, &plan);
        let damaged = damaged_problem(&mut c.random, &problem, case as u32 % PROBLEM_DAMAGES);
        c.problem(&damaged);
    }
}

fn damaged_records(c: &mut Comparison) {
    for case in 0..20_000 * effort() {
        let plan = if case % 10 == 0 { Plan::medium(&mut c.random) } else { Plan::small(&mut c.random, 12) };
        let problem = lawful(&mut c.random, &plan);
        let mut fields = problem.to_fields();
        fill_spare_places(&mut c.random, &mut fields);
        for _ in 0..c.random.count(1..=2) {
            damage_fields(&mut c.random, &mut fields);
        }
        let length = c.random.count(0..=300);
        c.write_fields(&fields, length);
    }
    for _ in 0..500 {
        let mut fields = [0; FIELDS];
        fields.iter_mut().for_each(|field| *field = c.random.field(0..=4));
        c.write_fields(&fields, 100);
        fields.iter_mut().for_each(|field| *field = c.random.any() as u32);
        c.write_fields(&fields, 100);
    }
}

/// Graphs of a few vertices with random edges and loops, few of them lawful.
fn any_small_graph(c: &mut Comparison) {
    for _ in 0..20_000 * effort() {
        let vertices = c.random.field(1..=6);
        let last = vertices - 1;
        let mut edges = Vec::new();
        for from in 0..vertices {
            for to in 0..vertices {
                let share = if to == from + 1 { 85 } else { 12 };
                if c.random.percent(share) {
                    edges.push(Edge { from, to });
                }
            }
        }
        let mut loops = Vec::new();
        for header in 0..vertices {
            if c.random.percent(25) {
                loops.push(Loop { header, last: c.random.field(header..=last), bound: c.random.field(1..=3) });
            }
        }
        let functions = [(1, 7), (2, 100)].map(|(size, load)| Function { size, load, check: *c.random.pick(&[0, 5]) }).to_vec();
        let vertices = (0..vertices).map(|_| Vertex { function: c.random.field(0..=1), cost: c.random.field(0..=9) }).collect();
        let problem = Problem { scratchpad: 3, functions, vertices, edges, loops };
        c.saw("a random graph that is lawful", reference::graph::check(&problem).is_ok());
        c.problem(&problem);
    }
}

/// Bounds at and past the limit, and what must not count towards it.
fn limits(c: &mut Comparison) {
    let totals =
        [0, 1, MOST_BOUND / 2, MOST_BOUND - 40, MOST_BOUND - 1, MOST_BOUND, MOST_BOUND + 1, MOST_BOUND + 40, 4_000_000_000_000_000_000];
    for total in totals {
        for load in [0, 1, 39, 40, 41, MOST_SIZE] {
            let problem = with_total(total, load);
            let expected = total.checked_add(u64::from(load)).filter(|&bound| bound <= MOST_BOUND);
            assert_eq!(reference::bound(&file_of(&problem), &[]).ok().map(|bound| bound.bound), expected);
            c.saw("a bound of exactly the limit", expected == Some(MOST_BOUND));
            c.saw("first loads that pass the limit", total <= MOST_BOUND && expected.is_none());
            c.layout_and_walk(&file_of(&problem), &[], &[0]);
            c.every_eviction(&problem, &file_of(&problem), &[]);
        }
    }
    for (bound, dead) in [(1, false), (2, false), (1, true), (MOST_VISITS, true)] {
        let problem = detour(bound, dead);
        let file = file_of(&problem);
        assert_eq!(reference::bound(&file, &[0, 0]).is_ok(), bound == 1 || dead);
        c.saw("a huge iteration that no lawful walk takes", bound == 1 && !dead);
        c.saw("a huge loop without a way out", dead);
        c.file(&file);
        c.layout_and_walk(&file, &[0, 0], &[0, 1, 7]);
        c.layout_and_walk(&file, &[0, 0], &[0, 1, 2]);
    }
    for depth in 1..=32 {
        let problem = deepest(depth);
        let file = file_of(&problem);
        c.saw("nested 32 deep", depth == 32);
        c.file(&file);
        let straight: Vec<u32> = (0..=depth + 1).collect();
        c.layout_and_walk(&file, &[0, 0], &straight);
        c.layout_and_walk(&file, &[0, 1], &straight);
    }
}

/// A small problem with many functions, in a region each about every second time.
fn branching(c: &mut Comparison, most: usize) -> (Problem, Vec<u8>) {
    let plan = Plan::branching(&mut c.random, most);
    let problem = lawful(&mut c.random, &plan);
    let layout = if c.random.percent(50) { vec![] } else { layouts::lawful(&mut c.random, plan.functions) };
    (problem, layout)
}

/// Problems where the totals part, and the walks that are charged the most.
fn two_totals(c: &mut Comparison) {
    for problem in [s(), t(), u(), v(), w()] {
        c.totals(&problem, &[]);
        c.layout_and_walk(&file_of(&problem), &[], &[0]);
    }
    for _ in 0..10_000 * effort() {
        let (problem, layout) = branching(c, 24);
        let priced = c.totals(&problem, &layout);
        for (what, it) in priced.readings() {
            c.saw(what, it);
        }
        for charges in [&priced.first(), &priced.second] {
            let walk = by_states(&problem, charges, 1_000).map_or(vec![0], |(_, walk)| walk);
            c.layout_and_walk(&file_of(&problem), &layout, &walk);
        }
        c.every_eviction(&problem, &file_of(&problem), &layout);
    }
}

/// Either total at the limit and one past it, the other as it falls.
fn totals_at_the_limit(c: &mut Comparison) {
    for _ in 0..1_500 * effort() {
        let (problem, layout) = branching(c, 24);
        let Totals { first, second, .. } = c.totals(&problem, &layout).totals;
        for (total, past) in [(first, 0), (first, 1), (second, 0), (second, 1)] {
            let more = u128::from(MOST_BOUND) + past - total;
            let followed = followed_by(problem.clone(), more as u64);
            let totals = c.totals(&followed, &layout).totals;
            assert_eq!((totals.first, totals.second), (first + more, second + more));
            let bound = c.bound(&file_of(&followed), &layout);
            assert_eq!(bound.map(u128::from), Some(totals.smaller()).filter(|&bound| bound <= u128::from(MOST_BOUND)));
            if past > 0 {
                c.every_eviction(&followed, &file_of(&followed), &layout);
            }
        }
    }
}

/// The longest file that is written, the same padded, spoilt near its end, and input that is far longer.
fn long_files(c: &mut Comparison) {
    for _ in 0..5 {
        let problem = longest(&mut c.random);
        let file = file_of(&problem);
        assert_eq!(file.len(), LONGEST);
        c.problem(&problem);
        let padded = in_five_bytes(&numbers(&problem));
        assert_eq!(padded.len(), 7_390);
        c.file(&padded);
        c.file(&[&padded[..], &[0]].concat());
        let place = LONGEST - spell(MOST_VISITS).len();
        let last_bound = [&file[..place], &[0xFF, 0xFF, 0xFF, 0xFF, 0x10]].concat();
        assert_eq!(reference::read(&last_bound), Err(Refusal { number: 2, place: place as u64 }));
        c.file(&last_bound);
        for more in [1, 2, 5, 10_000, 100_000] {
            let longer = [file.clone(), c.random.bytes(more)].concat();
            c.read(&longer);
            c.write(&longer, 3_000);
        }
        for byte in [0x00, 0x01, 0x7F, 0x80, 0xFF] {
            c.file(&vec![byte; 100_000]);
        }
    }
}

/// Vertex 1 heads a loop that is left from there; inside it lies a nest worth more than the limit, from which the only way leads back
/// to vertex 1, or, dead, nowhere.
fn detour(bound: u32, dead: bool) -> Problem {
    let edge = |from, to| Edge { from, to };
    let mut edges = vec![
        edge(0, 1),
        edge(1, 2),
        edge(1, 7),
        edge(2, 3),
        edge(3, 4),
        edge(4, 5),
        edge(5, 2),
        edge(5, 3),
        edge(5, 4),
        edge(5, 5),
        edge(5, 6),
        edge(6, 1),
    ];
    let mut loops: Vec<Loop> = (2..=5).map(|header| Loop { header, last: 5, bound: MOST_VISITS }).collect();
    if dead {
        edges.retain(|e| e.from != 5 || e.to <= 5);
        edges.push(edge(1, 6));
        loops.insert(0, Loop { header: 1, last: 6, bound: 1 });
    } else {
        loops.insert(0, Loop { header: 1, last: 6, bound });
    }
    edges.sort_unstable();
    let vertices = (0..8).map(|v| Vertex { function: v % 2, cost: MOST_SIZE }).collect();
    Problem {
        scratchpad: 2,
        functions: vec![Function { size: 1, load: 3, check: 0 }, Function { size: 1, load: MOST_SIZE, check: 0 }],
        vertices,
        edges,
        loops,
    }
}

/// So many loops of the greatest bound, each inside the one before, all with a way out.
fn deepest(depth: u32) -> Problem {
    let mut edges: Vec<Edge> = (0..=depth).map(|v| Edge { from: v, to: v + 1 }).collect();
    edges.extend((1..=depth).map(|header| Edge { from: depth, to: header }));
    edges.sort_unstable();
    let loops = (1..=depth).map(|header| Loop { header, last: depth, bound: MOST_VISITS }).collect();
    let vertices = (0..=depth + 1).map(|v| Vertex { function: v % 2, cost: if v % 3 == 0 { MOST_SIZE } else { 0 } }).collect();
    let functions = vec![Function { size: 1, load: 5, check: 0 }, Function { size: 1, load: MOST_SIZE, check: 0 }];
    Problem { scratchpad: 2, functions, vertices, edges, loops }
}

/// Every entry of some walks changed to every vertex and to unknown ones, and every beginning of them.
fn every_entry_of_some_walks(c: &mut Comparison) {
    let mut cases = vec![(p(), (0..7).collect()), (q(), vec![0, 2, 3]), (r(), vec![0, 1, 2, 1, 2, 1, 2, 1, 3])];
    while cases.len() < 60 {
        let plan = Plan { bounds: vec![1, 2, 3], ..Plan::small(&mut c.random, 8) };
        let problem = lawful(&mut c.random, &plan);
        if let Some(walk) = walks::lawful(&mut c.random, &problem, 12, 30) {
            cases.push((problem, walk));
        }
    }
    for (problem, walk) in cases {
        let file = file_of(&problem);
        let shared = vec![0; problem.functions.len()];
        let vertices = problem.vertices.len() as u32;
        for position in 0..=walk.len() {
            c.run(&file, &shared, &walk[..position]);
            for entry in (0..vertices + 2).chain([127, 128, 255, 256, 65_536, u32::MAX]) {
                let mut changed = walk.clone();
                if position < walk.len() {
                    changed[position] = entry;
                } else {
                    changed.push(entry);
                }
                c.run(&file, &shared, &changed);
            }
        }
    }
}

/// Walks of exactly 1,000,000 entries, of one more, and broken near their ends.
fn long_walks(c: &mut Comparison) {
    // a loop of the greatest bound around a long chain, with a shorter loop and a short cut in it: walks of up to 1,400,834 entries
    let mut edges: Vec<Edge> = (0..31).map(|v| Edge { from: v, to: v + 1 }).collect();
    edges.extend([(9, 2), (30, 1), (3, 5)].map(|(from, to)| Edge { from, to }));
    edges.sort_unstable();
    let problem = Problem {
        scratchpad: MOST_SIZE,
        functions: [(3, MOST_SIZE), (4, 1), (5, 9)].map(|(size, load)| Function { size, load, check: 0 }).to_vec(),
        vertices: (0..32).map(|v| Vertex { function: v * v % 7 % 3, cost: MOST_SIZE }).collect(),
        edges,
        loops: vec![Loop { header: 1, last: 30, bound: MOST_VISITS }, Loop { header: 2, last: 9, bound: 40 }],
    };
    let file = file_of(&problem);
    let walk = walks::of_length(&mut c.random, &problem, MOST_ENTRIES).expect("there are such walks");
    let shared = [0, 0, 0];
    // the last is filled in to 0 0 1
    for layout in [&[0, 1, 2][..], &shared, &[0, 0]] {
        assert!(reference::run(&file, layout, &walk).is_ok());
        c.saw("a lawful walk of 1,000,000 entries", true);
        c.layout_and_walk(&file, layout, &walk);
    }
    let mut broken = walk.clone();
    *broken.last_mut().expect("long") = 0;
    c.layout_and_walk(&file, &shared, &broken);
    *broken.last_mut().expect("long") = 32;
    c.layout_and_walk(&file, &shared, &broken);
    c.layout_and_walk(&file, &shared, &walk[..MOST_ENTRIES - 1]);
    let mut longer = walk;
    longer.push(0);
    c.layout_and_walk(&file, &shared, &longer);
    longer[0] = 77;
    c.layout_and_walk(&file, &shared, &longer);
    longer.push(1);
    c.layout_and_walk(&file, &[0, 1, 2], &longer);
    // what comes before 17
    c.layout_and_walk(&file, &[0, 1, 2, 3], &longer);
    c.layout_and_walk(&file, &[0, 32, 2], &longer);
    c.layout_and_walk(&file[1..], &shared, &longer);
}

fn small_drawings(c: &mut Comparison) {
    for _ in 0..8_000 * effort() {
        let plan = DrawingPlan::random(&mut c.random, 8, 7);
        c.lawful_drawing(&plan, 60);
    }
}

fn drawings_of_any_size(c: &mut Comparison) {
    for case in 0..800 * effort() {
        let plan = match case % 10 {
            0 => DrawingPlan::random(&mut c.random, MOST_FUNCTIONS, MOST_VERTICES),
            1 | 2 => DrawingPlan::random(&mut c.random, 4, 60),
            _ => DrawingPlan::random(&mut c.random, MOST_FUNCTIONS, 16),
        };
        c.lawful_drawing(&plan, 400);
    }
}

fn damaged_drawings(c: &mut Comparison) {
    for case in 0..2_500 * effort() {
        let plan = match case % 20 {
            0 => DrawingPlan::random(&mut c.random, MOST_FUNCTIONS, 30),
            _ => DrawingPlan::random(&mut c.random, 6, 8),
        };
        let drawing = drawings::lawful(&mut c.random, &plan);
        for damage in 0..DRAWING_DAMAGES {
            let damaged = drawings::damaged(&mut c.random, &drawing, damage);
            c.drawing(&damaged);
        }
        let mut numbers = drawing.to_numbers();
        drawings::fill_spare_places(&mut c.random, &mut numbers);
        for _ in 0..3 {
            drawings::damage_numbers(&mut c.random, &mut numbers);
            c.inline(&numbers, LONGEST);
        }
    }
    let mut numbers = d1().to_numbers();
    for _ in 0..100 {
        numbers.iter_mut().for_each(|number| *number = c.random.field(0..=4));
        c.inline(&numbers, 100);
        numbers.iter_mut().for_each(|number| *number = c.random.any() as u32);
        c.inline(&numbers, 100);
    }
}

/// The worked drawings, each count at its limit and one past it, and each number of a drawing at the ends of its range.
fn limits_of_drawings(c: &mut Comparison) {
    for drawing in [d1(), d2(), d3(), d4(), d5(), d6()] {
        let bytes = reference::inline(&drawing.to_numbers(), &mut [0; LONGEST]).expect("lawful");
        for length in 0..=bytes + 2 {
            c.inline(&drawing.to_numbers(), length);
        }
    }
    assert_eq!(c.inline(&d4().to_numbers(), 29), Some(D4.to_vec()));

    for (name, drawing, counts) in at_limits() {
        let [vertices, edges, loops] = counts;
        let file = c.inline(&drawing.to_numbers(), LONGEST);
        assert_eq!(file.is_some(), vertices <= 128 && edges <= 512 && loops <= 32);
        c.saw(name, true);
    }
    let mut refused = |functions: Vec<DrawnFunction>, what: &'static str, number: u8| {
        let numbers = Drawing { scratchpad: 99, functions }.to_numbers();
        assert_eq!(reference::inline::judge(&numbers).err().map_or(0, |refusal| refusal.number), number, "{what}");
        c.inline(&numbers, LONGEST);
        c.saw(what, true);
    };
    refused(vec![chain(&[]); 32], "32 functions drawn", 0);
    refused(vec![chain(&[]); 33], "33 functions drawn", 3);
    refused(vec![], "no function drawn", 3);
    refused(vec![chain(&[]), chain(&[None; 127])], "128 vertices drawn", 0);
    refused(vec![chain(&[]), chain(&[None; 128])], "129 vertices drawn", 3);
    refused((1..=32).map(|next| chain(&[Some(next % 32)])).collect(), "a circle of 32 functions", 18);
    for (callee, number) in [(254, 3), (256, 3), (2, 3), (1, 20), (0, 20)] {
        let mut last = chain(&[None]);
        last.vertices[1].callee = Some(callee);
        refused(vec![chain(&[None]), last], "an odd callee at a last vertex", number);
    }

    every_number_of_a_drawing(c);
    // the largest problems, as drawings that call nothing, and called from one vertex
    for _ in 0..10 * effort() {
        let plan = Plan::largest(&mut c.random);
        let problem = lawful(&mut c.random, &plan);
        let drawing = Drawing { scratchpad: 99, functions: vec![drawn(&problem); 32] };
        let file = c.drawing(&drawing);
        c.saw("all counts of a drawing at their greatest", file.is_some() && problem.edges.len() == MOST_EDGES);
        let called = Drawing { scratchpad: 99, functions: vec![chain(&[Some(1)]), drawn(&problem)] };
        c.drawing(&called);
    }
}

/// Each number of D3 at odd values.
fn every_number_of_a_drawing(c: &mut Comparison) {
    let numbers = d3().to_numbers();
    for place in drawings::counted_places(&numbers) {
        for value in ODD_VALUES.into_iter().chain([254, numbers[place].wrapping_add(1), numbers[place].wrapping_sub(1)]) {
            let mut changed = numbers.clone();
            changed[place] = value;
            c.inline(&changed, 100);
        }
    }
}

/// Null pointers with length 0.
fn empty_slices(c: &mut Comparison) {
    use examiner::raw;
    use std::ptr::{null, null_mut};
    let refused = |number, place| Err(Refusal { number, place });
    // SAFETY: a null pointer stands with length 0 alone; all else is valid for the call, and apart.
    unsafe {
        c.call("examiner_read", &refused(1, 0), |answer| raw::examiner_read(null(), 0, answer));
        c.call("examiner_write", &refused(1, 0), |answer| raw::examiner_write(null(), 0, null_mut(), 0, answer));
        c.call("examiner_write", &refused(10, 10), |answer| raw::examiner_write(M10.as_ptr(), 10, null_mut(), 0, answer));
        let fields = p().to_fields();
        let needed = file_of(&p()).len() as u64;
        c.call("examiner_write_fields", &refused(10, needed), |answer| raw::examiner_write_fields(fields.as_ptr(), null_mut(), 0, answer));
        let drawing = d4().to_numbers();
        c.call("examiner_inline", &refused(10, 29), |answer| raw::examiner_inline(drawing.as_ptr(), null_mut(), 0, answer));
        c.call("examiner_interference", &refused(10, 1), |answer| raw::examiner_interference(M10.as_ptr(), 10, null_mut(), 0, answer));
        c.call("examiner_bound", &Ok(vec![8, 0, 5, 15]), |answer| raw::examiner_bound(M10.as_ptr(), 10, null(), 0, answer));
        {
            let mut held = [7; 32];
            let place = held.as_mut_ptr();
            c.call("examiner_run", &refused(15, 0), |answer| raw::examiner_run(M10.as_ptr(), 10, null(), 0, null(), 0, place, answer));
            assert_eq!(held, [7; 32]);
        }
        c.call("examiner_eviction", &refused(10, 1), |answer| {
            raw::examiner_eviction(M10.as_ptr(), 10, null(), 0, 0, null_mut(), 0, answer)
        });
        let (file, layout) = (file_of(&p()), [0, 1, 1]);
        let (size, regions) = (file.len(), layout.as_ptr());
        // never: no entry written
        c.call("examiner_eviction", &Ok(vec![0, 3]), |answer| {
            raw::examiner_eviction(file.as_ptr(), size, regions, 3, 2, null_mut(), 0, answer)
        });
        c.call("examiner_word_refusal", &refused(10, 79), |answer| raw::examiner_word_refusal(13, 18, null_mut(), 0, answer));
        c.call("examiner_word_reason", &refused(10, 63), |answer| raw::examiner_word_reason(3, 0, null_mut(), 0, answer));
        c.call("examiner_read_sentence", &refused(22, 0), |answer| raw::examiner_read_sentence(null(), 0, answer));
    }
}

fn main() {
    let mut comparison = Comparison::new();
    type Group = fn(&mut Comparison);
    // the quick ones first, of files and of drawings; then the two totals, evictions, padded files, bounds of loops, check
    // costs, and sentences
    let groups: &[(&str, Group)] = &[
        ("empty slices", empty_slices),
        ("random small graphs", any_small_graph),
        ("every cut of some files", every_cut),
        ("every value of every byte of small files", every_value_of_every_byte),
        ("every entry of some walks", every_entry_of_some_walks),
        ("limits", limits),
        ("long files", long_files),
        ("long walks", long_walks),
        ("small lawful problems", small_lawful_problems),
        ("damaged records", damaged_records),
        ("damaged bytes", damaged_bytes),
        ("broken rules", broken_rules),
        ("problems of any size", problems_of_any_size),
        ("problems at every greatest count", problems_at_every_greatest_count),
        ("limits of drawings", limits_of_drawings),
        ("small drawings", small_drawings),
        ("damaged drawings", damaged_drawings),
        ("drawings of any size", drawings_of_any_size),
        ("two totals", two_totals),
        ("totals at the limit", totals_at_the_limit),
        ("worked evictions", evictions::worked_evictions),
        ("readings of evictions", evictions::readings_of_evictions),
        ("padded files", padding::padded_files),
        ("spoilt padded files", padding::spoilt_padded_files),
        ("loop bounds", loop_bounds::loop_bounds),
        ("long stays", loop_bounds::long_stays),
        ("check costs", check_costs::check_costs),
        ("editions", check_costs::editions),
        ("priced checks", check_costs::priced_checks),
        ("worded remarks", sentences::worded_remarks),
        ("bytes of sentences", sentences::bytes_of_sentences),
        ("odd sentences", sentences::odd_sentences),
        ("random texts", sentences::random_texts),
    ];
    for (index, (name, group)) in groups.iter().enumerate() {
        let started = Instant::now();
        let calls_before: usize = comparison.calls.values().sum();
        comparison.random = Random::seeded(1_000 + index as u64);
        if catch_unwind(AssertUnwindSafe(|| group(&mut comparison))).is_err() {
            eprintln!("\nthe two differ in the group \"{name}\", on");
            comparison.asked.show();
            exit(1);
        }
        let calls: usize = comparison.calls.values().sum();
        println!("{name}: {} calls agree ({:.1} s)", calls - calls_before, started.elapsed().as_secs_f64());
    }

    println!("\ncalls of each export");
    for (export, calls) in &comparison.calls {
        println!("{calls:9}  {export}");
    }
    println!("\ncalls with each refusal (0: none)");
    for (number, times) in comparison.met.iter().enumerate() {
        println!("{times:9}  {number}");
    }
    println!("\ncases");
    for (what, times) in &comparison.seen {
        println!("{times:9}  {what}");
    }

    for (number, times) in comparison.met.iter().enumerate() {
        assert!(*times > 0, "refusal {number} was never met");
    }
    for (what, times) in &comparison.seen {
        assert!(*times > 0, "there was never {what}");
    }
    let refused_drawings = DRAWING_REFUSED.map(|(_, what)| (what, LEAST_REFUSED));
    let least = LEAST.into_iter().chain(refused_drawings).chain(least_of_totals());
    let least = least.chain(evictions::least()).chain(padding::least()).chain(loop_bounds::LEAST);
    let least = least.chain(check_costs::least()).chain(sentences::least());
    for (what, least) in least {
        assert!(comparison.seen[what] >= least, "there was too seldom {what}");
    }
    println!("\n{} calls agree; every refusal from 1 to 22 was met", comparison.calls.values().sum::<usize>());
}
