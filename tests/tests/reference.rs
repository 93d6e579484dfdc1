//! The independent implementation held to itself: each question answered by two methods, on seeded problems. Needs no archive.

use std::collections::BTreeMap;
use std::fs;
use std::path::Path;

use examiner_tests::damage::*;
use examiner_tests::drawings::{self, DrawingPlan, Shape, DRAWING_DAMAGES};
use examiner_tests::problems::{followed_by, lawful, longest, with_total, Plan};
use examiner_tests::random::Random;
use examiner_tests::totals::{self, Priced};
use examiner_tests::{checks, effort, layouts, walks};
use reference::examples::{p, samples, t, u};
use reference::file::LONGEST;
use reference::layout::{check, contested, filled, filled_in_turn};
use reference::longest::{by_contraction, by_states, lawful_walks, Charges};
use reference::problem::*;
use reference::run::{check_by_looking_back, simulate, simulate_by_looking_back};
use reference::totals::{early_by_states, first_loads, is_outermost};
use reference::{drawing, fast, file, graph, inline, interference, stack, Drawing, DrawnFunction, Totals};

/// What the operations give on bytes, by the quick methods, in the form of the plain ones.
fn fast_read(file: &[u8]) -> Result<[usize; 4], Refusal> {
    fast::read(file).map(|flat| flat.counts())
}

fn plain_read(file: &[u8]) -> Result<[usize; 4], Refusal> {
    let counts = reference::read(file)?.counts();
    Ok([counts.functions, counts.vertices, counts.edges, counts.loops].map(|count| count as usize))
}

#[test]
fn generated_problems_are_lawful() {
    let mut random = Random::seeded(1);
    let mut seen = BTreeMap::new();
    let mut saw = |what: &'static str, it: bool| *seen.entry(what).or_insert(0) += usize::from(it);
    for case in 0..6_000 * effort() {
        let plan = match case % 20 {
            0 => Plan::largest(&mut random),
            1..=3 => Plan::medium(&mut random),
            _ => Plan::small(&mut random, 12),
        };
        let problem = lawful(&mut random, &plan);
        let file = file_of(&problem);
        assert_eq!(reference::read(&file), Ok(problem.clone()), "{plan:?}");
        assert_eq!(file::encode(&problem, problem.counts()), Ok(file));

        let Counts { functions, vertices, edges, loops } = problem.counts();
        saw("32 functions", functions == 32);
        saw("128 vertices", vertices == 128);
        saw("512 edges", edges == 512);
        saw("32 loops", loops == 32);
        saw("all counts at their greatest", (functions, vertices, edges, loops) == (32, 128, 512, 32));
        saw("one vertex", vertices == 1);
        saw("vertex 0 is a header", problem.loops.first().is_some_and(|l| l.header == 0));
        let holds = |outer: &Loop, inner: &Loop| outer.header < inner.header && inner.last <= outer.last;
        let depth = |l: &Loop| problem.loops.iter().filter(|outer| holds(outer, l)).count() + 1;
        saw("nested three deep", problem.loops.iter().any(|l| depth(l) >= 3));
        saw("nested 32 deep", problem.loops.iter().any(|l| depth(l) == 32));
        let left = |l: &Loop| problem.edges.iter().any(|e| l.holds(e.from) && !l.holds(e.to));
        saw("a dead loop", problem.loops.iter().any(|l| !left(l)));
        saw("a dead loop in a live one", problem.loops.iter().any(|l| !left(l) && problem.loops.iter().any(|o| holds(o, l) && left(o))));
        saw("a loop of bound 1", problem.loops.iter().any(|l| l.bound == 1));
        let returns_from_within =
            |l: &Loop| problem.loops.iter().any(|i| holds(l, i) && problem.edges.iter().any(|e| e.to == l.header && i.holds(e.from)));
        saw("a return out of an inner loop", problem.loops.iter().any(returns_from_within));
        let leaves = |e: &Edge| problem.loops.iter().filter(|l| l.holds(e.from) && !l.holds(e.to)).count();
        saw("an edge out of three loops", problem.edges.iter().any(|e| leaves(e) >= 3));
        saw(
            "an edge from one loop into another",
            problem.edges.iter().any(|e| leaves(e) > 0 && problem.loops.iter().any(|l| l.header == e.to && !l.holds(e.from))),
        );
        saw("a self edge", problem.edges.iter().any(|e| e.from == e.to));
        saw("a function without a vertex", (0..functions).any(|f| problem.vertices.iter().all(|v| v.function != f)));
        saw("a greatest cost", problem.vertices.iter().any(|v| v.cost == MOST_SIZE));
        saw("a greatest load cost", problem.functions.iter().any(|f| f.load == MOST_SIZE));
        checks::kinds(&problem).for_each(|(what, it)| saw(what, it));
    }
    for (what, times) in seen {
        println!("{times:6}  {what}");
        assert!(times > 0, "no problem had {what}");
    }
}

/// A vertex for each function, one after the other: what a walk through all leaves in the regions tells the layout.
fn one_vertex_a_function(functions: u32) -> Problem {
    Problem {
        scratchpad: MOST_SIZE,
        functions: (1..=functions).map(|size| Function { size, load: 1, check: 0 }).collect(),
        vertices: (0..functions).map(|function| Vertex { function, cost: 1 }).collect(),
        edges: (1..functions).map(|to| Edge { from: to - 1, to }).collect(),
        loops: vec![],
    }
}

/// Both implementations fill in a layout to these regions: the bytes needed and what a walk leaves are as with these listed.
fn fills_in_to(layout: &[u8], regions: &[u8]) {
    assert_eq!(filled(layout, regions.len()), regions, "{layout:?}");
    assert_eq!(filled_in_turn(layout, regions.len()), regions, "{layout:?}");
    let functions = regions.len() as u32;
    let problem = one_vertex_a_function(functions);
    let file = file_of(&problem);
    let walk: Vec<u32> = (0..functions).collect();
    let need = reference::layout::need(&problem, regions);
    let run = simulate(&problem, regions, &walk);
    assert_eq!(reference::bound(&file, layout).map(|bound| bound.need), Ok(need));
    assert_eq!(fast::bound(&file, layout), reference::bound(&file, layout), "{layout:?}");
    assert_eq!(reference::run(&file, layout, &walk), Ok(run.clone()));
    assert_eq!(fast::run(&file, layout, &walk), Ok(run), "{layout:?}");
}

#[test]
fn functions_left_off_a_layout_get_the_lowest_regions_that_are_free() {
    let all: Vec<u8> = (0..32).collect();
    for functions in 1..=32 {
        fills_in_to(&[], &all[..functions]);
    }
    fills_in_to(&[2, 0, 2], &[2, 0, 2, 1, 3, 4]);
    fills_in_to(&[1], &[1, 0, 2]);
    fills_in_to(&[31], &[31, 0, 1]);
    fills_in_to(&[0, 0], &[0, 0, 1]);
    fills_in_to(&[0, 1, 2], &[0, 1, 2]);
    fills_in_to(&[31], &[&[31], &all[..31]].concat());
    fills_in_to(&[1; 31], &[&[1; 31][..], &[0]].concat());
    fills_in_to(&[0; 31], &[&[0; 31][..], &[1]].concat());
    // every region but one is listed
    for left in 0..32 {
        let listed: Vec<u8> = all.iter().rev().copied().filter(|&region| region != left).collect();
        fills_in_to(&listed, &[&listed[..], &[left]].concat());
    }
}

#[test]
fn layouts_filled_in_by_dealing_out_and_in_turn() {
    let regions = 0..REGIONS as u8;
    for (first, second) in regions.clone().flat_map(|first| regions.clone().map(move |second| (first, second))) {
        for third in regions.clone() {
            assert_eq!(filled(&[first, second, third], 6), filled_in_turn(&[first, second, third], 6));
        }
        fills_in_to(&[first, second], &filled_in_turn(&[first, second], 32));
    }
    let mut random = Random::seeded(8);
    let mut with_gap = 0;
    for _ in 0..4_000 * effort() {
        let functions = random.count(1..=MOST_FUNCTIONS);
        let layout = layouts::lawful(&mut random, functions);
        fills_in_to(&layout, &filled_in_turn(&layout, functions));
        with_gap += usize::from(layout.len() < functions && layouts::has_gap(&layout));
    }
    println!("{with_gap} short layouts with a gap below a listed region");
    assert!(with_gap > 500);
}

#[test]
fn a_layout_is_judged_by_its_length_then_by_what_it_lists_then_filled_in() {
    let file = file_of(&p());
    let cases = [
        (&[0, 0, 0, 99][..], 11, 3),
        (&[32], 12, 0),
        (&[0, 32], 12, 1),
        (&[255, 255], 12, 0),
        (&[], 13, 18),
        (&[1], 13, 18),
        (&[31, 0], 13, 18),
    ];
    for (layout, number, place) in cases {
        let refusal = Refusal { number, place };
        assert_eq!(reference::bound(&file, layout), Err(refusal), "{layout:?}");
        assert_eq!(fast::bound(&file, layout), Err(refusal), "{layout:?}");
        assert_eq!(reference::run(&file, layout, &[9]), Err(refusal), "{layout:?}");
        assert_eq!(fast::run(&file, layout, &[9]), Err(refusal), "{layout:?}");
    }
}

#[test]
fn interference_by_search_and_by_states() {
    let mut random = Random::seeded(2);
    for _ in 0..6_000 * effort() {
        let plan = Plan::small(&mut random, 10);
        let problem = lawful(&mut random, &plan);
        assert_eq!(interference::by_search(&problem), interference::by_states(&problem), "{problem:?}");
    }
}

/// The greatest charges by contraction. The unfolded graph gives the same, with a lawful walk that earns it, where it has few states: then
/// one more is counted.
fn greatest(problem: &Problem, charges: &Charges, by_state: &mut usize) -> u128 {
    let greatest = by_contraction(problem, charges);
    if let Some((sum, walk)) = by_states(problem, charges, 30_000) {
        *by_state += 1;
        assert_eq!(sum, greatest, "{problem:?} {charges:?}");
        assert_eq!(check_by_looking_back(problem, &walk), Ok(()));
        assert_eq!(charges.of(problem, &walk), sum);
    }
    greatest
}

#[test]
fn greatest_charges_by_contraction_by_states_and_by_all_walks() {
    let mut random = Random::seeded(3);
    let (mut by_state, mut by_walk) = (0, 0);
    for _ in 0..8_000 * effort() {
        let plan = Plan::small(&mut random, 9);
        let problem = lawful(&mut random, &plan);
        // any charges at all, inner loops' among them
        let mut amounts = |count: usize, most: u64| (0..count).map(|_| random.within(0..=most)).collect();
        let charges = Charges { visit: amounts(problem.vertices.len(), 20), entry: amounts(problem.loops.len(), 60) };
        let greatest = greatest(&problem, &charges, &mut by_state);
        let mut most = 0;
        let all = lawful_walks(&problem, 10_000, &mut |walk| most = most.max(charges.of(&problem, walk)));
        if all {
            by_walk += 1;
            assert_eq!(most, greatest, "{problem:?} {charges:?}");
        }
    }
    println!("{by_state} problems by states, {by_walk} by all walks");
    assert!(by_state > 5_000 && by_walk > 3_000);
}

/// A small problem, and a layout of it that keeps the functions apart about every second time.
fn several_functions(random: &mut Random) -> (Problem, Vec<u8>) {
    let plan = if random.percent(30) { Plan::small(random, 9) } else { Plan::branching(random, 12) };
    let layout = if random.percent(50) { vec![] } else { layouts::lawful(random, plan.functions) };
    (lawful(random, &plan), layout)
}

/// Whether a walk visits each vertex outside all loops, and enters each outermost loop, at most once.
fn is_once_outside_and_in(problem: &Problem, walk: &[u32]) -> bool {
    let outside = walk.iter().copied().filter(|&v| problem.loops.iter().all(|l| !l.holds(v)));
    let enters = |l: &Loop| (0..walk.len()).filter(|&at| l.holds(walk[at]) && (at == 0 || !l.holds(walk[at - 1]))).count();
    !has_a_pair(outside) && problem.loops.iter().filter(|l| is_outermost(problem, l)).all(|l| enters(l) <= 1)
}

/// Holds the totals and the bound to what other methods give. The sums that were found by states too are counted.
fn smaller_total_by_states(problem: &Problem, regions: &[u8], priced: &Priced, by_state: &mut usize) {
    assert_eq!(priced.contested, contested(problem, &interference::by_states(problem), regions), "{problem:?} {regions:?}");
    assert_eq!(priced.early, early_by_states(problem, &priced.contested), "{problem:?} {regions:?}");
    let Totals { visits, first, second } = priced.totals;
    assert_eq!(visits, greatest(problem, &priced.first(), by_state));
    assert_eq!(first, visits + u128::from(first_loads(problem, &priced.early)));
    assert_eq!(second, greatest(problem, &priced.second, by_state));
    let given = reference::layout::bound(problem, regions, 0).expect("small problems stay below the limit");
    assert_eq!([given.bound, given.first_loads].map(u128::from), [first.min(second), first.min(second) - visits]);
}

/// On every lawful walk either total covers the run, and so does the bound; one walk is charged the most. Says false where there are too
/// many walks.
fn every_walk_is_covered(problem: &Problem, regions: &[u8], priced: &Priced) -> bool {
    let Totals { visits, first, second } = priced.totals;
    let (visit_charges, first_loads) = (priced.first(), first - visits);
    let mut most = [0, 0];
    let all = lawful_walks(problem, 10_000, &mut |walk| {
        let cycles = u128::from(simulate(problem, regions, walk).cycles);
        let [visits, second] = [&visit_charges, &priced.second].map(|charges| charges.of(problem, walk));
        assert!(cycles <= visits + first_loads && cycles <= second && visits <= second, "{problem:?} {regions:?} {walk:?}");
        assert!(cycles <= priced.totals.smaller(), "{problem:?} {regions:?} {walk:?}");
        assert!(is_once_outside_and_in(problem, walk), "{problem:?} {walk:?}");
        most = [most[0].max(visits), most[1].max(second)];
    });
    assert!(!all || most == [visits, second], "{problem:?} {regions:?}");
    all
}

#[test]
fn the_bound_is_the_smaller_total_and_no_lawful_walk_runs_longer() {
    let mut random = Random::seeded(12);
    let (mut by_state, mut by_walk) = (0, 0);
    let mut seen = BTreeMap::new();
    for _ in 0..8_000 * effort() {
        let (problem, layout) = several_functions(&mut random);
        let (regions, _) = check(&problem, &layout).expect("the scratchpad is the greatest");
        let priced = Priced::new(&problem, &regions);
        smaller_total_by_states(&problem, &regions, &priced, &mut by_state);
        by_walk += usize::from(every_walk_is_covered(&problem, &regions, &priced));
        for (what, it) in priced.cases().into_iter().chain(priced.readings()).chain(checks::readings(&problem, &priced)) {
            *seen.entry(what).or_insert(0) += usize::from(it);
        }
    }
    println!("{by_state} sums by states, {by_walk} problems by all walks");
    assert!(by_state > 10_000 && by_walk > 3_000);
    let smaller = [totals::FIRST_SMALLER, totals::SECOND_SMALLER, totals::BOTH_AGREE];
    for what in [&smaller[..], &totals::SHAPES, &totals::READINGS, &checks::READINGS].concat() {
        println!("{:6}  {what}", seen[what]);
        assert!(seen[what] > 20, "there was hardly ever {what}");
    }
}

#[test]
fn walks_forwards_and_by_looking_back() {
    let mut random = Random::seeded(4);
    let mut verdicts = BTreeMap::new();
    for _ in 0..4_000 * effort() {
        let plan = Plan::small(&mut random, 12);
        let problem = lawful(&mut random, &plan);
        let regions = check(&problem, &layouts::lawful(&mut random, plan.functions)).expect("the scratchpad is the greatest").0;
        let length = random.count(1..=60);
        let mut walk = walks::wandering(&mut random, &problem, length, 400);
        if random.percent(20) {
            walk = walks::roaming(&mut random, &problem, 60);
        }
        for damage in 0..=walks::DAMAGES {
            let walk = if damage == walks::DAMAGES { walk.clone() } else { walks::damaged(&mut random, &problem, &walk, damage) };
            let verdict = reference::run::check(&problem, &walk);
            assert_eq!(verdict, check_by_looking_back(&problem, &walk), "{problem:?} {walk:?}");
            *verdicts.entry(verdict.err().map_or(0, |refusal| refusal.number)).or_insert(0) += 1;
            if verdict.is_ok() {
                assert_eq!(simulate(&problem, &regions, &walk), simulate_by_looking_back(&problem, &regions, &walk));
            }
        }
    }
    println!("{verdicts:?}");
    for verdict in [0, 15, 16] {
        assert!(verdicts[&verdict] > 1_000, "{verdict}");
    }
}

#[test]
fn written_files_read_back() {
    let mut random = Random::seeded(5);
    for case in 0..3_000 * effort() {
        let plan = if case % 10 == 0 { Plan::medium(&mut random) } else { Plan::small(&mut random, 16) };
        let problem = lawful(&mut random, &plan);
        let mut fields = problem.to_fields();
        fill_spare_places(&mut random, &mut fields);
        assert_eq!(from_fields(&fields), (problem.clone(), problem.counts()));
        let mut out = vec![0xA5; LONGEST + 40];
        let written = reference::write_fields(&fields, &mut out).expect("lawful");
        assert_eq!(reference::read(&out[..written]), Ok(problem));
        assert!(out[written..].iter().all(|&byte| byte == 0xA5));
        let mut again = vec![0x5A; written];
        assert_eq!(reference::write(&out[..written], &mut again), Ok(written));
        assert_eq!(again, out[..written]);
        let short = reference::write(&out[..written], &mut again[..written - 1]);
        assert_eq!(short, Err(Refusal { number: 10, place: written as u64 }));
    }
}

#[test]
fn bounds_at_the_limit() {
    let file = |total, load| file_of(&with_total(total, load));
    assert_eq!(reference::bound(&file(MOST_BOUND, 0), &[]).expect("not above").bound, MOST_BOUND);
    assert_eq!(reference::bound(&file(MOST_BOUND - 7, 7), &[]).expect("not above").bound, MOST_BOUND);
    let above = Err(Refusal { number: 14, place: 0 });
    assert_eq!(reference::bound(&file(MOST_BOUND + 1, 0), &[]), above);
    assert_eq!(reference::bound(&file(MOST_BOUND, 1), &[]), above);
    assert_eq!(reference::bound(&file(MOST_BOUND - 6, 7), &[]), above);
}

/// T and U, each total in turn at the limit and one past it.
#[test]
fn bounds_where_one_total_passes_the_limit() {
    for (problem, first, second) in [(t(), 15, 12), (u(), 15, 18)] {
        for (total, past) in [(first, 0), (first, 1), (second, 0), (second, 1)] {
            let more = MOST_BOUND + past - total;
            let file = file_of(&followed_by(problem.clone(), more));
            let bound = Some(more + first.min(second)).filter(|&bound| bound <= MOST_BOUND).ok_or(Refusal { number: 14, place: 0 });
            assert_eq!(reference::bound(&file, &[]).map(|given| given.bound), bound);
            assert_eq!(fast::bound(&file, &[]), reference::bound(&file, &[]));
        }
    }
}

#[test]
fn the_longest_file_that_is_written() {
    let written = file_of(&longest(&mut Random::seeded(6)));
    assert_eq!((written.len(), LONGEST), (2_155, 2_155));
    assert!(reference::read(&written).is_ok());
}

/// Every refusal that the operations give on these bytes, by the plain methods and by the quick ones.
fn compare_fast(random: &mut Random, problem: &Problem, file: &[u8], hits: &mut [usize; 18]) {
    let mut saw = |refused: Option<Refusal>| hits[refused.map_or(0, |refusal| usize::from(refusal.number))] += 1;
    let read = plain_read(file);
    assert_eq!(read, fast_read(file), "{file:02X?}");
    saw(read.err());

    let words = problem.vertices.len() * problem.functions.len();
    let length = if random.percent(20) { random.count(0..=words) } else { words + random.count(0..=3) };
    let mut plain = vec![0xDEAD_BEEF; length];
    let mut quick = plain.clone();
    let filled = reference::interference(file, &mut plain);
    assert_eq!(filled, fast::interference(file, &mut quick));
    assert_eq!(plain, quick);
    saw(filled.err());

    let layout = layouts::any(random, problem.functions.len());
    let bound = reference::bound(file, &layout);
    assert_eq!(bound, fast::bound(file, &layout), "{problem:?} {layout:?}");
    saw(bound.err());

    let aim = random.count(1..=80);
    let mut walk = walks::wandering(random, problem, aim, 500);
    if random.percent(40) {
        let damage = random.field(0..=walks::DAMAGES - 1);
        walk = walks::damaged(random, problem, &walk, damage);
    }
    let run = reference::run(file, &layout, &walk);
    assert_eq!(run, fast::run(file, &layout, &walk), "{problem:?} {layout:?} {walk:?}");
    saw(run.clone().err());
    if let (Ok(bound), Ok(run)) = (bound, run) {
        assert!(run.cycles <= bound.bound, "{problem:?} {layout:?} {walk:?}");
    }
}

#[test]
fn quick_methods_agree_with_plain_ones() {
    let mut random = Random::seeded(7);
    let mut hits = [0; 18];
    for case in 0..12_000 * effort() {
        let plan = Plan::of_any_size(&mut random, case);
        let mut problem = lawful(&mut random, &plan);
        let layout = layouts::lawful(&mut random, plan.functions);
        layouts::fit_scratchpad(&mut random, &mut problem, &layout);
        let file = file_of(&problem);
        compare_fast(&mut random, &problem, &file, &mut hits);
        let damage = random.field(0..=FILE_DAMAGES - 1);
        let damaged = damaged_file(&mut random, &problem, damage);
        compare_fast(&mut random, &problem, &damaged, &mut hits);
        let damage = random.field(0..=PROBLEM_DAMAGES - 1);
        let damaged = damaged_problem(&mut random, &problem, damage);
        compare_fast(&mut random, &problem, &file_of(&damaged), &mut hits);
        assert_eq!(graph::check(&problem), Ok(()));
    }
    let over_long = vec![0; MOST_ENTRIES + 1];
    for problem in [with_total(9, 1), with_total(MOST_BOUND, 1)] {
        let file = file_of(&problem);
        assert_eq!(reference::run(&file, &[], &over_long), Err(Refusal { number: 17, place: 1_000_000 }));
        assert_eq!(fast::run(&file, &[], &over_long), Err(Refusal { number: 17, place: 1_000_000 }));
        hits[17] += 1;
    }
    println!("{hits:?}");
    assert!(hits.iter().all(|&times| times > 0), "{hits:?}");
}

/// A random drawing that is mostly small, and its plan.
fn some_drawing(random: &mut Random, case: usize) -> (DrawingPlan, Drawing) {
    let plan = match case % 20 {
        0 => DrawingPlan::random(random, MOST_FUNCTIONS, 16),
        1 | 2 => DrawingPlan::random(random, 4, 60),
        _ => DrawingPlan::random(random, 8, 7),
    };
    let drawing = drawings::lawful(random, &plan);
    (plan, drawing)
}

#[test]
fn drawings_inlined_recursively_and_by_splicing() {
    let mut random = Random::seeded(9);
    let mut seen = BTreeMap::new();
    let mut saw = |what: &'static str, it: bool| *seen.entry(what).or_insert(0) += usize::from(it);
    for case in 0..6_000 * effort() {
        let (plan, drawing) = some_drawing(&mut random, case);
        let mut numbers = drawing.to_numbers();
        drawings::fill_spare_places(&mut random, &mut numbers);
        let fits = drawings::fits(&drawing);
        assert_eq!(inline::judge(&numbers), if fits { Ok(drawing.clone()) } else { Err(Refusal { number: 19, place: 0 }) });
        saw("a drawing that passes a count", !fits);
        if !fits {
            continue;
        }
        let problem = inline::recursively(&drawing);
        assert_eq!(problem, inline::by_splicing(&drawing), "{drawing:?}");
        // lawful, and written as Inline says
        let file = file_of(&problem);
        assert_eq!(reference::read(&file), Ok(problem.clone()), "{drawing:?}");
        let mut out = vec![0xA5; file.len() + 3];
        assert_eq!(reference::inline(&numbers, &mut out), Ok(file.len()));
        assert_eq!(out, [&file[..], &[0xA5; 3]].concat());
        assert_eq!(drawings::sizes(&drawing)[0] as usize, problem.vertices.len());

        let reached = |function: u32| problem.vertices.iter().any(|v| v.function == function);
        let used = || drawing.functions.iter().zip(0..).filter(|(_, function)| reached(*function)).map(|(drawn, _)| drawn);
        let calls = |pick: &dyn Fn(&DrawnFunction, u32) -> bool| {
            used().any(|drawn| (0..drawn.vertices.len() as u32).any(|v| drawn.callee_of(v).is_some() && pick(drawn, v)))
        };
        saw("a call at vertex 0", calls(&|_, vertex| vertex == 0));
        saw("a call in a header", calls(&|drawn, vertex| drawn.loops.iter().any(|l| l.header == vertex && l.last > vertex)));
        saw("a call at a loop's last vertex", calls(&|drawn, vertex| drawn.loops.iter().any(|l| l.last == vertex && l.header < vertex)));
        saw("a call that is a loop", calls(&|drawn, vertex| drawn.loops.iter().any(|l| l.last == vertex && l.header == vertex)));
        saw("a function that nothing reaches", used().count() < drawing.functions.len());
        let callers = |callee: u32| used().filter(|drawn| drawn.vertices.iter().any(|v| v.callee == Some(callee))).count();
        saw("a helper of three functions", (0..drawing.functions.len() as u32).any(|callee| callers(callee) >= 3));
        saw("a helper called twice by one function", used().any(|drawn| has_a_pair(drawn.vertices.iter().filter_map(|v| v.callee))));
        saw("five functions, each calling the next", plan.shape == Shape::Deep && used().count() >= 5);
        saw("five helpers of one function", plan.shape == Shape::Wide && used().count() >= 6);
        saw("over 100 vertices", problem.vertices.len() > 100);
    }
    for (what, times) in seen {
        println!("{times:6}  {what}");
        assert!(times > 50, "there was hardly ever {what}");
    }
}

fn has_a_pair(numbers: impl Iterator<Item = u32>) -> bool {
    let mut numbers: Vec<u32> = numbers.collect();
    numbers.sort_unstable();
    numbers.windows(2).any(|pair| pair[0] == pair[1])
}

#[test]
fn runs_with_a_call_stack_are_the_walks_of_the_one_problem() {
    let mut random = Random::seeded(10);
    let (mut compared, mut pairs, mut deepest) = (0, 0, 0);
    for _ in 0..6_000 * effort() {
        let plan = DrawingPlan { fits: true, ..DrawingPlan::random(&mut random, 5, 5) };
        let drawing = drawings::lawful(&mut random, &plan);
        let problem = inline::recursively(&drawing);
        let mut expected = Vec::new();
        if !lawful_walks(&problem, 2_000, &mut |walk| expected.push(walk.to_vec())) {
            continue;
        }
        let layout = layouts::lawful(&mut random, plan.functions);
        let regions = filled(&layout, plan.functions);
        let mut walks = Vec::new();
        let all = stack::lawful_runs(&drawing, usize::MAX, &mut |run| {
            let walk = drawings::walk_of(&drawing, run);
            assert_eq!(stack::simulate(&drawing, &regions, run), simulate(&problem, &regions, &walk), "{drawing:?} {walk:?}");
            deepest = deepest.max(run.iter().map(Vec::len).max().unwrap_or(0));
            walks.push(walk);
        });
        assert!(all);
        // each walk once
        expected.sort_unstable();
        walks.sort_unstable();
        assert_eq!(walks, expected, "{drawing:?}");
        compared += 1;
        pairs += walks.len();
    }
    println!("{compared} drawings with {pairs} runs in all, the deepest of {deepest} activations");
    assert!(compared > 2_000 && pairs > 20_000 && deepest >= 4);
}

#[test]
fn drawings_inlined_quickly() {
    let mut random = Random::seeded(11);
    let mut hits = [0; 21];
    let mut agree = |random: &mut Random, numbers: &drawing::Numbers| {
        let length = if random.percent(20) { random.count(0..=120) } else { LONGEST };
        let mut plain = vec![0xA5; length];
        let mut quick = plain.clone();
        let written = reference::inline(numbers, &mut plain);
        assert_eq!(fast::inline(numbers, &mut quick), written, "{:?}", inline::judge(numbers));
        assert_eq!(plain, quick);
        hits[written.err().map_or(0, |refusal| usize::from(refusal.number))] += 1;
    };
    for case in 0..4_000 * effort() {
        let (_, drawing) = some_drawing(&mut random, case);
        agree(&mut random, &drawing.to_numbers());
        for turn in 0..3 {
            let damaged = drawings::damaged(&mut random, &drawing, (3 * case + turn) as u32 % DRAWING_DAMAGES);
            let mut numbers = damaged.to_numbers();
            drawings::fill_spare_places(&mut random, &mut numbers);
            agree(&mut random, &numbers);
        }
        let mut numbers = drawing.to_numbers();
        drawings::fill_spare_places(&mut random, &mut numbers);
        for _ in 0..3 {
            drawings::damage_numbers(&mut random, &mut numbers);
            agree(&mut random, &numbers);
        }
    }
    println!("{hits:?}");
    for number in [0, 3, 4, 6, 7, 8, 9, 10, 18, 19, 20] {
        assert!(hits[number] > 100, "{number}: {hits:?}");
    }
}

/// What stands between the bars in the rows of the Markdown tables of a text.
fn table_rows(text: &str) -> Vec<Vec<&str>> {
    let rows = text.lines().filter(|line| line.starts_with('|'));
    rows.map(|row| row.trim_matches('|').split('|').map(|cell| cell.trim_matches([' ', '`'])).collect()).collect()
}

#[test]
fn samples_are_as_their_page_says() {
    let folder = Path::new(env!("CARGO_MANIFEST_DIR")).join("../samples");
    let page = fs::read_to_string(folder.join("README.md")).expect("the page is there");
    let rows = table_rows(&page);
    for sample in samples() {
        let place = folder.join(sample.name);
        assert_eq!(fs::read(place.join("problem.bin")).expect("bundled"), sample.problem, "{}", sample.name);
        assert_eq!(fs::read(place.join("layout.bin")).expect("bundled"), sample.layout, "{}", sample.name);
        let bound = reference::bound(&sample.problem, &sample.layout).expect("accepted");
        let row = rows.iter().find(|row| row[0] == sample.name).expect("the page names it");
        assert_eq!(row[3..7], [bound.need, bound.contested, bound.first_loads, bound.bound].map(|number| number.to_string()));
    }
}

/// All bytes of Q, then those of P with check costs up to its vertices.
#[test]
fn bytes_are_as_the_page_of_samples_says() {
    let page = fs::read_to_string(Path::new(env!("CARGO_MANIFEST_DIR")).join("../samples/README.md")).expect("the page is there");
    let rows = table_rows(&page);
    let listed: Vec<u8> = rows.iter().filter(|row| row.len() == 3).filter_map(|row| u8::from_str_radix(row[1], 16).ok()).collect();
    let problem = |name: &str| samples().into_iter().find(|sample| sample.name == name).expect("bundled").problem;
    let before_vertices = 3 + 3 * 3;
    assert_eq!(listed, [&problem("q")[..], &problem("p-checks")[..before_vertices]].concat());
}
