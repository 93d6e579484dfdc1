//! Evictions of the independent implementation held to itself on seeded problems: by phases, by all walks, and by the quick method. Needs no
//! archive.

use std::collections::BTreeMap;

use examiner_tests::damage::{damaged_file, file_of, FILE_DAMAGES};
use examiner_tests::evictions::{Shown, NEVER_OF_COLD, READINGS, REASONS, SHAPES};
use examiner_tests::problems::{braided, lawful, Plan};
use examiner_tests::random::Random;
use examiner_tests::{effort, layouts};
use reference::eviction::{AllWalks, Searched};
use reference::layout::check;
use reference::problem::*;
use reference::{fast, Reason};

/// How often each case is met, and that each is met so often at least.
#[derive(Default)]
struct Seen(BTreeMap<&'static str, usize>);

impl Seen {
    fn saw(&mut self, what: &'static str, it: bool) {
        *self.0.entry(what).or_insert(0) += usize::from(it);
    }

    fn are_at_least(&self, least: usize, cases: &[&str]) {
        for what in cases {
            println!("{:6}  {what}", self.0[what]);
            assert!(self.0[what] >= least, "there was hardly ever {what}");
        }
    }
}

/// A small problem: any, one with many functions, or one with several walks of the same length.
fn small_problem(random: &mut Random) -> Problem {
    let plan = match random.count(0..=2) {
        0 => Plan::small(random, 7),
        1 => Plan::branching(random, 8),
        _ => return braided(random),
    };
    lawful(random, &plan)
}

/// Random regions, few enough to share.
fn shared_regions(random: &mut Random, functions: usize) -> Vec<u8> {
    let most = random.field(0..=2);
    (0..functions).map(|_| random.field(0..=most) as u8).collect()
}

/// A walk that is shown finds the vertex's function not held; where none is, every walk that arrives finds it held.
fn is_true_of_runs(shown: &Shown, all: &AllWalks) {
    let arrives_held = |walk: &[u32]| u32::from(shown.held_after(walk)) == shown.own();
    match shown.reason {
        Reason::Never => assert!(all.arriving(shown.vertex).iter().all(|walk| arrives_held(walk))),
        _ => assert!(!arrives_held(&shown.walk), "{:?}", shown.walk),
    }
}

#[test]
fn evictions_by_phases_and_by_all_walks() {
    let mut random = Random::seeded(13);
    let mut seen = Seen::default();
    let mut compared = 0;
    for _ in 0..4_000 * effort() {
        let problem = small_problem(&mut random);
        let Some(all) = AllWalks::new(&problem, 10_000) else { continue };
        let regions = shared_regions(&mut random, problem.functions.len());
        let graph = Searched::new(&problem);
        let shown = Shown::all(&graph, &regions);
        for one in &shown {
            assert_eq!((one.reason, one.walk.clone()), all.eviction(&regions, one.vertex), "{problem:?} {regions:?}");
            is_true_of_runs(one, &all);
            one.reasons().into_iter().chain(one.shapes()).chain(one.readings()).for_each(|(what, it)| seen.saw(what, it));
            let cold = |other: &Shown| other.reason == Reason::FirstLoad && other.own() == one.own();
            seen.saw(NEVER_OF_COLD, one.reason == Reason::Never && shown.iter().any(cold));
            compared += 1;
        }
    }
    println!("{compared} vertices by all walks");
    assert!(compared > 10_000);
    seen.are_at_least(1_000, &REASONS);
    seen.are_at_least(30, &[&SHAPES[..], &READINGS, &[NEVER_OF_COLD]].concat());
}

/// The walk that wins from the end, again by all walks.
#[test]
fn the_first_difference_from_the_end_by_all_walks() {
    let mut random = Random::seeded(14);
    let mut others = 0;
    for _ in 0..1_000 * effort() {
        let problem = small_problem(&mut random);
        let Some(all) = AllWalks::new(&problem, 10_000) else { continue };
        let regions = shared_regions(&mut random, problem.functions.len());
        for shown in Shown::all(&Searched::new(&problem), &regions) {
            let as_short = |walk: &&Vec<u32>| walk.len() == shown.walk.len() && all.shows(&regions, walk, shown.reason);
            let last = all.arriving(shown.vertex).iter().filter(as_short).min_by_key(|walk| walk.iter().rev().copied().collect::<Vec<_>>());
            assert_eq!(last.cloned().unwrap_or_default(), shown.from_the_end(), "{problem:?} {regions:?}");
            others += usize::from(shown.from_the_end() != shown.walk);
        }
    }
    println!("{others} walks would be others");
    assert!(others >= 30);
}

/// As many contested vertices as Bound has, and as many first loads as vertices are early.
fn reasons_are_those_of_bound(problem: &Problem, regions: &[u8]) {
    let contested = reference::layout::contested(problem, &reference::interference::by_search(problem), regions);
    let early = reference::totals::early(problem, &contested);
    for Shown { vertex, reason, .. } in Shown::all(&Searched::new(problem), regions) {
        assert_eq!(matches!(reason, Reason::EveryVisit(_)), contested[vertex as usize], "{problem:?} {regions:?}");
        assert_eq!(reason == Reason::FirstLoad, early[vertex as usize], "{problem:?} {regions:?}");
    }
}

#[test]
fn evictions_found_quickly() {
    let mut random = Random::seeded(15);
    let mut hits = [0; 22];
    for case in 0..1_200 * effort() {
        let plan = Plan::of_any_size(&mut random, case);
        let mut problem = lawful(&mut random, &plan);
        let layout = layouts::any(&mut random, plan.functions);
        layouts::fit_scratchpad(&mut random, &mut problem, &layout);
        if let Ok((regions, _)) = check(&problem, &layout) {
            reasons_are_those_of_bound(&problem, &regions);
        }
        let file = if random.percent(80) { file_of(&problem) } else { damaged_file(&mut random, &problem, case as u32 % FILE_DAMAGES) };
        for vertex in (0..problem.vertices.len() as u64 + 1).chain([128, 1 << 32, u64::MAX]) {
            let mut plain = vec![0xDEAD_BEEF; if random.percent(70) { MOST_SHOWN } else { random.count(0..=12) }];
            let mut quick = plain.clone();
            let told = reference::eviction(&file, &layout, vertex, &mut plain);
            assert_eq!(fast::eviction(&file, &layout, vertex, &mut quick), told, "{problem:?} {layout:?} {vertex}");
            assert_eq!(plain, quick);
            hits[told.err().map_or(0, |refusal| usize::from(refusal.number))] += 1;
        }
    }
    println!("{hits:?}");
    for number in [0, 10, 11, 12, 13, 21] {
        assert!(hits[number] > 500, "{number}: {hits:?}");
    }
    assert_eq!(hits[14], 0, "{hits:?}");
}
