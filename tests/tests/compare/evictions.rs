//! Eviction: every vertex of the compared problems, into buffers of every kind of length, and vertices that there are none of.

use super::*;
use examiner_tests::evictions::{wrapped_reason, Shown, NEVER_OF_COLD, READINGS, REASONS, SHAPES};
use examiner_tests::problems::braided;
use reference::eviction::{self, Eviction, Reason, Searched};
use reference::examples::{evictions, longest_shown};

const UNKNOWN: &str = "an eviction refused 21";
const TOO_SHORT: &str = "an eviction refused 10";
const EXACT: &str = "a shown walk into exactly its entries";
const ONE_LESS: &str = "a shown walk into one entry less";
const NO_ENTRY: &str = "a shown walk into no entry";
const NEVER_INTO_NONE: &str = "a vertex never charged, asked with no entry";
const FILLED_IN: &str = "a shown walk under a short layout";
const PAST_THE_LIMIT: &str = "an eviction where Bound refuses 14";
const LONGEST: &str = "a shown walk of 254 entries";
const AS_MANY: &str = "a problem with as many vertices charged on every visit as Bound has contested";

/// How often the cases of evictions are met at least.
pub fn least() -> Vec<(&'static str, usize)> {
    let counted = [
        (UNKNOWN, 100_000),
        (TOO_SHORT, 40_000),
        (EXACT, 70_000),
        (ONE_LESS, 20_000),
        (NO_ENTRY, 20_000),
        (NEVER_INTO_NONE, 70_000),
        (FILLED_IN, 60_000),
        (PAST_THE_LIMIT, 1_000),
        (LONGEST, 4),
        (AS_MANY, 20_000),
        (NEVER_OF_COLD, 100_000),
    ];
    let reasons = REASONS.map(|what| (what, 60_000));
    let rarer = [&SHAPES[..], &READINGS].concat().into_iter().map(|what| (what, 200));
    counted.into_iter().chain(reasons).chain(rarer).collect()
}

/// What an eviction answers, in the order of `answer`. Only the first reason has a function to name.
fn values(told: Eviction) -> Vec<u64> {
    let count = told.count as u64;
    match told.reason {
        Reason::EveryVisit(function) => vec![count, 1, u64::from(function)],
        Reason::FirstLoad => vec![count, 2],
        Reason::Never => vec![count, 3],
    }
}

/// An eviction in the wrapper's form.
fn wrapped(told: Eviction) -> examiner::Eviction {
    let reason = wrapped_reason(told.reason).expect("functions are below 32");
    examiner::Eviction { reason, count: told.count }
}

impl Comparison {
    /// Eviction into so many entries, held to what `told` says.
    fn eviction_as(
        &mut self,
        (file, layout, vertex): (&[u8], &[u8], u64),
        length: usize,
        told: impl FnOnce(&mut [u32]) -> Result<Eviction, Refusal>,
    ) {
        self.asked = Asked { file: file.to_vec(), layout: layout.to_vec(), vertex: Some(vertex), ..Asked::default() };
        let (lent, lent_layout) = (Lent::holding(&mut self.random, file), Lent::holding(&mut self.random, layout));
        let before = (lent.clone(), lent_layout.clone());
        let mut walk = Lent::random(&mut self.random, length);
        let mut wrapper_walk = walk.clone();
        let mut wanted = walk.clone();
        let told = told(wanted.part_mut());
        let (part, regions, room) = (lent.part(), lent_layout.part(), walk.part_mut());
        // SAFETY: the parts and the answer are valid for the call, and apart.
        self.call("examiner_eviction", &told.map(values), |answer| unsafe {
            examiner::raw::examiner_eviction(
                part.as_ptr(),
                part.len(),
                regions.as_ptr(),
                regions.len(),
                vertex,
                room.as_mut_ptr(),
                room.len(),
                answer,
            )
        });
        assert_eq!(plain(examiner::eviction(part, regions, vertex, wrapper_walk.part_mut())), told.map(wrapped));
        assert_eq!((&walk, &wrapper_walk), (&wanted, &wanted));
        assert_eq!((lent, lent_layout), before);
        self.saw(UNKNOWN, told.is_err_and(|refusal| refusal.number == 21));
        self.saw(TOO_SHORT, told.is_err_and(|refusal| refusal.number == 10));
        self.saw(LONGEST, told.is_ok_and(|told| told.count == 254));
    }

    /// Eviction on any file, layout and vertex.
    pub fn eviction(&mut self, file: &[u8], layout: &[u8], vertex: u64, length: usize) {
        self.eviction_as((file, layout, vertex), length, |walk| reference::eviction(file, layout, vertex, walk));
    }

    /// A vertex that need not be one of the problem, into any number of entries.
    pub fn some_eviction(&mut self, file: &[u8], layout: &[u8]) {
        let known = self.random.within(0..=12);
        let vertex = *self.random.pick(&[known, known, known, 127, 128, known + 256, known + (1 << 32), u64::MAX]);
        let length = self.random.count(0..=16);
        self.eviction(file, layout, vertex, length);
    }

    /// A vertex under a layout that fits: into as many entries as the walk has or more, and into fewer.
    fn shown(&mut self, shown: &Shown, file: &[u8], layout: &[u8]) {
        let (entries, vertex) = (shown.walk.len(), u64::from(shown.vertex));
        let into = |c: &mut Comparison, length: usize| {
            c.eviction_as((file, layout, vertex), length, |walk| eviction::written(shown.reason, &shown.walk, walk));
        };
        let more = if self.random.percent(50) { 0 } else { self.random.count(1..=9) };
        into(self, entries + more);
        self.saw(EXACT, entries > 0 && more == 0);
        self.saw(NEVER_INTO_NONE, entries + more == 0);
        if entries > 0 && self.random.percent(25) {
            let one_less = self.random.percent(50);
            into(self, if one_less { entries - 1 } else { 0 });
            self.saw(ONE_LESS, one_less);
            self.saw(NO_ENTRY, !one_less || entries == 1);
        }
    }

    /// Every vertex of a lawful problem, and some that there are none of.
    pub fn every_eviction(&mut self, problem: &Problem, file: &[u8], layout: &[u8]) {
        let Ok((regions, _)) = check(problem, layout) else {
            return self.some_eviction(file, layout);
        };
        let graph = Searched::new(problem);
        let all = Shown::all(&graph, &regions);
        for shown in &all {
            self.shown(shown, file, layout);
            self.saw(FILLED_IN, shown.reason != Reason::Never && layout.len() < regions.len());
        }
        let known = self.random.within(0..=all.len() as u64 - 1);
        let like_a_known_one = *self.random.pick(&[256 + known, 1 << 32, (1 << 32) + known]);
        for unknown in [all.len() as u64, 128, like_a_known_one, u64::MAX] {
            self.eviction_as((file, layout, unknown), 3, |walk| eviction::of(problem, &regions, unknown, walk));
        }
        self.reasons_of(&all);
        self.as_many_as_contested(&all, file, layout);
    }

    /// Counts the reasons of all vertices of a problem.
    fn reasons_of(&mut self, all: &[Shown]) {
        let first_load = |shown: &Shown| (shown.reason == Reason::FirstLoad).then(|| shown.own());
        let cold: Vec<u32> = all.iter().filter_map(first_load).collect();
        for shown in all {
            for (what, it) in shown.reasons() {
                self.saw(what, it);
            }
            self.saw(NEVER_OF_COLD, shown.reason == Reason::Never && cold.contains(&shown.own()));
        }
    }

    /// As many vertices are charged on every visit as Bound has contested ones, where it gives its results.
    fn as_many_as_contested(&mut self, all: &[Shown], file: &[u8], layout: &[u8]) {
        let charged = all.iter().filter(|shown| matches!(shown.reason, Reason::EveryVisit(_))).count() as u64;
        let bound = plain(examiner::bound(file, layout));
        match bound {
            Ok(bound) => assert_eq!(charged, bound.contested, "vertices charged on every visit, and Bound's contested ones"),
            Err(refusal) => assert_eq!(refusal.number, 14, "Eviction accepts the layout"),
        }
        self.saw(AS_MANY, bound.is_ok());
        self.saw(PAST_THE_LIMIT, bound.is_err());
    }
}

/// The worked evictions into every number of entries, and the longest walk into those around its length.
pub fn worked_evictions(c: &mut Comparison) {
    let longest = longest_shown();
    let file = file_of(&longest.problem);
    for length in [0, 1, 253, 254, 255, MOST_SHOWN, MOST_SHOWN + 1] {
        c.eviction(&file, &longest.layout, 127, length);
    }
    for worked in evictions() {
        let file = file_of(&worked.problem);
        for length in 0..=worked.walk.len().min(12) + 2 {
            c.eviction(&file, &worked.layout, u64::from(worked.vertex), length);
        }
        c.every_eviction(&worked.problem, &file, &worked.layout);
    }
}

/// A small problem where several walks are as short or several functions interfere, and a layout of few regions.
fn ambiguous(c: &mut Comparison, case: usize) -> (Problem, Vec<u8>) {
    let plan = match case % 4 {
        0 => Plan::branching(&mut c.random, 16),
        1 => Plan::small(&mut c.random, 10),
        _ => return with_shared_regions(c, braided),
    };
    with_shared_regions(c, |random| lawful(random, &plan))
}

fn with_shared_regions(c: &mut Comparison, problem: impl Fn(&mut Random) -> Problem) -> (Problem, Vec<u8>) {
    let problem = problem(&mut c.random);
    let most = c.random.field(0..=2);
    let layout = problem.functions.iter().map(|_| c.random.field(0..=most) as u8).collect();
    (problem, layout)
}

/// What shown walks are like, and what wrong readings would give.
pub fn readings_of_evictions(c: &mut Comparison) {
    for case in 0..4_000 * effort() {
        let (problem, layout) = ambiguous(c, case);
        c.every_eviction(&problem, &file_of(&problem), &layout);
        for shown in Shown::all(&Searched::new(&problem), &layout) {
            for (what, it) in shown.shapes().into_iter().chain(shown.readings()) {
                c.saw(what, it);
            }
        }
    }
}
