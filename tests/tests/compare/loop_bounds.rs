//! Bounds of loops at the ends of their range and past them, in files, padded files, records and drawings; and stays as long as they allow.

use super::*;

const TAKEN: &str = "a loop bound of 4,096, taken";
const REFUSED: &str = "a loop bound above 4,096, refused 3 at its first byte";
const REFUSED_PADDED: &str = "a padded loop bound above 4,096, refused 3 at its first byte";
const REFUSED_FIRST: &str = "a loop bound above 4,096, refused 3 before a fault behind it";
const DRAWN: &str = "a drawing with a loop bound of 4,096, inlined";
const DRAWN_REFUSED: &str = "a drawing with a loop bound above 4,096, refused 3";
const LONG_WALK: &str = "a lawful walk of 50,000 entries in a largest problem";

/// How often these are met at least.
pub const LEAST: [(&str, usize); 7] =
    [(LONG_WALK, 3), (TAKEN, 500), (REFUSED, 2_500), (REFUSED_PADDED, 2_000), (REFUSED_FIRST, 500), (DRAWN, 500), (DRAWN_REFUSED, 2_500)];

/// The ends of the range and what lies past them; 65,535 was the greatest bound once.
const BOUNDS: [u32; 9] = [0, 1, 4_095, 4_096, 4_097, 4_224, 65_535, 65_536, u32::MAX];

/// One loop of a lawful problem gets each of these bounds.
pub fn loop_bounds(c: &mut Comparison) {
    for case in 0..1_000 * effort() {
        let plan = Plan::of_any_size(&mut c.random, case);
        let problem = lawful(&mut c.random, &Plan { loops: plan.loops.max(1), ..plan });
        if problem.loops.is_empty() {
            continue;
        }
        let changed = c.random.count(0..=problem.loops.len() - 1);
        for bound in BOUNDS {
            let mut problem = problem.clone();
            problem.loops[changed].bound = bound;
            c.problem(&problem);
            c.bound_in_files(&problem, changed);
            c.bound_in_a_drawing(&problem, bound);
        }
    }
}

/// Stays that visit a header as often as any bound allows, once more, and for long in the largest problems.
pub fn long_stays(c: &mut Comparison) {
    let mut problem = r();
    problem.loops[0].bound = MOST_VISITS;
    let file = file_of(&problem);
    let visits = |times: u32| [&[0], &[1, 2].repeat(times as usize - 1)[..], &[1, 3]].concat();
    assert!(reference::run(&file, &[0, 0], &visits(MOST_VISITS)).is_ok());
    assert_eq!(reference::run(&file, &[0, 0], &visits(MOST_VISITS + 1)), Err(Refusal { number: 16, place: 8_193 }));
    c.layout_and_walk(&file, &[0, 0], &visits(MOST_VISITS));
    c.layout_and_walk(&file, &[0, 0], &visits(MOST_VISITS + 1));
    for _ in 0..20 * effort() {
        let plan = Plan { bounds: vec![1, 100, MOST_VISITS], ..Plan::largest(&mut c.random) };
        let mut problem = lawful(&mut c.random, &plan);
        let layout = layouts::lawful(&mut c.random, 32);
        let wandering = walks::wandering(&mut c.random, &problem, 50_000, 60_000);
        c.layout_and_walk(&file_of(&problem), &layout, &wandering);
        let roaming = walks::roaming(&mut c.random, &problem, 100_000);
        c.layout_and_walk(&file_of(&problem), &layout, &roaming);
        problem.loops.iter_mut().for_each(|l| l.bound = MOST_VISITS);
        if let Some(walk) = walks::of_length(&mut c.random, &problem, 50_000) {
            c.saw(LONG_WALK, reference::run(&file_of(&problem), &layout, &walk).is_ok());
            c.layout_and_walk(&file_of(&problem), &layout, &walk);
        }
    }
}

/// What the range says of a bound whose refusal has this place.
fn judged(bound: u32, place: usize) -> Result<(), Refusal> {
    let in_range = (1..=4_096).contains(&bound);
    in_range.then_some(()).ok_or(Refusal { number: 3, place: place as u64 })
}

impl Comparison {
    /// A problem that is lawful but for the bound of this loop: its file, and one that is padded and may be spoilt behind the bound.
    fn bound_in_files(&mut self, problem: &Problem, changed: usize) {
        let bound = problem.loops[changed].bound;
        let mut numbers = numbers(problem);
        let at = numbers.len() - 3 * (problem.loops.len() - changed) + 2;
        assert_eq!(numbers[at], bound);
        let above = bound > 4_096;
        let short = judged(bound, spelled(&numbers[..at]).len());
        assert_eq!(reference::read(&spelled(&numbers)).map(|_| ()), short);
        self.saw(TAKEN, bound == 4_096);
        self.saw(REFUSED, above);

        let front = padded(&mut self.random, &numbers[..at]);
        let spoilt = at + 1 < numbers.len() && self.random.percent(50);
        if spoilt {
            // a header that does not ascend, or that is no vertex
            numbers[at + 1] = *self.random.pick(&[0, MOST_VERTICES as u32]);
        }
        let file = [&front[..], &padded(&mut self.random, &numbers[at..])].concat();
        self.file(&file);
        let long = judged(bound, front.len());
        if long.is_err() || !spoilt {
            assert_eq!(reference::read(&file).map(|_| ()), long);
        }
        self.saw(REFUSED_PADDED, above && !spoilt);
        self.saw(REFUSED_FIRST, above && spoilt);
    }

    /// The graph as the only function of a drawing.
    fn bound_in_a_drawing(&mut self, problem: &Problem, bound: u32) {
        let drawing = Drawing { scratchpad: problem.scratchpad, functions: vec![drawn(problem)] };
        let numbers = drawing.to_numbers();
        assert_eq!(reference::inline::judge(&numbers).map(|_| ()), judged(bound, 0));
        self.inline(&numbers, LONGEST);
        self.saw(DRAWN, bound == 4_096);
        self.saw(DRAWN_REFUSED, bound > 4_096);
    }
}
