//! Check costs: at the ends of their range and past them, in files, padded files, records and drawings; problems in either edition; and where
//! wrong readings of what is charged and paid would give something else.

use super::*;
use crate::padding::Pair;
use examiner_tests::checks::{self, kinds, KINDS, READINGS, RUN_READINGS};
use examiner_tests::padding::{is_padded, spellings};
use examiner_tests::problems::Checks;
use reference::file::{spell_in, MOST_BYTES};

const EDITION_1: &str = "an accepted file of edition 1";
const EDITION_2: &str = "an accepted file of edition 2 with a check cost above zero";
const ALL_ZERO: &str = "an accepted file of edition 2 with no check cost above zero";
const PADDED_1: &str = "an accepted file with its edition as 81 80 80 80 00";
const PADDED_2: &str = "an accepted file with its edition as 82 80 80 80 00";
const PADDED_CHECK: &str = "an accepted file with a padded check cost";
const BACK_AS_1: &str = "a file of edition 2 written back as edition 1, a byte a function shorter or more";
const ALIKE: &str = "a problem in either edition, answered alike by every operation";

const TAKEN: &str = "a check cost of 65,535, taken";
const REFUSED: &str = "a check cost above 65,535, refused 3 at its first byte";
const REFUSED_PADDED: &str = "a padded check cost above 65,535, refused 3 at its first byte";
const MISSPELT: &str = "a misspelt check cost, refused 2 at its first byte";
const CUT: &str = "a file that ends in a check cost, refused 1 at its length";
const RECORD_REFUSED: &str = "a record's check cost above 65,535, refused 3 at the byte that it would have";
const RECORD_BEHIND: &str = "a record's size of 0 behind check costs, refused 3 at the byte that it would have";
const SPARE: &str = "a record with spare check costs above zero, written as edition 1";
const SPARE_2: &str = "a record with spare check costs out of range, written as edition 2";
const DRAWN: &str = "a drawing with check costs, inlined as edition 2";
const DRAWN_REFUSED: &str = "a drawing with a check cost above 65,535, refused 3 with its function";

/// How often these are met at least.
pub fn least() -> Vec<(&'static str, usize)> {
    let counted = [
        (EDITION_1, 10_000),
        (EDITION_2, 10_000),
        (ALL_ZERO, 2_000),
        (PADDED_1, 1_000),
        (PADDED_2, 1_000),
        (PADDED_CHECK, 1_000),
        (BACK_AS_1, 2_000),
        (ALIKE, 1_500),
        (TAKEN, 500),
        (REFUSED, 1_000),
        (REFUSED_PADDED, 1_000),
        (MISSPELT, 3_000),
        (CUT, 3_000),
        (RECORD_REFUSED, 1_000),
        (RECORD_BEHIND, 2_000),
        (SPARE, 300),
        (SPARE_2, 2_000),
        (DRAWN, 2_000),
        (DRAWN_REFUSED, 1_000),
    ];
    let kinds = KINDS.map(|what| (what, 1_000));
    let readings = READINGS.map(|what| (what, 40)).into_iter().chain(RUN_READINGS.map(|what| (what, 500)));
    counted.into_iter().chain(kinds).chain(readings).collect()
}

/// The ends of the range, what lies past them, and where a byte more is needed.
const CHECKS: [u32; 9] = [0, 1, 127, 128, 16_384, 65_534, 65_535, 65_536, u32::MAX];

/// One function of a lawful problem gets each of these check costs, the others some or none.
pub fn check_costs(c: &mut Comparison) {
    for case in 0..800 * effort() {
        let plan = Plan::of_any_size(&mut c.random, case);
        let mut problem = lawful(&mut c.random, &plan);
        let changed = c.random.count(0..=plan.functions - 1);
        for check in CHECKS {
            problem.functions[changed].check = check;
            c.problem(&problem);
            c.check_in_files(&problem, changed);
            c.check_in_records(&problem, changed);
            c.check_in_a_drawing(&problem, changed);
        }
    }
}

/// Problems without check costs by files of both editions, padded or not: every operation answers alike, and edition 1 is written.
pub fn editions(c: &mut Comparison) {
    for case in 0..2_000 * effort() {
        let plan = Plan { checks: Checks::Nowhere, ..Plan::of_any_size(&mut c.random, case) };
        let mut problem = lawful(&mut c.random, &plan);
        let layout = layouts::any(&mut c.random, plan.functions);
        layouts::fit_scratchpad(&mut c.random, &mut problem, &layout);
        let walk = walks::wandering(&mut c.random, &problem, 60, 300);
        let zeros = numbers_in(2, &problem);
        let longer = if c.random.percent(50) { spelled(&zeros) } else { padded(&mut c.random, &zeros) };
        let pair = Pair { short: file_of(&problem), longer };
        assert!(c.alike(&pair, &layout, &walk).is_ok());
        c.saw(ALIKE, true);
        c.file(&pair.longer);
        for length in [pair.short.len() - 1, pair.short.len(), pair.longer.len()] {
            c.write(&pair.longer, length);
        }
        c.layout_and_walk(&pair.longer, &layout, &walk);
    }
}

/// A plan of a small problem with check costs: one with many functions, any, or one with short stays in many loops.
fn checked_plan(random: &mut Random, case: usize) -> Plan {
    let plan = match case % 3 {
        0 => Plan::branching(random, 16),
        1 => Plan::small(random, 12),
        _ => Plan { functions: random.count(2..=4), loops: 4, bounds: vec![1, 2], ..Plan::small(random, 10) },
    };
    Plan { checks: *random.pick(&[Checks::Somewhere, Checks::Everywhere, Checks::OneGreatest]), ..plan }
}

/// Problems with check costs, the walks that are charged the most and others, and what wrong readings would give.
pub fn priced_checks(c: &mut Comparison) {
    for problem in reference::examples::checked().map(|worked| worked.problem) {
        c.problem(&problem);
    }
    for case in 0..4_500 * effort() {
        let plan = checked_plan(&mut c.random, case);
        let problem = lawful(&mut c.random, &plan);
        let layout = layouts::lawful(&mut c.random, plan.functions);
        let priced = c.totals(&problem, &layout);
        for (what, it) in checks::readings(&problem, &priced) {
            c.saw(what, it);
        }
        let dearest = by_states(&problem, &priced.first(), 1_000).map(|(_, walk)| walk);
        let other = walks::lawful(&mut c.random, &problem, 30, 200);
        for walk in dearest.into_iter().chain(other) {
            c.layout_and_walk(&file_of(&problem), &layout, &walk);
            let (regions, _) = check(&problem, &layout).expect("it fits");
            for (what, it) in checks::run_readings(&problem, &regions, &walk) {
                c.saw(what, it);
            }
        }
    }
}

/// What the range says of a check cost whose refusal has this place.
fn judged(check: u32, place: usize) -> Result<(), Refusal> {
    let in_range = check <= 65_535;
    in_range.then_some(()).ok_or(Refusal { number: 3, place: place as u64 })
}

impl Comparison {
    /// Counts the editions of accepted files, and what check costs they have.
    pub fn edition(&mut self, file: &[u8], problem: &Problem) {
        let numbers: Vec<&[u8]> = spellings(file).collect();
        let edition = u32::from(numbers[0][0] & 0x7F);
        let in_edition_2 = edition == 2;
        self.saw(EDITION_1, !in_edition_2);
        self.saw(EDITION_2, in_edition_2 && problem.edition() == 2);
        self.saw(ALL_ZERO, in_edition_2 && problem.edition() == 1);
        self.saw(PADDED_1, numbers[0] == spell_in(1, MOST_BYTES));
        self.saw(PADDED_2, numbers[0] == spell_in(2, MOST_BYTES));
        let padded_check = |function: usize| is_padded(numbers[check_place(function)]);
        self.saw(PADDED_CHECK, in_edition_2 && (0..problem.functions.len()).any(padded_check));
        for (what, it) in kinds(problem) {
            self.saw(what, it);
        }
    }

    /// Counts what of edition 2 came back as edition 1.
    pub fn edition_back(&mut self, file: &[u8], written: &[u8], functions: usize) {
        let falls = file[0] & 0x7F == 2 && written[0] == 1;
        assert!(!falls || written.len() + functions <= file.len(), "a byte a function is saved");
        self.saw(BACK_AS_1, falls);
    }

    /// A problem that is lawful but for the check cost of this function: its file of edition 2, one that is padded, one where the check cost is
    /// misspelt and one that ends in it.
    fn check_in_files(&mut self, problem: &Problem, changed: usize) {
        let check = problem.functions[changed].check;
        let numbers = numbers_in(2, problem);
        let at = check_place(changed);
        assert_eq!(numbers[at], check);
        let short = spelled(&numbers[..at]);
        let behind = spelled(&numbers[at + 1..]);
        let whole = spelled(&numbers);
        assert_eq!(reference::read(&whole).map(drop), judged(check, short.len()));
        self.file(&whole);
        self.saw(TAKEN, check == 65_535);
        self.saw(REFUSED, check > 65_535);

        let front = padded(&mut self.random, &numbers[..at]);
        let long = [&front[..], &padded(&mut self.random, &numbers[at..])].concat();
        assert_eq!(reference::read(&long).map(drop), judged(check, front.len()));
        self.file(&long);
        self.saw(REFUSED_PADDED, check > 65_535 && front.len() > short.len());

        let misspelt = [&front[..], &spell_in(check, MOST_BYTES)[..4], &[0x10], &behind].concat();
        self.refused_in_a_check(MISSPELT, &misspelt, 2, front.len());
        let cut = [&front[..], &vec![0x80; self.random.count(0..=4)]].concat();
        self.refused_in_a_check(CUT, &cut, 1, cut.len());
    }

    fn refused_in_a_check(&mut self, what: &'static str, file: &[u8], number: u8, place: usize) {
        assert_eq!(reference::read(file).map(drop), Err(Refusal { number, place: place as u64 }));
        self.file(file);
        self.saw(what, true);
    }

    /// The same as a record, with odd check costs in its spare places; and with a size of 0 in the function behind.
    fn check_in_records(&mut self, problem: &Problem, changed: usize) {
        let functions = problem.functions.len();
        let check = problem.functions[changed].check;
        let edition = if problem.functions.iter().any(|function| function.check > 0) { 2 } else { 1 };
        let place_of = |number: usize| spelled(&numbers_in(edition, problem)[..number]).len();
        let mut fields = problem.to_fields();
        for spare in functions..MOST_FUNCTIONS {
            fields[COUNT_PLACES[0] + 1 + 3 * spare + 2] = *self.random.pick(&[1, 65_535, 65_536, u32::MAX]);
        }
        let judged = judged(check, place_of(check_place(changed)));
        let mut out = [0; LONGEST];
        assert_eq!(reference::write_fields(&fields, &mut out).map(drop), judged);
        assert!(judged.is_err() || u32::from(out[0]) == edition);
        self.write_fields(&fields, LONGEST);
        self.saw(RECORD_REFUSED, judged.is_err());
        self.saw(SPARE, functions < MOST_FUNCTIONS && edition == 1);
        self.saw(SPARE_2, functions < MOST_FUNCTIONS && edition == 2 && judged.is_ok());

        if changed + 1 < functions && judged.is_ok() {
            fields[COUNT_PLACES[0] + 1 + 3 * (changed + 1)] = 0;
            let place = place_of(3 + function_width(edition) * (changed + 1)) as u64;
            assert_eq!(reference::write_fields(&fields, &mut out), Err(Refusal { number: 3, place }));
            self.write_fields(&fields, LONGEST);
            self.saw(RECORD_BEHIND, edition == 2);
        }
    }

    /// The graph in a drawing, as that of function 0, which calls nothing; the problem's other functions have a vertex each.
    fn check_in_a_drawing(&mut self, problem: &Problem, changed: usize) {
        let others = problem.functions[1..].iter().map(|&function| DrawnFunction { function, ..chain(&[]) });
        let functions: Vec<DrawnFunction> = [drawn(problem)].into_iter().chain(others).collect();
        let numbers = Drawing { scratchpad: problem.scratchpad, functions }.to_numbers();
        let check = problem.functions[changed].check;
        assert_eq!(reference::inline::judge(&numbers).map(drop), judged(check, changed));
        let file = self.inline(&numbers, LONGEST);
        let edition = if problem.functions.iter().any(|function| function.check > 0) { 2 } else { 1 };
        assert!(file.is_none_or(|file| file[0] == edition));
        self.saw(DRAWN, check <= 65_535 && edition == 2);
        self.saw(DRAWN_REFUSED, check > 65_535);
    }
}
