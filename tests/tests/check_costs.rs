//! Check costs and the two editions of the file: what request 9/14 works out, and the laws of the editions, asked of the library and of the
//! independent implementation.

use examiner_tests::asked::{bound, eviction, inline, interference, priced, read, run, write, write_fields, write_record, Said};
use examiner_tests::damage::{check_place, file_of, numbers, numbers_in, spelled, COUNT_PLACES};
use examiner_tests::padding::{in_five_bytes, padded};
use examiner_tests::problems::{lawful, longest, Amounts, Checks, Plan};
use examiner_tests::random::Random;
use examiner_tests::{layouts, walks};
use reference::drawing::{DRAWING, GRAPH};
use reference::examples::{checked, d4, drawn_with_checks, p, q, r, refused_checks, with_checks, D4, M10, M10_CHECKED};
use reference::file::LONGEST;
use reference::longest::lawful_walks;
use reference::problem::{Problem, FIELDS, MOST_VERTICES};
use reference::DrawnFunction;

/// M10 in edition 2 with this spelling of its check cost.
fn m10_with(check: &[u8]) -> Vec<u8> {
    [&M10_CHECKED[..5], check, &M10_CHECKED[6..]].concat()
}

#[test]
fn bounds_and_runs_of_the_worked_problems() {
    for worked in checked() {
        let file = file_of(&worked.problem);
        assert_eq!(priced(&file, &worked.layout), Ok(worked.bound), "{}", worked.what);
        for (walk, cycles, loads) in worked.runs {
            assert_eq!(run(&file, &worked.layout, &walk), Ok((cycles, loads)), "{} {walk:?}", worked.what);
        }
    }
}

#[test]
fn longest_runs_of_the_worked_problems() {
    for worked in checked() {
        let file = file_of(&worked.problem);
        let mut longest = 0;
        let all = lawful_walks(&worked.problem, 1_000, &mut |walk| {
            longest = longest.max(run(&file, &worked.layout, walk).expect("lawful").0);
        });
        assert!(all);
        assert_eq!(longest, worked.longest, "{}", worked.what);
    }
}

/// What is needed, contested and loaded does not depend on check costs, nor does why a vertex pays its load.
#[test]
fn check_costs_move_cycles_alone() {
    for worked in checked() {
        let unchecked = with_checks(worked.problem.clone(), &vec![0; worked.problem.functions.len()]);
        let files = [file_of(&unchecked), file_of(&worked.problem)];
        let without_cycles = |file: &[u8]| priced(file, &worked.layout).map(|bound| (bound.need, bound.contested, bound.first_loads));
        assert_eq!(without_cycles(&files[0]), without_cycles(&files[1]), "{}", worked.what);
        assert_eq!(interference(&files[0], 99), interference(&files[1], 99), "{}", worked.what);
        for (walk, ..) in &worked.runs {
            let loads = |file: &[u8]| run(file, &worked.layout, walk).map(|(_, loads)| loads);
            assert_eq!(loads(&files[0]), loads(&files[1]), "{}", worked.what);
        }
        for vertex in 0..=worked.problem.vertices.len() as u64 {
            let [of_unchecked, of_checked] = files.each_ref().map(|file| eviction(file, &worked.layout, vertex, 9));
            assert_eq!(of_unchecked, of_checked, "{}", worked.what);
        }
    }
}

#[test]
fn an_edition_is_1_or_2() {
    let edition = |spelling: &[u8]| read(&[spelling, &M10_CHECKED[1..]].concat());
    assert_eq!(edition(&[2]), Ok(1));
    assert_eq!(edition(&[0x82, 0x80, 0x80, 0x80, 0x00]), Ok(1));
    for unknown in [0, 3, 4, 127] {
        assert_eq!(edition(&[unknown]), Err((3, 0)), "{unknown}");
    }
    assert_eq!(edition(&[0x82, 0x01]), Err((3, 0)));
    assert_eq!(edition(&[0x82, 0x80, 0x80, 0x80, 0x10]), Err((2, 0)));
    // the check cost is taken for the number of vertices, and all behind it for something else
    assert_eq!(edition(&[1]), Err((3, 6)));
}

#[test]
fn a_check_cost_is_judged_by_its_value() {
    for (spelling, cycles) in [(&[0x00][..], 0), (&[0x85, 0x80, 0x80, 0x80, 0x00], 5), (&[0xFF, 0xFF, 0x03], 65_535)] {
        assert_eq!(bound(&m10_with(spelling), &[]), Ok(15 + cycles), "{spelling:02X?}");
    }
    for out_of_range in [&[0x80, 0x80, 0x04][..], &[0x80, 0x80, 0x84, 0x80, 0x00], &[0xFF, 0xFF, 0xFF, 0xFF, 0x0F]] {
        assert_eq!(read(&m10_with(out_of_range)), Err((3, 5)), "{out_of_range:02X?}");
    }
    assert_eq!(read(&m10_with(&[0xFF, 0xFF, 0xFF, 0xFF, 0x10])), Err((2, 5)));
    assert_eq!(read(&M10_CHECKED[..5]), Err((1, 5)));
    assert_eq!(read(&[&M10_CHECKED[..5], &[0x85]].concat()), Err((1, 6)));
}

/// A record's check costs are in the order of its numbers, and places count the bytes that would be written.
#[test]
fn records_are_refused_at_the_bytes_that_they_would_write() {
    for (what, problem, place) in refused_checks() {
        assert_eq!(write_fields(&problem), Err((3, place)), "{what}");
    }
    let first_wrong = |checks: [u32; 2], scratchpad| write_fields(&Problem { scratchpad, ..with_checks(q(), &checks) });
    assert_eq!(first_wrong([65_536, 65_536], 2), Err((3, 5)));
    assert_eq!(first_wrong([65_536, 65_536], 0), Err((3, 1)));
    assert_eq!(first_wrong([65_535, 65_535], 2), Ok(26 + 2 * 3));
}

/// Items behind the functions are placed by their bytes too: here the second of two edges that do not ascend.
#[test]
fn edges_stand_behind_the_check_costs_that_are_written() {
    for (checks, bytes) in [([0, 0], 0), ([0, 1], 2), ([300, 0], 3), ([65_535, 65_535], 6)] {
        let mut problem = with_checks(q(), &checks);
        problem.edges.swap(0, 1);
        assert_eq!(write_fields(&problem), Err((4, 19 + bytes)), "{checks:?}");
        assert_eq!(read(&file_of(&problem)), Err((4, 19 + bytes)), "{checks:?}");
    }
    let mut problem = with_checks(q(), &[0, 1]);
    problem.edges.swap(0, 1);
    assert_eq!(read(&in_five_bytes(&numbers(&problem))), Err((4, 5 * 21)));
}

#[test]
fn records_and_drawings_have_so_many_places() {
    assert_eq!((FIELDS, COUNT_PLACES), (1_477, [1, 98, 355, 1_380]));
    assert_eq!((DRAWING, GRAPH), (44_226, 1_382));
    let numbers = drawn_with_checks(d4(), &[9, 300]).to_numbers();
    assert_eq!(numbers[2..6], [1, 5, 9, 3]);
    assert_eq!(numbers[2 + 1_382..][..4], [1, 3, 300, 1]);
}

#[test]
fn a_spare_check_cost_is_no_part_of_a_record() {
    for value in [1, 65_535, 65_536, u32::MAX] {
        for problem in [q(), with_checks(q(), &[0, 7])] {
            let mut fields = problem.to_fields();
            for spare in 2..32 {
                fields[COUNT_PLACES[0] + 1 + 3 * spare + 2] = value;
            }
            assert_eq!(write_record(&fields), Ok(file_of(&problem)), "{value}");
            // from the count on they are spare: function 1 is no part of this record, and vertex 1 is of no function
            fields[COUNT_PLACES[0]] = 1;
            assert_eq!(write_record(&fields), Err((3, 8)), "{value}");
        }
    }
}

#[test]
fn a_count_above_32_asks_nothing_of_places_that_are_not_there() {
    for checks in [[0, 0], [0, 7], [70_000, 0]] {
        let mut fields = with_checks(q(), &checks).to_fields();
        for count in [33, 1_000, u32::MAX] {
            fields[COUNT_PLACES[0]] = count;
            assert_eq!(write_record(&fields), Err((3, 2)), "{count}");
        }
    }
}

/// As written back, and how many bytes that saves.
fn saved(file: &[u8]) -> (Vec<u8>, usize) {
    let back = write(file, LONGEST).expect("lawful");
    let saved = file.len() - back.len();
    (back, saved)
}

#[test]
fn edition_2_without_check_costs_comes_back_as_edition_1() {
    assert_eq!(saved(&m10_with(&[0])), (M10.to_vec(), 1));
    let mut random = Random::seeded(9);
    for problem in [p(), q(), r()] {
        let zeros = numbers_in(2, &problem);
        let functions = problem.functions.len();
        assert_eq!(saved(&spelled(&zeros)), (file_of(&problem), functions));
        let (back, saved) = saved(&padded(&mut random, &zeros));
        assert_eq!(back, file_of(&problem));
        assert!(saved >= functions);
    }
}

#[test]
fn each_edition_keeps_its_bytes() {
    for file in [&M10[..], &M10_CHECKED] {
        assert_eq!(saved(file), (file.to_vec(), 0));
    }
    for problem in [p(), q(), r()] {
        let checks: Vec<u32> = (0..problem.functions.len() as u32).collect();
        for (problem, edition) in [(with_checks(problem.clone(), &checks), 2), (problem, 1)] {
            let file = file_of(&problem);
            assert_eq!(file[0], edition);
            assert_eq!(saved(&file), (file.clone(), 0));
            assert_eq!(saved(&in_five_bytes(&numbers(&problem))).0, file);
        }
    }
}

#[test]
fn the_longest_file_that_is_written() {
    let problem = longest(&mut Random::seeded(6));
    let file = file_of(&problem);
    assert_eq!((file.len(), LONGEST), (2_155, 2_155));
    assert_eq!(saved(&file), (file.clone(), 0));
    assert_eq!(write(&file, 2_154), Err((10, 2_155)));
    // the last check cost one past its range
    let mut numbers = numbers(&problem);
    numbers[check_place(31)] = 65_536;
    let place = 1 + 4 + 1 + 11 * 32 - 3;
    assert_eq!(read(&spelled(&numbers)), Err((3, place)));
}

#[test]
fn drawings_carry_check_costs_or_are_refused() {
    let file = inline(&drawn_with_checks(d4(), &[0, 300]), 99).expect("lawful");
    assert_eq!(file, [&[0x02], &D4[1..5], &[0x00], &D4[5..7], &[0xAC, 0x02], &D4[7..]].concat());
    assert_eq!(inline(&drawn_with_checks(d4(), &[0, 0]), 99), Ok(D4.to_vec()));
    assert_eq!(inline(&drawn_with_checks(d4(), &[65_536, 65_536]), 99), Err((3, 0)));
    assert_eq!(inline(&drawn_with_checks(d4(), &[65_535, 65_536]), 99), Err((3, 1)));
    // a function that is not called has its say in the edition too
    let mut uncalled = drawn_with_checks(d4(), &[0, 7]);
    uncalled.functions[0].vertices[1].callee = None;
    assert_eq!(inline(&uncalled, 99).expect("lawful")[0], 2);
}

/// A drawn function's numbers are judged before its graph, and behind all of a lower function.
#[test]
fn a_drawn_check_cost_is_judged_in_its_turn() {
    let mut drawing = drawn_with_checks(d4(), &[0, 65_536]);
    let no_vertex = DrawnFunction { vertices: vec![], ..drawing.functions[1].clone() };
    drawing.functions[1] = no_vertex;
    assert_eq!(inline(&drawing, 99), Err((3, 1)));
    drawing.functions[0].edges.remove(2);
    assert_eq!(inline(&drawing, 99), Err((6, 0)));
    drawing.functions[0].function.check = 65_536;
    assert_eq!(inline(&drawing, 99), Err((3, 0)));
}

/// FNV-1a, so that many answers can be held to one stored number.
struct Digest(u64);

impl Digest {
    fn take(&mut self, answer: &str) {
        for byte in answer.bytes() {
            self.0 = (self.0 ^ u64::from(byte)).wrapping_mul(0x0000_0100_0000_01B3);
        }
    }
}

/// A problem without check costs by its seed.
fn of_edition_1(random: &mut Random, seed: u64) -> Problem {
    let vertices = [6, 12, 30, MOST_VERTICES][seed as usize % 4];
    lawful(
        random,
        &Plan {
            functions: 1 + seed as usize % 8,
            vertices,
            edges: 2 * vertices,
            loops: vertices / 5,
            bounds: vec![1, 2, 3, 40],
            costs: [Amounts::Small, Amounts::Any][seed as usize / 8 % 2],
            sizes: Amounts::Small,
            checks: Checks::Nowhere,
            dead: 10,
            deep: seed.is_multiple_of(3),
            around: seed.is_multiple_of(5),
        },
    )
}

/// What all operations answered on seeded edition 1 files, as the independent implementation had it before there were check costs.
const BEFORE_CHECK_COSTS: u64 = 0xF1CA_74B0_F0BA_AA8C;

#[test]
fn no_answer_for_edition_1_has_moved() {
    let mut digest = Digest(0xCBF2_9CE4_8422_2325);
    for seed in 0..400 {
        let mut random = Random::seeded(seed);
        let mut problem = of_edition_1(&mut random, seed);
        let layout = layouts::lawful(&mut random, problem.functions.len());
        layouts::fit_scratchpad(&mut random, &mut problem, &layout);
        let walk = walks::wandering(&mut random, &problem, 50, 300);
        let file = file_of(&problem);
        let told = (write(&file, LONGEST), interference(&file, 4_096), bound(&file, &layout), run(&file, &layout, &walk));
        digest.take(&format!("{told:?}"));
        let shown: Vec<Said<usize>> = (0..6).map(|vertex| eviction(&file, &layout, vertex, 256)).collect();
        digest.take(&format!("{shown:?}"));
    }
    assert_eq!(digest.0, BEFORE_CHECK_COSTS, "{:#018X}", digest.0);
}
