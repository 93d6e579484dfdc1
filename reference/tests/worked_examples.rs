//! M1 to M10 of document 01, layouts that leave functions off, and the two totals.

use reference::examples::{p, q, r, s, t, u, v, w, M10};
use reference::layout::{check, contested};
use reference::longest::{by_contraction, by_states, lawful_walks, Charges};
use reference::totals::{early, early_by_states, first_charges, first_loads, second_charges};
use reference::{bound, file, interference, read, run, write, Bound, Edge, Function, Loop, Problem, Refusal, Vertex};

const CHAIN: [u32; 7] = [0, 1, 2, 3, 4, 5, 6];

fn file_of(problem: &Problem) -> Vec<u8> {
    file::encode(problem, problem.counts()).expect("the worked examples are in range")
}

fn refused(number: u8, place: u64) -> Refusal {
    Refusal { number, place }
}

fn bound_of(problem: &Problem, layout: &[u8]) -> Bound {
    bound(&file_of(problem), layout).expect("the layout is accepted")
}

/// The greatest cycles that a lawful walk runs, over all of them.
fn longest_run(problem: &Problem, layout: &[u8]) -> u64 {
    let (regions, _) = check(problem, layout).expect("the layout fits");
    let mut greatest = 0;
    let all = lawful_walks(problem, 100_000, &mut |walk| {
        assert_eq!(reference::run::check(problem, walk), Ok(()));
        greatest = greatest.max(reference::run::simulate(problem, &regions, walk).cycles);
    });
    assert!(all);
    greatest
}

/// The greatest charges over all lawful walks, each walked.
fn greatest_of_all_walks(problem: &Problem, charges: &Charges) -> u64 {
    let mut greatest = 0;
    assert!(lawful_walks(problem, 100_000, &mut |walk| greatest = greatest.max(charges.of(problem, walk))));
    assert_eq!(by_states(problem, charges, 100_000).expect("few states").0, greatest);
    assert_eq!(by_contraction(problem, charges), greatest);
    u64::try_from(greatest).expect("small")
}

/// What document 01 charges under a layout, its first loads, and what the second total charges.
fn charges_of(problem: &Problem, layout: &[u8]) -> (Charges, u64, Charges) {
    let (regions, _) = check(problem, layout).expect("the layout fits");
    let contested = contested(problem, &interference::by_states(problem), &regions);
    let early = early(problem, &contested);
    assert_eq!(early, early_by_states(problem, &contested));
    (first_charges(problem, &contested), first_loads(problem, &early), second_charges(problem, &contested, &early))
}

/// The two totals again, document 01's and the second, from all lawful walks.
fn totals_by_all_walks(problem: &Problem, layout: &[u8]) -> [u64; 2] {
    let (first, first_loads, second) = charges_of(problem, layout);
    [greatest_of_all_walks(problem, &first) + first_loads, greatest_of_all_walks(problem, &second)]
}

/// The bound again, from all lawful walks.
fn bound_by_all_walks(problem: &Problem, layout: &[u8]) -> u64 {
    let [first, second] = totals_by_all_walks(problem, layout);
    first.min(second)
}

#[test]
fn m1_own_sets_of_p() {
    let problem = p();
    let mut words = vec![0; 21];
    assert_eq!(interference(&file_of(&problem), &mut words), Ok(21));
    let own: Vec<u32> = problem.vertices.iter().enumerate().map(|(v, vertex)| words[v * 3 + vertex.function as usize]).collect();
    // {}, {0}, {1}, {0,1}, {2}, {0,2}, {1}
    assert_eq!(own, [0b000, 0b001, 0b010, 0b011, 0b100, 0b101, 0b010]);
    assert_eq!(words, interference::by_states(&problem));
}

#[test]
fn m2_p_with_layout_0_1_1() {
    let problem = p();
    assert_eq!(bound_of(&problem, &[0, 1, 1]), Bound { need: 14, contested: 2, first_loads: 8, bound: 85 });
    assert_eq!(bound_by_all_walks(&problem, &[0, 1, 1]), 85);
    let run = run(&file_of(&problem), &[0, 1, 1], &CHAIN).expect("lawful");
    assert_eq!((run.cycles, run.loads), (85, 4));
    let mut held = [255; 32];
    held[..2].copy_from_slice(&[0, 1]);
    assert_eq!(run.held, held);
}

#[test]
fn m3_p_with_layout_0_0_1() {
    let problem = p();
    assert_eq!(bound_of(&problem, &[0, 0, 1]).bound, 95);
    assert_eq!(bound_by_all_walks(&problem, &[0, 0, 1]), 95);
    let run = run(&file_of(&problem), &[0, 0, 1], &CHAIN).expect("lawful");
    assert_eq!((run.cycles, run.loads), (95, 6));
}

#[test]
fn m4_p_with_layout_0_0_0() {
    let Bound { need, bound, .. } = bound_of(&p(), &[0, 0, 0]);
    assert_eq!((need, bound), (8, 100));
    assert_eq!(bound_by_all_walks(&p(), &[0, 0, 0]), 100);
}

#[test]
fn m5_p_in_too_small_a_scratchpad() {
    assert_eq!(bound(&file_of(&p()), &[0, 1, 2]), Err(refused(13, 18)));
    let smaller = Problem { scratchpad: 13, ..p() };
    assert_eq!(bound(&file_of(&smaller), &[0, 1, 1]), Err(refused(13, 14)));
    assert_eq!(run(&file_of(&smaller), &[0, 1, 1], &CHAIN), Err(refused(13, 14)));
}

#[test]
fn m6_q() {
    let problem = q();
    assert_eq!(bound_of(&problem, &[0, 1]).bound, 48);
    assert_eq!(bound_by_all_walks(&problem, &[0, 1]), 48);
    assert_eq!(run(&file_of(&problem), &[0, 1], &[0, 2, 3]).expect("lawful").cycles, 48);
}

#[test]
fn m7_r_with_layout_0_1() {
    assert_eq!(bound_of(&r(), &[0, 1]).bound, 39);
    assert_eq!(bound_by_all_walks(&r(), &[0, 1]), 39);
}

#[test]
fn m8_r_with_layout_0_0() {
    assert_eq!(bound_of(&r(), &[0, 0]).bound, 65);
    assert_eq!(bound_by_all_walks(&r(), &[0, 0]), 65);
    assert_eq!(longest_run(&r(), &[0, 0]), 60);
}

#[test]
fn m9_r_at_its_bound() {
    let file = file_of(&r());
    let four_visits = [0, 1, 2, 1, 2, 1, 2, 1, 3];
    assert!(run(&file, &[0, 1], &four_visits).is_ok());
    let fifth_visit = [0, 1, 2, 1, 2, 1, 2, 1, 2, 1, 3];
    assert_eq!(run(&file, &[0, 1], &fifth_visit), Err(refused(16, 9)));

    let mut once = r();
    once.loops[0].bound = 1;
    assert_eq!(bound_of(&once, &[0, 1]).bound, 12);
    assert_eq!(bound_of(&once, &[0, 0]).bound, 14);
    assert_eq!(bound_by_all_walks(&once, &[0, 1]), 12);
    assert_eq!(bound_by_all_walks(&once, &[0, 0]), 14);
}

#[test]
fn m10_a_whole_file() {
    assert!(read(&M10).is_ok());
    assert_eq!(bound(&M10, &[]), Ok(Bound { need: 8, contested: 0, first_loads: 5, bound: 15 }));
    assert_eq!(bound(&[], &[]), Err(refused(1, 0)));
    let mut out = [0; 10];
    assert_eq!(write(&M10, &mut out), Ok(10));
    assert_eq!(out, M10);
}

#[test]
fn p_with_functions_left_off() {
    let file = file_of(&p());
    for short in [&[][..], &[0], &[1], &[0, 1]] {
        assert_eq!(bound(&file, short), Err(refused(13, 18)), "{short:?}");
        assert_eq!(run(&file, short, &CHAIN), Err(refused(13, 18)), "{short:?}");
    }
    assert_eq!(bound(&file, &[0, 32]), Err(refused(12, 1)));
    assert_eq!(bound_of(&p(), &[0, 0]), Bound { need: 14, contested: 4, first_loads: 9, bound: 95 });
    assert_eq!(bound_by_all_walks(&p(), &[0, 0]), 95);
    assert_eq!(bound_of(&p(), &[0, 0, 0]), Bound { need: 8, contested: 6, first_loads: 5, bound: 100 });
    // functions with no vertex are filled in too
    let first_vertex_alone = Problem { vertices: p().vertices[..1].to_vec(), edges: vec![], ..p() };
    assert_eq!(bound(&file_of(&first_vertex_alone), &[0]), Err(refused(13, 18)));
}

#[test]
fn p_with_room_for_all_and_the_empty_layout() {
    let roomy = Problem { scratchpad: 18, ..p() };
    assert_eq!(bound_of(&roomy, &[]), Bound { need: 18, contested: 0, first_loads: 12, bound: 82 });
    assert_eq!(bound_by_all_walks(&roomy, &[]), 82);
    let run = run(&file_of(&roomy), &[], &CHAIN).expect("lawful");
    assert_eq!((run.cycles, run.loads), (82, 3));
    assert_eq!(run.held[..4], [0, 1, 2, 255]);
}

#[test]
fn r_with_the_empty_layout() {
    assert_eq!(bound_of(&r(), &[]), Bound { need: 2, contested: 0, first_loads: 8, bound: 39 });
    assert_eq!(bound_by_all_walks(&r(), &[]), 39);
    assert_eq!(bound_of(&r(), &[0, 0]), Bound { need: 1, contested: 2, first_loads: 5, bound: 65 });
}

#[test]
fn s_with_functions_left_off() {
    assert_eq!(bound_of(&s(), &[0, 0]), Bound { need: 2, contested: 1, first_loads: 9, bound: 129 });
    assert_eq!(bound_by_all_walks(&s(), &[0, 0]), 129);
    assert_eq!(bound_of(&s(), &[]), Bound { need: 3, contested: 0, first_loads: 12, bound: 132 });
    assert_eq!(bound_by_all_walks(&s(), &[]), 132);
}

#[test]
fn t_calls_one_of_two_helpers() {
    assert_eq!(totals_by_all_walks(&t(), &[0, 1, 2]), [15, 12]);
    assert_eq!(bound_of(&t(), &[0, 1, 2]), Bound { need: 3, contested: 0, first_loads: 9, bound: 12 });
    assert_eq!(longest_run(&t(), &[0, 1, 2]), 12);
}

#[test]
fn u_is_charged_twice_in_the_second_total() {
    assert_eq!(totals_by_all_walks(&u(), &[0, 1]), [15, 18]);
    assert_eq!(bound_of(&u(), &[0, 1]), Bound { need: 2, contested: 0, first_loads: 8, bound: 15 });
    assert_eq!(longest_run(&u(), &[0, 1]), 15);
}

#[test]
fn v_enters_a_loop_at_the_start() {
    assert_eq!(totals_by_all_walks(&v(), &[0]), [8, 8]);
    assert_eq!(bound_of(&v(), &[0]), Bound { need: 1, contested: 0, first_loads: 5, bound: 8 });
    assert_eq!(longest_run(&v(), &[0]), 8);
    let (_, _, second) = charges_of(&v(), &[0]);
    assert_eq!(second.entry, [5]);
    // below a run, were the entry at the start left out
    assert_eq!(greatest_of_all_walks(&v(), &Charges::at_visits(&v(), second.visit)), 3);
}

#[test]
fn w_is_charged_at_the_outer_loop_alone() {
    let layout = [0, 1, 2];
    assert_eq!(totals_by_all_walks(&w(), &layout), [20, 20]);
    assert_eq!(bound_of(&w(), &layout), Bound { need: 3, contested: 0, first_loads: 12, bound: 20 });
    assert_eq!(longest_run(&w(), &layout), 20);
    let (_, _, second) = charges_of(&w(), &layout);
    assert_eq!(second.entry, [7, 0]);
    // an entry is charged on a walk that visits no early vertex of the loop
    assert_eq!(second.of(&w(), &[0, 1, 4]), 3 + 5 + 7);
    let inner_too = Charges { entry: vec![7, 3], ..second };
    assert_eq!(greatest_of_all_walks(&w(), &inner_too), 23);
}

/// Function 1 is early in a loop that no walk leaves: cold, and in no lawful walk.
#[test]
fn a_loop_without_a_way_out_is_no_part_of_the_second_total() {
    let edges = [(0, 1), (0, 2), (1, 1)].map(|(from, to)| Edge { from, to });
    let problem = Problem {
        scratchpad: 2,
        functions: [5, 3].map(|load| Function { size: 1, load, check: 0 }).to_vec(),
        vertices: [0, 1, 0].map(|function| Vertex { function, cost: 1 }).to_vec(),
        edges: edges.to_vec(),
        loops: vec![Loop { header: 1, last: 1, bound: 9 }],
    };
    assert_eq!(totals_by_all_walks(&problem, &[0, 1]), [10, 7]);
    assert_eq!(bound_of(&problem, &[0, 1]), Bound { need: 2, contested: 0, first_loads: 5, bound: 7 });
    assert_eq!(longest_run(&problem, &[0, 1]), 7);
}

#[test]
fn three_hundred_is_ac_02() {
    assert_eq!(file::spell(300), [0xAC, 0x02]);
    assert_eq!(file::spell(0), [0x00]);
    assert_eq!(file::spell(u32::MAX), [0xFF, 0xFF, 0xFF, 0xFF, 0x0F]);
}

#[test]
fn five_in_five_bytes_is_85_80_80_80_00() {
    assert_eq!(file::spell_in(5, 5), [0x85, 0x80, 0x80, 0x80, 0x00]);
    assert_eq!(file::spell_in(5, 1), [0x05]);
    assert_eq!(file::spell_in(0, 2), [0x80, 0x00]);
    assert_eq!(file::spell_in(300, 3), [0xAC, 0x82, 0x00]);
    assert_eq!(file::spell_in(u32::MAX, 5), file::spell(u32::MAX));
}
