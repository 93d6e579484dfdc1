//! M1 to M10 of document 01, layouts that leave functions off and the two totals, asked of the library through the safe wrapper, and the
//! wrapper's own forms.

use examiner::{Edge, Fields, Function, Loop, Refusal, RefusalKind, Vertex};
use reference::examples::M10;
use reference::file::LONGEST;

fn fields(scratchpad: u32, functions: &[(u32, u32)], vertices: &[(u32, u32)], edges: &[(u32, u32)], loops: &[(u32, u32, u32)]) -> Fields {
    Fields::new(
        scratchpad,
        &functions.iter().map(|&(size, load)| Function { size, load, check: 0 }).collect::<Vec<_>>(),
        &vertices.iter().map(|&(function, cost)| Vertex { function, cost }).collect::<Vec<_>>(),
        &edges.iter().map(|&(from, to)| Edge { from, to }).collect::<Vec<_>>(),
        &loops.iter().map(|&(header, last, bound)| Loop { header, last, bound }).collect::<Vec<_>>(),
    )
    .expect("there are places for all")
}

/// The file that the library writes for a record.
fn file(fields: &Fields) -> Vec<u8> {
    let mut out = [0; LONGEST];
    let written = examiner::write_fields(fields, &mut out).expect("lawful");
    out[..written].to_vec()
}

fn p(scratchpad: u32) -> Vec<u8> {
    p_with_checks(scratchpad, [0; 3])
}

fn p_with_checks(scratchpad: u32, checks: [u32; 3]) -> Vec<u8> {
    let vertices = [0, 1, 0, 2, 0, 1, 0].map(|function| (function, 10));
    let edges = [(0, 1), (1, 2), (2, 3), (3, 4), (4, 5), (5, 6)];
    let mut fields = fields(scratchpad, &[(8, 5), (4, 3), (6, 4)], &vertices, &edges, &[]);
    fields.functions.iter_mut().zip(checks).for_each(|(function, check)| function.check = check);
    file(&fields)
}

fn q() -> Vec<u8> {
    file(&fields(2, &[(1, 5), (1, 3)], &[(0, 10), (1, 10), (1, 20), (0, 10)], &[(0, 1), (0, 2), (1, 3), (2, 3)], &[]))
}

fn r(bound: u32) -> Vec<u8> {
    file(&fields(2, &[(1, 5), (1, 3)], &[(0, 1), (0, 2), (1, 7), (0, 1)], &[(0, 1), (1, 2), (1, 3), (2, 1)], &[(1, 2, bound)]))
}

/// Splitting a region raises its bound.
fn s() -> Vec<u8> {
    let vertices = [(0, 10), (1, 1), (2, 100), (2, 10)];
    file(&fields(3, &[(1, 5), (1, 3), (1, 4)], &vertices, &[(0, 1), (0, 2), (1, 3), (2, 3)], &[]))
}

/// Functions of one byte each, with room for all, and vertices of cost 1.
fn of_unit_costs(loads: &[u32], functions: &[u32], edges: &[(u32, u32)], loops: &[(u32, u32, u32)]) -> Vec<u8> {
    let sizes_and_loads: Vec<_> = loads.iter().map(|&load| (1, load)).collect();
    let vertices: Vec<_> = functions.iter().map(|&function| (function, 1)).collect();
    file(&fields(loads.len() as u32, &sizes_and_loads, &vertices, edges, loops))
}

/// Calls one of two helpers.
fn t() -> Vec<u8> {
    of_unit_costs(&[5, 3, 4], &[0, 1, 2, 0], &[(0, 1), (0, 2), (1, 3), (2, 3)], &[])
}

/// Function 1 is early before the loop and in it.
fn u() -> Vec<u8> {
    of_unit_costs(&[5, 3], &[0, 1, 0, 1, 0], &[(0, 1), (0, 2), (1, 2), (2, 3), (3, 2), (3, 4)], &[(2, 3, 2)])
}

/// Starts in a loop.
fn v() -> Vec<u8> {
    of_unit_costs(&[5], &[0, 0], &[(0, 0), (0, 1)], &[(0, 0, 2)])
}

/// Two functions are early in a loop, one of them in a loop inside it.
fn w() -> Vec<u8> {
    let edges = [(0, 1), (1, 2), (1, 4), (2, 2), (2, 3), (3, 1)];
    of_unit_costs(&[5, 3, 4], &[0, 0, 1, 2, 0], &edges, &[(1, 3, 2), (2, 2, 3)])
}

#[test]
fn files_are_as_bundled() {
    for sample in reference::examples::samples() {
        let written = match sample.name {
            "p" => p(14),
            "p-checks" => p_with_checks(14, [1, 2, 3]),
            "q" => q(),
            "m10" => M10.to_vec(),
            _ => r(4),
        };
        assert_eq!(written, sample.problem, "{}", sample.name);
        let mut out = vec![0; written.len()];
        assert_eq!(examiner::write(&written, &mut out), Ok(out.len()));
        assert_eq!(out, written);
    }
    assert_eq!(examiner::read(&r(4)), Ok(examiner::Counts { functions: 2, vertices: 4, edges: 4, loops: 1 }));
}

#[test]
fn refusals_have_names_and_numbers() {
    for (index, kind) in RefusalKind::ALL.into_iter().enumerate() {
        assert_eq!(kind.number(), index as u32 + 1);
        assert_eq!(RefusalKind::from_number(kind.number()), Some(kind));
    }
    assert_eq!(RefusalKind::from_number(0), None);
    assert_eq!(RefusalKind::from_number(23), None);
    assert_eq!(examiner::read(&[]), Err(Refusal { number: RefusalKind::EndsEarly, place: 0 }));
    assert_eq!(examiner::read(&M10[..9]).unwrap_err().to_string(), "Refused 1: the file ends before a number does; its length is 9.");
}

#[test]
fn records_have_a_limited_number_of_places() {
    let vertex = Vertex { function: 0, cost: 0 };
    let function = Function { size: 1, load: 0, check: 0 };
    assert!(Fields::new(1, &[function; 32], &[vertex; 128], &[Edge::default(); 512], &[Loop::default(); 32]).is_some());
    assert_eq!(Fields::new(1, &[function; 33], &[vertex], &[], &[]), None);
    assert_eq!(Fields::new(1, &[function], &[vertex; 129], &[], &[]), None);
    assert_eq!(Fields::new(1, &[function], &[vertex], &[Edge::default(); 513], &[]), None);
    assert_eq!(Fields::new(1, &[function], &[vertex], &[], &[Loop::default(); 33]), None);
    let refusal = examiner::write_fields(&Fields::default(), &mut []).unwrap_err();
    assert_eq!(refusal, Refusal { number: RefusalKind::OutOfRange, place: 1 });
}

#[test]
fn m1_own_sets_of_p() {
    let mut words = [u32::MAX; 22];
    assert_eq!(examiner::interference(&p(14), &mut words), Ok(21));
    let own = [0, 1, 0, 2, 0, 1, 0].into_iter().enumerate().map(|(v, f)| words[v * 3 + f]).collect::<Vec<_>>();
    assert_eq!(own, [0b000, 0b001, 0b010, 0b011, 0b100, 0b101, 0b010]);
    assert_eq!(words[21], u32::MAX);
}

mod bounds {
    use super::*;
    use examiner::{bound, Bound};

    #[test]
    fn m2_m3_m4_p() {
        assert_eq!(bound(&p(14), &[0, 1, 1]), Ok(Bound { need: 14, contested: 2, first_loads: 8, bound: 85 }));
        assert_eq!(bound(&p(14), &[0, 0, 1]).map(|b| b.bound), Ok(95));
        assert_eq!(bound(&p(14), &[0, 0, 0]).map(|b| (b.need, b.bound)), Ok((8, 100)));
    }

    #[test]
    fn m5_p_in_too_small_a_scratchpad() {
        let refused = |place| Err(Refusal { number: RefusalKind::ScratchpadTooSmall, place });
        assert_eq!(bound(&p(14), &[0, 1, 2]), refused(18));
        assert_eq!(bound(&p(13), &[0, 1, 1]), refused(14));
    }

    #[test]
    fn m6_q() {
        assert_eq!(bound(&q(), &[0, 1]).map(|b| b.bound), Ok(48));
    }

    #[test]
    fn m7_m8_m9_r() {
        assert_eq!(bound(&r(4), &[0, 1]).map(|b| b.bound), Ok(39));
        assert_eq!(bound(&r(4), &[0, 0]).map(|b| b.bound), Ok(65));
        assert_eq!(bound(&r(1), &[0, 1]).map(|b| b.bound), Ok(12));
        assert_eq!(bound(&r(1), &[0, 0]).map(|b| b.bound), Ok(14));
    }

    #[test]
    fn m10_a_whole_file() {
        assert_eq!(bound(&M10, &[]), Ok(Bound { need: 8, contested: 0, first_loads: 5, bound: 15 }));
    }

    #[test]
    fn p_with_functions_left_off() {
        for short in [&[][..], &[0], &[1], &[0, 1]] {
            assert_eq!(bound(&p(14), short), Err(Refusal { number: RefusalKind::ScratchpadTooSmall, place: 18 }), "{short:?}");
        }
        assert_eq!(bound(&p(14), &[0, 32]), Err(Refusal { number: RefusalKind::UnknownRegion, place: 1 }));
        assert_eq!(bound(&p(18), &[]), Ok(Bound { need: 18, contested: 0, first_loads: 12, bound: 82 }));
        assert_eq!(bound(&p(14), &[0, 0]), Ok(Bound { need: 14, contested: 4, first_loads: 9, bound: 95 }));
        assert_eq!(bound(&p(14), &[0, 0, 0]), Ok(Bound { need: 8, contested: 6, first_loads: 5, bound: 100 }));
    }

    #[test]
    fn r_and_s_with_functions_left_off() {
        assert_eq!(bound(&r(4), &[]), Ok(Bound { need: 2, contested: 0, first_loads: 8, bound: 39 }));
        assert_eq!(bound(&s(), &[0, 0]), Ok(Bound { need: 2, contested: 1, first_loads: 9, bound: 129 }));
        assert_eq!(bound(&s(), &[]), Ok(Bound { need: 3, contested: 0, first_loads: 12, bound: 132 }));
    }

    /// Document 01's total and the second are 15 and 12, and 15 and 18.
    #[test]
    fn t_u_one_total_is_smaller() {
        assert_eq!(bound(&t(), &[0, 1, 2]), Ok(Bound { need: 3, contested: 0, first_loads: 9, bound: 12 }));
        assert_eq!(bound(&u(), &[0, 1]), Ok(Bound { need: 2, contested: 0, first_loads: 8, bound: 15 }));
    }

    #[test]
    fn v_w_both_totals_agree() {
        assert_eq!(bound(&v(), &[0]), Ok(Bound { need: 1, contested: 0, first_loads: 5, bound: 8 }));
        assert_eq!(bound(&w(), &[0, 1, 2]), Ok(Bound { need: 3, contested: 0, first_loads: 12, bound: 20 }));
    }
}

mod runs {
    use super::*;
    use examiner::run;

    const CHAIN: [u32; 7] = [0, 1, 2, 3, 4, 5, 6];

    #[test]
    fn m2_m3_p() {
        let first = run(&p(14), &[0, 1, 1], &CHAIN).expect("lawful");
        assert_eq!((first.cycles, first.loads), (85, 4));
        assert_eq!(first.held[..3], [Some(0), Some(1), None]);
        assert!(first.held[3..].iter().all(Option::is_none));
        let second = run(&p(14), &[0, 0, 1], &CHAIN).expect("lawful");
        assert_eq!((second.cycles, second.loads), (95, 6));
    }

    #[test]
    fn p_with_functions_left_off() {
        let apart = run(&p(18), &[], &CHAIN).expect("lawful");
        assert_eq!((apart.cycles, apart.loads), (82, 3));
        assert_eq!(apart.held[..4], [Some(0), Some(1), Some(2), None]);
        assert!(apart.held[4..].iter().all(Option::is_none));
        assert_eq!(run(&p(14), &[], &CHAIN), Err(Refusal { number: RefusalKind::ScratchpadTooSmall, place: 18 }));
        assert_eq!(run(&p(14), &[0, 0], &CHAIN), run(&p(14), &[0, 0, 1], &CHAIN));
    }

    /// A vertex for each of six functions, one after the other.
    #[test]
    fn what_a_walk_leaves_shows_the_filled_in_layout() {
        let steps = [(0, 1), (1, 2), (2, 3), (3, 4), (4, 5)];
        let six = file(&fields(6, &[(1, 1); 6], &[0, 1, 2, 3, 4, 5].map(|function| (function, 1)), &steps, &[]));
        let held = |layout: &[u8]| run(&six, layout, &[0, 1, 2, 3, 4, 5]).expect("lawful").held.map(|function| function.unwrap_or(9));
        // 2 0 2 1 3 4
        assert_eq!(held(&[2, 0, 2])[..6], [1, 3, 2, 4, 5, 9]);
        // 1 0 2 3 4 5
        assert_eq!(held(&[1])[..6], [1, 0, 2, 3, 4, 5]);
        // 31 0 1 2 3 4
        assert_eq!(held(&[31])[..6], [1, 2, 3, 4, 5, 9]);
        assert_eq!(held(&[31])[31], 0);
    }

    #[test]
    fn m6_q() {
        assert_eq!(run(&q(), &[0, 1], &[0, 2, 3]).map(|r| r.cycles), Ok(48));
    }

    /// Each takes all of its bound.
    #[test]
    fn longest_runs_of_t_u_v_w() {
        let cycles = |file: &[u8], walk: &[u32]| run(file, &[], walk).expect("lawful").cycles;
        assert_eq!(cycles(&t(), &[0, 2, 3]), 12);
        assert_eq!(cycles(&u(), &[0, 1, 2, 3, 2, 3, 4]), 15);
        assert_eq!(cycles(&v(), &[0, 0, 1]), 8);
        assert_eq!(cycles(&w(), &[0, 1, 2, 2, 2, 3, 1, 4]), 20);
    }

    #[test]
    fn m8_longest_run_of_r() {
        // at each number of visits to the header there is one lawful walk
        let cycles = (1..=4).map(|visits| {
            let walk = [&[0], &[1, 2].repeat(visits - 1)[..], &[1, 3]].concat();
            run(&r(4), &[0, 0], &walk).expect("lawful").cycles
        });
        assert_eq!(cycles.max(), Some(60));
    }

    #[test]
    fn m9_a_fifth_visit() {
        let fifth = [0, 1, 2, 1, 2, 1, 2, 1, 2, 1, 3];
        assert_eq!(run(&r(4), &[0, 1], &fifth), Err(Refusal { number: RefusalKind::BeyondBound, place: 9 }));
    }
}
