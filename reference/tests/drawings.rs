//! The worked drawings D1 to D6, what drawings are refused for, and counts at the limits.

use reference::drawing::Numbers;
use reference::examples::{at_limits, chain, d1, d2, d3, d4, d5, d6, drawn_with_checks, D4};
use reference::file::LONGEST;
use reference::inline::{by_splicing, judge, recursively, true_counts};
use reference::stack::{lawful_runs, number, simulate};
use reference::{bound, inline, read, run, Drawing, DrawnFunction, DrawnVertex, Function, Loop, Problem, Refusal};

fn refused(number: u8, place: u64) -> Refusal {
    Refusal { number, place }
}

/// The file of a drawing's one problem.
fn file_of(drawing: &Drawing) -> Result<Vec<u8>, Refusal> {
    file_of_numbers(&drawing.to_numbers())
}

fn file_of_numbers(numbers: &Numbers) -> Result<Vec<u8>, Refusal> {
    let mut out = vec![0; LONGEST];
    let written = inline(numbers, &mut out)?;
    out.truncate(written);
    Ok(out)
}

fn refusal_of(drawing: &Drawing) -> Refusal {
    file_of(drawing).expect_err("it is no lawful drawing")
}

/// A result in print, as the table of worked drawings has it.
fn shown(problem: &Problem) -> String {
    let vertices = problem.vertices.iter().map(|v| format!("{}:{}", v.function, v.cost));
    let edges = problem.edges.iter().map(|e| format!("{}-{}", e.from, e.to));
    let loops = problem.loops.iter().map(|l| format!("{} to {} bound {}", l.header, l.last, l.bound));
    let parts = [vertices.collect::<Vec<_>>().join(" "), edges.collect::<Vec<_>>().join(" "), loops.collect::<Vec<_>>().join(", ")];
    parts.join("; ")
}

/// Holds the one problem of a drawing to its print, by both methods.
fn results_in(drawing: &Drawing, print: &str) {
    let problem = read(&file_of(drawing).expect("lawful")).expect("lawful");
    assert_eq!(shown(&problem), print);
    assert_eq!(recursively(drawing), problem);
    assert_eq!(by_splicing(drawing), problem);
}

/// The bound of a drawing under a layout, how many lawful runs it has, and the longest. Each run is one of the problem's walks.
fn bounded(drawing: &Drawing, layout: &[u8]) -> (u64, usize, u64) {
    let file = file_of(drawing).expect("lawful");
    let mut known = vec![None; drawing.functions.len()];
    let sizes: Vec<u32> = (0..known.len() as u32).map(|function| true_counts(drawing, function, &mut known)[0] as u32).collect();
    let (mut runs, mut longest) = (0, 0);
    let all = lawful_runs(drawing, 100_000, &mut |stacks| {
        let walk: Vec<u32> = stacks.iter().map(|stack| number(drawing, &sizes, stack)).collect();
        let simulated = simulate(drawing, layout, stacks);
        assert_eq!(run(&file, layout, &walk), Ok(simulated.clone()));
        runs += 1;
        longest = longest.max(simulated.cycles);
    });
    assert!(all);
    (bound(&file, layout).expect("it fits").bound, runs, longest)
}

#[test]
fn d1_a_helper_called_twice() {
    results_in(&d1(), "0:10 1:2 1:3 0:20 1:2 1:3 0:30; 0-1 1-2 2-3 3-4 4-5 5-6; ");
    assert_eq!(bounded(&d1(), &[0, 1]), (78, 1, 78));
    assert_eq!(bounded(&d1(), &[0, 0]), (91, 1, 91));
}

#[test]
fn d2_a_helper_that_calls_another() {
    results_in(&d2(), "0:1 0:2 1:4 2:6 1:5 0:3; 0-1 0-5 1-2 2-3 3-4 4-5; ");
    assert_eq!(bounded(&d2(), &[0, 1, 2]), (33, 2, 33));
    assert_eq!(bounded(&d2(), &[0, 1, 0]), (38, 2, 38));
    assert_eq!(bounded(&d2(), &[0, 0, 0]), (41, 2, 41));
}

#[test]
fn d3_a_loop_that_ends_with_a_call() {
    results_in(&d3(), "0:1 0:2 0:7 1:1 1:2 1:1 0:1; 0-1 1-2 1-6 2-3 3-4 4-4 4-5 5-1; 1 to 5 bound 4, 4 to 4 bound 3");
    assert_eq!(bounded(&d3(), &[0, 1]), (63, 40, 63));
    assert_eq!(bounded(&d3(), &[0, 0]), (89, 40, 84));
}

#[test]
fn d4_a_loop_that_is_a_call() {
    results_in(&d4(), "0:1 0:2 1:7 0:1; 0-1 1-2 2-1 2-3; 1 to 2 bound 3");
    assert_eq!(file_of(&d4()).expect("lawful"), D4);
    assert_eq!(bounded(&d4(), &[0, 1]), (37, 3, 37));
    assert_eq!(bounded(&d4(), &[0, 0]), (63, 3, 58));
}

#[test]
fn d5_a_loop_at_vertex_0() {
    results_in(&d5(), "0:1 1:1 1:1 0:2; 0-1 1-1 1-2 2-0 2-3; 0 to 2 bound 2, 1 to 1 bound 3");
    assert_eq!(bounded(&d5(), &[0, 1]).0, 20);
    assert_eq!(bounded(&d5(), &[0, 0]), (45, 12, 33));
}

#[test]
fn d6_a_loop_that_ends_behind_its_call() {
    results_in(&d6(), "0:1 0:2 0:7 1:1 0:1; 0-1 1-1 1-2 2-3 3-4; 1 to 3 bound 4");
}

/// Each call and each return is checked, and the start.
#[test]
fn a_drawn_program_pays_its_checks() {
    assert_eq!(bounded(&drawn_with_checks(d1(), &[2, 4]), &[0, 1]), (78 + 3 * 2 + 2 * 4, 1, 78 + 3 * 2 + 2 * 4));
    assert_eq!(bounded(&drawn_with_checks(d2(), &[1, 10, 100]), &[0, 1, 2]), (33 + 2 + 20 + 100, 2, 33 + 2 + 20 + 100));
    // vertex 1 is entered from the helper, and its first visit comes from vertex 0
    assert_eq!(bounded(&drawn_with_checks(d4(), &[2, 4]), &[0, 1]), (37 + 5 * 2 + 3 * 4, 3, 37 + 4 * 2 + 3 * 4));
}

#[test]
fn a_drawn_check_cost_is_carried_or_refused_with_its_function() {
    let plain = file_of(&d4()).expect("lawful");
    let file = file_of(&drawn_with_checks(d4(), &[0, 300])).expect("lawful");
    assert_eq!(file, [&[0x02], &plain[1..5], &[0x00], &plain[5..7], &[0xAC, 0x02], &plain[7..]].concat());
    assert_eq!(file_of(&drawn_with_checks(d4(), &[0, 0])), Ok(plain));
    assert!(file_of(&drawn_with_checks(d4(), &[65_535; 2])).is_ok());
    assert_eq!(refusal_of(&drawn_with_checks(d4(), &[0, 65_536])), refused(3, 1));
    assert_eq!(refusal_of(&drawn_with_checks(d4(), &[65_536, u32::MAX])), refused(3, 0));
    // before any rule of its graph, and behind those of a lower one
    let mut wrong = drawn_with_checks(d4(), &[0, 65_536]);
    wrong.functions[1].loops = vec![Loop { header: 0, last: 0, bound: 1 }];
    assert_eq!(refusal_of(&wrong), refused(3, 1));
    wrong.functions[0].edges.remove(2);
    assert_eq!(refusal_of(&wrong), refused(6, 0));
}

fn drawing(functions: Vec<DrawnFunction>) -> Drawing {
    Drawing { scratchpad: 40, functions }
}

#[test]
fn the_order_of_refusals() {
    let leaf = || chain(&[]);
    let lacks_its_way_back = DrawnFunction { loops: vec![Loop { header: 0, last: 1, bound: 2 }], ..chain(&[None, None]) };
    let sizeless = DrawnFunction { function: Function { size: 0, load: 1, check: 0 }, ..leaf() };
    let calls_at_its_end = |callee| DrawnFunction { vertices: vec![DrawnVertex { callee: Some(callee), cost: 1 }], ..leaf() };

    assert_eq!(refusal_of(&Drawing { scratchpad: 0, functions: vec![leaf()] }), refused(3, 0));
    assert_eq!(refusal_of(&drawing(vec![])), refused(3, 0));
    assert_eq!(refusal_of(&drawing(vec![leaf(); 33])), refused(3, 0));
    // the lowest function, whatever is wrong with it
    assert_eq!(refusal_of(&drawing(vec![lacks_its_way_back.clone(), sizeless.clone()])), refused(9, 0));
    assert_eq!(refusal_of(&drawing(vec![leaf(), sizeless, lacks_its_way_back])), refused(3, 1));
    assert_eq!(refusal_of(&drawing(vec![leaf(), chain(&[None; 128])])), refused(3, 1));
    // in one function by the order of its numbers
    let mut twice = chain(&[None, None]);
    twice.edges.swap(0, 1);
    twice.loops = vec![Loop { header: 9, last: 9, bound: 1 }];
    assert_eq!(refusal_of(&drawing(vec![leaf(), leaf(), twice.clone()])), refused(4, 2));
    twice.vertices[1].callee = Some(3);
    assert_eq!(refusal_of(&drawing(vec![leaf(), leaf(), twice])), refused(3, 2));
    for unknown in [2, 31, 32, 33, 254, 256, u32::MAX] {
        assert_eq!(refusal_of(&drawing(vec![leaf(), chain(&[Some(unknown)])])), refused(3, 1), "{unknown}");
    }

    assert_eq!(refusal_of(&drawing(vec![chain(&[Some(0)]), calls_at_its_end(0)])), refused(20, 1));
    assert_eq!(refusal_of(&drawing(vec![calls_at_its_end(0)])), refused(20, 0));
    assert_eq!(refusal_of(&drawing(vec![chain(&[Some(0)])])), refused(18, 0));
    // function 1 reaches a circle and is not on it; nothing reaches function 1
    let circle = vec![leaf(), chain(&[Some(2)]), chain(&[Some(3)]), chain(&[Some(2)])];
    assert_eq!(refusal_of(&drawing(circle)), refused(18, 2));
}

#[test]
fn counts_at_their_limits() {
    for (name, drawing, counts) in at_limits() {
        assert_eq!(true_counts(&drawing, 0, &mut vec![None; drawing.functions.len()]), counts, "{name}");
        let [vertices, edges, loops] = counts;
        if vertices > 128 || edges > 512 || loops > 32 {
            assert_eq!(refusal_of(&drawing), refused(19, 0), "{name}");
            continue;
        }
        let problem = recursively(&judge(&drawing.to_numbers()).expect("no count is passed"));
        assert_eq!([problem.vertices.len(), problem.edges.len(), problem.loops.len()].map(|count| count as u128), counts, "{name}");
    }
}
