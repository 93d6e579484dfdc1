//! The worked drawings D1 to D6 asked of the library through the safe wrapper, and what the wrapper tells of any drawing.

use examiner::{Drawing, DrawnFunction, DrawnVertex, Edge, Fields, Function, Loop, Refusal, RefusalKind, Vertex};
use examiner_tests::drawings::walk_of;
use reference::examples::{d1, drawn_with_checks, D4};
use reference::file::LONGEST;
use reference::stack::lawful_runs;

/// The load costs of functions 0 to 2.
const LOADS: [u32; 3] = [5, 3, 4];

fn number(text: &str) -> u32 {
    text.parse().expect("a number")
}

/// Edges as "0-1 1-2".
fn edges(text: &str) -> Vec<Edge> {
    let edge = |(from, to)| Edge { from: number(from), to: number(to) };
    text.split_whitespace().map(|pair| edge(pair.split_once('-').expect("two ends"))).collect()
}

/// A loop as (header, last vertex, bound).
fn loops(of: &[(u32, u32, u32)]) -> Vec<Loop> {
    of.iter().map(|&(header, last, bound)| Loop { header, last, bound }).collect()
}

/// A graph whose vertices are given as "1 2>1": own costs, and behind some of them who is called.
fn graph(vertices: &str, edge_list: &str, loop_list: &[(u32, u32, u32)]) -> DrawnFunction {
    let vertex = |text: &str| match text.split_once('>') {
        Some((cost, callee)) => DrawnVertex { callee: Some(number(callee)), cost: number(cost) },
        None => DrawnVertex { callee: None, cost: number(text) },
    };
    DrawnFunction {
        size: 1,
        load: 0,
        check: 0,
        vertices: vertices.split_whitespace().map(vertex).collect(),
        edges: edges(edge_list),
        loops: loops(loop_list),
    }
}

fn drawing(graphs: Vec<DrawnFunction>) -> Drawing {
    let scratchpad = graphs.len() as u32;
    let functions = graphs.into_iter().zip(LOADS).map(|(graph, load)| DrawnFunction { load, ..graph }).collect();
    Drawing { scratchpad, functions }
}

/// The file of a drawing's one problem.
fn inlined(drawing: &Drawing) -> Result<Vec<u8>, Refusal> {
    let mut out = vec![0; LONGEST];
    let written = examiner::inline(drawing, &mut out)?;
    out.truncate(written);
    Ok(out)
}

/// The file of a problem whose vertices are given as "0:1 1:7", functions before own costs.
fn written(functions: usize, vertices: &str, edge_list: &str, loop_list: &[(u32, u32, u32)]) -> Vec<u8> {
    let vertex = |(function, cost)| Vertex { function: number(function), cost: number(cost) };
    let vertices: Vec<Vertex> = vertices.split_whitespace().map(|text| vertex(text.split_once(':').expect("a cost"))).collect();
    let functions: Vec<Function> = LOADS[..functions].iter().map(|&load| Function { size: 1, load, check: 0 }).collect();
    let fields = Fields::new(functions.len() as u32, &functions, &vertices, &edges(edge_list), &loops(loop_list));
    let mut out = vec![0; LONGEST];
    let bytes = examiner::write_fields(&fields.expect("there are places for all"), &mut out).expect("lawful");
    out.truncate(bytes);
    out
}

/// The bound of a file under a layout, and the longest lawful run of the drawn program, each run asked of the library as a walk.
fn bound_and_longest(file: &[u8], drawn: &reference::Drawing, layout: &[u8]) -> (u64, u64) {
    let mut longest = 0;
    let all = lawful_runs(drawn, 10_000, &mut |stacks| {
        let run = examiner::run(file, layout, &walk_of(drawn, stacks)).expect("lawful");
        longest = longest.max(run.cycles);
    });
    assert!(all);
    (examiner::bound(file, layout).expect("it fits").bound, longest)
}

#[test]
fn d1_a_helper_called_twice() {
    let drawing = drawing(vec![graph("10>1 20>1 30", "0-1 1-2", &[]), graph("2 3", "0-1", &[])]);
    let file = inlined(&drawing).expect("lawful");
    assert_eq!(file, written(2, "0:10 1:2 1:3 0:20 1:2 1:3 0:30", "0-1 1-2 2-3 3-4 4-5 5-6", &[]));
    let drawn = reference::examples::d1();
    assert_eq!(bound_and_longest(&file, &drawn, &[0, 1]), (78, 78));
    assert_eq!(bound_and_longest(&file, &drawn, &[0, 0]), (91, 91));
}

#[test]
fn d2_a_helper_that_calls_another() {
    let drawing = drawing(vec![graph("1 2>1 3", "0-1 0-2 1-2", &[]), graph("4>2 5", "0-1", &[]), graph("6", "", &[])]);
    let file = inlined(&drawing).expect("lawful");
    assert_eq!(file, written(3, "0:1 0:2 1:4 2:6 1:5 0:3", "0-1 0-5 1-2 2-3 3-4 4-5", &[]));
    let drawn = reference::examples::d2();
    assert_eq!(bound_and_longest(&file, &drawn, &[0, 1, 2]), (33, 33));
    assert_eq!(bound_and_longest(&file, &drawn, &[0, 1, 0]), (38, 38));
    assert_eq!(bound_and_longest(&file, &drawn, &[0, 0, 0]), (41, 41));
}

#[test]
fn d3_a_loop_that_ends_with_a_call() {
    let caller = graph("1 2 7>1 1", "0-1 1-2 1-3 2-1", &[(1, 2, 4)]);
    let drawing = drawing(vec![caller, graph("1 2 1", "0-1 1-1 1-2", &[(1, 1, 3)])]);
    let file = inlined(&drawing).expect("lawful");
    let result = written(2, "0:1 0:2 0:7 1:1 1:2 1:1 0:1", "0-1 1-2 1-6 2-3 3-4 4-4 4-5 5-1", &[(1, 5, 4), (4, 4, 3)]);
    assert_eq!(file, result);
    let drawn = reference::examples::d3();
    assert_eq!(bound_and_longest(&file, &drawn, &[0, 1]), (63, 63));
    assert_eq!(bound_and_longest(&file, &drawn, &[0, 0]), (89, 84));
}

#[test]
fn d4_a_loop_that_is_a_call() {
    let drawing = drawing(vec![graph("1 2>1 1", "0-1 1-1 1-2", &[(1, 1, 3)]), graph("7", "", &[])]);
    let file = inlined(&drawing).expect("lawful");
    assert_eq!(file, written(2, "0:1 0:2 1:7 0:1", "0-1 1-2 2-1 2-3", &[(1, 2, 3)]));
    assert_eq!(file, D4);
    let drawn = reference::examples::d4();
    assert_eq!(bound_and_longest(&file, &drawn, &[0, 1]), (37, 37));
    assert_eq!(bound_and_longest(&file, &drawn, &[0, 0]), (63, 58));
    let mut short = [7; 28];
    assert_eq!(examiner::inline(&drawing, &mut short), Err(Refusal { number: RefusalKind::BufferTooShort, place: 29 }));
    assert_eq!(short, [7; 28]);
}

#[test]
fn d5_a_loop_at_vertex_0() {
    let drawing = drawing(vec![graph("1>1 2", "0-0 0-1", &[(0, 0, 2)]), graph("1 1", "0-0 0-1", &[(0, 0, 3)])]);
    let file = inlined(&drawing).expect("lawful");
    assert_eq!(file, written(2, "0:1 1:1 1:1 0:2", "0-1 1-1 1-2 2-0 2-3", &[(0, 2, 2), (1, 1, 3)]));
    let drawn = reference::examples::d5();
    assert_eq!(bound_and_longest(&file, &drawn, &[0, 1]).0, 20);
    assert_eq!(bound_and_longest(&file, &drawn, &[0, 0]), (45, 33));
}

#[test]
fn d6_a_loop_that_ends_behind_its_call() {
    let drawing = drawing(vec![graph("1 2 7>1 1", "0-1 1-1 1-2 2-3", &[(1, 2, 4)]), graph("1", "", &[])]);
    assert_eq!(inlined(&drawing), Ok(written(2, "0:1 0:2 0:7 1:1 0:1", "0-1 1-1 1-2 2-3 3-4", &[(1, 3, 4)])));
}

/// Function 0 is checked at the start and on each of two returns, function 1 on each of two calls.
#[test]
fn d1_with_check_costs() {
    let mut drawing = drawing(vec![graph("10>1 20>1 30", "0-1 1-2", &[]), graph("2 3", "0-1", &[])]);
    drawing.functions.iter_mut().zip([2, 4]).for_each(|(function, check)| function.check = check);
    let file = inlined(&drawing).expect("lawful");
    assert_eq!(bound_and_longest(&file, &drawn_with_checks(d1(), &[2, 4]), &[0, 1]), (78 + 3 * 2 + 2 * 4, 78 + 3 * 2 + 2 * 4));
    drawing.functions[1].check = examiner::MOST_CHECK + 1;
    assert_eq!(inlined(&drawing), Err(Refusal { number: RefusalKind::OutOfRange, place: 1 }));
}

#[test]
fn any_drawing_can_be_told() {
    let leaf = || DrawnFunction { load: 5, ..graph("1", "", &[]) };
    let refused = |functions: Vec<DrawnFunction>| inlined(&Drawing { scratchpad: 40, functions }).expect_err("unlawful");
    let out_of_range = |place| Refusal { number: RefusalKind::OutOfRange, place };
    assert_eq!(refused(vec![]), out_of_range(0));
    assert_eq!(refused(vec![leaf(); 33]), out_of_range(0));
    assert_eq!(refused(vec![leaf(); 100_000]), out_of_range(0));
    assert!(inlined(&Drawing { scratchpad: 40, functions: vec![leaf(); 32] }).is_ok());
    // one item more than there are places for, the others lawful
    let many = leaf().vertices.repeat(129);
    assert_eq!(refused(vec![leaf(), DrawnFunction { vertices: many, ..leaf() }]), out_of_range(1));
    assert_eq!(refused(vec![leaf(), DrawnFunction { edges: vec![Edge { from: 0, to: 0 }; 513], ..leaf() }]), out_of_range(1));
    assert_eq!(refused(vec![leaf(), DrawnFunction { loops: loops(&[(0, 0, 1); 33]), ..leaf() }]), out_of_range(1));
    assert_eq!(refused(vec![leaf(), DrawnFunction { vertices: vec![], ..leaf() }]), out_of_range(1));
    // no function is taken for none
    for unknown in [2, 31, 32, 254, 255, 256, 255 + 65_536, u32::MAX] {
        let mut calls = graph("1 1", "0-1", &[]);
        calls.vertices[0].callee = Some(unknown);
        assert_eq!(refused(vec![leaf(), calls]), out_of_range(1), "{unknown}");
    }
    assert_eq!(refused(vec![graph("1>0 1", "0-1", &[])]), Refusal { number: RefusalKind::Recursive, place: 0 });
    assert_eq!(refused(vec![graph("1>1", "", &[]), leaf()]), Refusal { number: RefusalKind::LastCalls, place: 0 });
    let twice = |callee| format!("1>{callee} 1>{callee} 1");
    let tower: Vec<DrawnFunction> = (1..32).map(|next| graph(&twice(next), "0-1 1-2", &[])).chain([leaf()]).collect();
    assert_eq!(refused(tower), Refusal { number: RefusalKind::CountPassed, place: 0 });
}
