//! The greatest loop bound, 4,096: the readings that were settled, asked of the library and of the independent implementation.

use examiner_tests::asked::{bound, eviction, inline, interference, read, run, write, write_fields};
use examiner_tests::damage::{file_of, numbers};
use examiner_tests::padding::in_five_bytes;
use examiner_tests::problems::with_total;
use reference::examples::{chain, d3, r};
use reference::problem::{Edge, Function, Loop, Problem, Vertex, MOST_BOUND, MOST_ENTRIES, MOST_SIZE, MOST_VISITS};
use reference::{Drawing, DrawnFunction};

/// Where the bound of R's loop stands in its file.
const PLACE: u64 = 28;

/// Bounds that are out of range. 0 and those above 65,535 were so before request 7/14 too.
const OUT_OF_RANGE: [u32; 8] = [0, 4_097, 8_192, 65_534, 65_535, 65_536, 16_777_216, u32::MAX];

fn r_with(bound: u32) -> Problem {
    let mut problem = r();
    problem.loops[0].bound = bound;
    problem
}

/// R's file with these bytes for its bound, which is its last number and has one byte.
fn r_spelled(bound: &[u8]) -> Vec<u8> {
    let mut file = file_of(&r());
    assert_eq!(file.pop(), Some(4));
    [&file[..], bound].concat()
}

/// The walk through R that visits its header so often.
fn visits(times: usize) -> Vec<u32> {
    [&[0], &[1, 2].repeat(times - 1)[..], &[1, 3]].concat()
}

#[test]
fn the_greatest_bound_is_lawful() {
    assert_eq!((MOST_VISITS, examiner::MOST_VISITS), (4_096, 4_096));
    let file = file_of(&r_with(4_096));
    assert_eq!(file, r_spelled(&[0x80, 0x20]));
    assert_eq!(file.len(), 30);
    assert_eq!(read(&file), Ok(4));
    assert_eq!(write(&file, 30), Ok(file.clone()));
    assert_eq!(write_fields(&r_with(4_096)), Ok(30));
    assert_eq!(interference(&file, 8), Ok(8));
    assert_eq!(bound(&file, &[0, 1]), Ok(36_867));
    assert_eq!(eviction(&file, &[0, 1], 2, 3), Ok(3));
}

#[test]
fn a_stay_of_4_096_visits() {
    let file = file_of(&r_with(4_096));
    assert_eq!(run(&file, &[0, 1], &visits(4_096)), Ok((36_867, 2)));
    assert_eq!(run(&file, &[0, 1], &visits(4_097)), Err((16, 8_193)));
}

#[test]
fn any_other_bound_is_3_in_every_operation() {
    for value in OUT_OF_RANGE {
        let file = file_of(&r_with(value));
        assert_eq!(read(&file), Err((3, PLACE)), "{value}");
        assert_eq!(write(&file, 99), Err((3, PLACE)), "{value}");
        assert_eq!(write_fields(&r_with(value)), Err((3, PLACE)), "{value}");
        assert_eq!(interference(&file, 8), Err((3, PLACE)), "{value}");
        assert_eq!(bound(&file, &[0, 1]), Err((3, PLACE)), "{value}");
        assert_eq!(run(&file, &[0, 1], &visits(4)), Err((3, PLACE)), "{value}");
        assert_eq!(eviction(&file, &[0, 1], 2, 3), Err((3, PLACE)), "{value}");
    }
}

/// Every bound from one end of the range past the other.
#[test]
fn the_range_has_no_gap() {
    for value in 0..=4_200 {
        let said = if (1..=4_096).contains(&value) { Ok(4) } else { Err((3, PLACE)) };
        assert_eq!(read(&file_of(&r_with(value))), said, "{value}");
        assert_eq!(write_fields(&r_with(value)).map(|_| 4), said, "{value}");
    }
}

#[test]
fn a_padded_bound_is_judged_by_its_value() {
    let greatest = r_spelled(&[0x80, 0xA0, 0x80, 0x80, 0x00]);
    assert_eq!(write(&greatest, 30), Ok(file_of(&r_with(4_096))));
    assert_eq!(read(&r_spelled(&[0x81, 0xA0, 0x80, 0x80, 0x00])), Err((3, PLACE)));
    assert_eq!(read(&in_five_bytes(&numbers(&r_with(4_096)))), Ok(4));
    assert_eq!(read(&in_five_bytes(&numbers(&r_with(4_097)))), Err((3, 5 * PLACE)));
}

/// 4 waits for the item's last number, which is the bound.
#[test]
fn it_comes_before_4_of_the_same_loop() {
    let twice = |bound| {
        let mut problem = r();
        problem.loops.push(Loop { header: 1, last: 2, bound });
        problem
    };
    for (bound, said) in [(5, (4, 29)), (4_096, (4, 29)), (4_097, (3, 31)), (5_000, (3, 31))] {
        assert_eq!(read(&file_of(&twice(bound))), Err(said), "{bound}");
        assert_eq!(write_fields(&twice(bound)), Err(said), "{bound}");
    }
}

/// Faults behind the bound, with the number that each is refused for where the bound is in range.
#[test]
fn it_comes_before_what_is_behind_it_in_the_file() {
    let faults: [(u32, fn(&mut Problem)); 5] = [
        (4, |problem| problem.loops.push(Loop { header: 0, last: 0, bound: 1 })),
        (6, |problem| problem.edges[0] = Edge { from: 0, to: 0 }),
        (7, |problem| problem.loops[0].last = 3),
        (8, |problem| problem.edges[3] = Edge { from: 2, to: 0 }),
        (9, |problem| problem.edges[3] = Edge { from: 2, to: 3 }),
    ];
    for (number, fault) in faults {
        let refusals = |bound| {
            let mut problem = r_with(bound);
            fault(&mut problem);
            [read(&file_of(&problem)), write_fields(&problem)].map(|said| said.expect_err("a fault"))
        };
        assert_eq!(refusals(4_096).map(|(number, _)| number), [number; 2]);
        assert_eq!(refusals(4_097), [(3, PLACE); 2], "before {number}");
    }
    let longer = |bound| [file_of(&r_with(bound)), vec![0]].concat();
    assert_eq!(read(&longer(4_096)), Err((5, 30)));
    assert_eq!(read(&longer(4_097)), Err((3, PLACE)));
}

/// Whatever else that is handed in is at fault.
#[test]
fn it_comes_before_buffers_layouts_walks_and_vertices() {
    let refusals = |value| {
        let file = file_of(&r_with(value));
        let narrow = file_of(&Problem { scratchpad: 1, ..r_with(value) });
        let said = [
            write(&file, 0).map(drop),
            interference(&file, 0).map(drop),
            bound(&file, &[0, 1, 2]).map(drop),
            bound(&file, &[0, 32]).map(drop),
            bound(&narrow, &[0, 1]).map(drop),
            run(&file, &[0, 1], &vec![0; MOST_ENTRIES + 1]).map(drop),
            run(&file, &[0, 1], &[1]).map(drop),
            run(&file, &[0, 1], &visits(4_097)).map(drop),
            eviction(&file, &[0, 1], 4, 0).map(drop),
            eviction(&file, &[0, 1], 2, 0).map(drop),
        ];
        said.map(|said| said.expect_err("a fault"))
    };
    assert_eq!(refusals(4_096).map(|(number, _)| number), [10, 10, 11, 12, 13, 17, 15, 16, 21, 10]);
    assert_eq!(refusals(4_097), [(3, PLACE); 10]);
}

/// The drawing D3 with other bounds for the loops of its two functions.
fn d3_with(bounds: [u32; 2]) -> Drawing {
    let mut drawing = d3();
    for (function, bound) in drawing.functions.iter_mut().zip(bounds) {
        function.loops[0].bound = bound;
    }
    drawing
}

#[test]
fn a_drawn_bound_is_judged_and_kept_as_it_is() {
    let file = inline(&d3_with([4_096, 4_095]), 99).expect("lawful");
    let bounds: Vec<u32> = reference::read(&file).expect("lawful").loops.iter().map(|l| l.bound).collect();
    assert_eq!(bounds, [4_096, 4_095]);
    assert_eq!(inline(&d3_with([4_097, 4_097]), 99), Err((3, 0)));
    assert_eq!(inline(&d3_with([4_096, 4_097]), 99), Err((3, 1)));
}

/// A call at the last vertex, one of itself, and calls of too many vertices.
#[test]
fn a_drawn_bound_comes_before_20_18_and_19() {
    let inlined = |caller: &DrawnFunction, bound| {
        let helper = d3_with([4, bound]).functions.remove(1);
        inline(&Drawing { scratchpad: 9, functions: vec![caller.clone(), helper] }, 99)
    };
    let mut last_calls = chain(&[]);
    last_calls.vertices[0].callee = Some(1);
    for (number, caller) in [(20, last_calls), (18, chain(&[Some(0)])), (19, chain(&[Some(1); 127]))] {
        assert_eq!(inlined(&caller, 4_096).map_err(|(number, _)| number), Err(number));
        assert_eq!(inlined(&caller, 4_097), Err((3, 1)), "before {number}");
    }
    // also where nothing calls it
    assert_eq!(inlined(&chain(&[]), 4_097), Err((3, 1)));
}

/// Three loops of the greatest bound, each in the one before, around two vertices of two functions.
fn three_nested(own_costs: [u32; 2], load: u32) -> Vec<u8> {
    let edge = |(from, to)| Edge { from, to };
    let edges = [(0, 1), (1, 2), (2, 3), (3, 4), (4, 1), (4, 2), (4, 3), (4, 5)].map(edge);
    let costs = [0, 0, 0, own_costs[0], own_costs[1], 0];
    file_of(&Problem {
        scratchpad: 2,
        functions: vec![Function { size: 1, load, check: 0 }; 2],
        vertices: costs.into_iter().zip(0..).map(|(cost, v)| Vertex { function: u32::from(v == 4), cost }).collect(),
        edges: edges.to_vec(),
        loops: (1..=3).map(|header| Loop { header, last: 4, bound: 4_096 }).collect(),
    })
}

const PAST_THE_LIMIT: Result<u64, (u32, u64)> = Err((14, 0));

#[test]
fn own_costs_pass_the_limit() {
    let visits = 4_096_u64.pow(3);
    assert_eq!(bound(&three_nested([MOST_SIZE, 0], 0), &[]), PAST_THE_LIMIT);
    // the greatest cost that does not, and one more
    let most = (MOST_BOUND / visits) as u32;
    assert_eq!(bound(&three_nested([most, 0], 0), &[]), Ok(visits * u64::from(most)));
    assert_eq!(bound(&three_nested([most + 1, 0], 0), &[]), PAST_THE_LIMIT);
}

/// Without a cost of its own each vertex is contested where the two functions share a region.
#[test]
fn load_costs_pass_the_limit() {
    let file = three_nested([0, 0], MOST_SIZE);
    assert_eq!(bound(&file, &[0, 0]), PAST_THE_LIMIT);
    assert_eq!(bound(&file, &[0, 1]), Ok(2 * u64::from(MOST_SIZE)));
}

#[test]
fn first_loads_pass_the_limit() {
    assert_eq!(bound(&file_of(&with_total(MOST_BOUND - 7, 7)), &[]), Ok(MOST_BOUND));
    assert_eq!(bound(&file_of(&with_total(MOST_BOUND - 7, 8)), &[]), PAST_THE_LIMIT);
}
