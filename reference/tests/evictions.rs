//! The worked evictions, by all methods, and what Eviction refuses.

use reference::eviction::{AllWalks, Searched};
use reference::examples::{evictions, longest_shown, p, r, WorkedEviction, M10};
use reference::problem::{Problem, MOST_SHOWN};
use reference::{eviction, fast, file, layout, run, Eviction, Reason, Refusal};

fn file_of(problem: &Problem) -> Vec<u8> {
    file::encode(problem, problem.counts()).expect("the worked examples are in range")
}

/// What the plain and the quick method answer, which is the same, and the buffer afterwards.
fn asked(file: &[u8], layout: &[u8], vertex: u64, room: usize) -> (Result<Eviction, Refusal>, Vec<u32>) {
    let mut walk = vec![77; room];
    let mut quick_walk = walk.clone();
    let answer = eviction(file, layout, vertex, &mut walk);
    assert_eq!(fast::eviction(file, layout, vertex, &mut quick_walk), answer);
    assert_eq!(quick_walk, walk);
    (answer, walk)
}

#[test]
fn worked_evictions_are_as_they_are_written() {
    for WorkedEviction { what, problem, layout, vertex, reason, walk } in evictions() {
        let (regions, _) = layout::check(&problem, &layout).expect(what);
        assert_eq!(Searched::new(&problem).eviction(&regions, vertex), (reason, walk.clone()), "{what}, vertex {vertex}");
        let all = AllWalks::new(&problem, 10_000).expect("few walks");
        assert_eq!(all.eviction(&regions, vertex), (reason, walk.clone()), "{what}, vertex {vertex}");
        let (answer, after) = asked(&file_of(&problem), &layout, u64::from(vertex), walk.len() + 3);
        assert_eq!(answer, Ok(Eviction { reason, count: walk.len() }), "{what}, vertex {vertex}");
        assert_eq!(after, [&walk[..], &[77; 3]].concat(), "{what}, vertex {vertex}");
    }
}

/// On arrival the region does not hold the vertex's function, whatever came last.
#[test]
fn worked_walks_arrive_without_the_function() {
    let mut shown = 0;
    for WorkedEviction { problem, layout, vertex, walk, .. } in evictions().into_iter().filter(|worked| !worked.walk.is_empty()) {
        let (regions, _) = layout::check(&problem, &layout).expect("it fits");
        let own = problem.function_of(vertex);
        let held = run::simulate(&problem, &regions, &walk[..walk.len() - 1]).held;
        assert_ne!(u32::from(held[usize::from(regions[own as usize])]), own, "{walk:?}");
        shown += 1;
    }
    assert!(shown >= 20, "only {shown} walks");
}

#[test]
fn the_longest_walk_has_254_entries() {
    let WorkedEviction { problem, layout, walk, .. } = longest_shown();
    assert_eq!((walk.len(), problem.vertices.len()), (254, 128));
    assert!(walk.len() <= MOST_SHOWN);
    let file = file_of(&problem);
    assert!(asked(&file, &layout, 127, 254).0.is_ok());
    assert_eq!(asked(&file, &layout, 127, 253), (Err(Refusal { number: 10, place: 254 }), vec![77; 253]));
}

#[test]
fn an_unknown_vertex_is_21_before_the_buffer_is_looked_at() {
    let file = file_of(&p());
    for vertex in [7, 8, 128, 256 + 3, 1 << 32, (1 << 32) + 3, u64::MAX] {
        for room in [0, 20] {
            assert_eq!(asked(&file, &[0, 1, 1], vertex, room), (Err(Refusal { number: 21, place: vertex }), vec![77; room]));
        }
    }
    // what comes before it
    assert_eq!(asked(&file, &[0, 1, 2], 7, 20).0, Err(Refusal { number: 13, place: 18 }));
    assert_eq!(asked(&file, &[0, 32], 7, 20).0, Err(Refusal { number: 12, place: 1 }));
    assert_eq!(asked(&file, &[0; 4], 7, 20).0, Err(Refusal { number: 11, place: 3 }));
    assert_eq!(asked(&file[1..], &[0, 1, 1], 7, 20).0, Err(Refusal { number: 3, place: 0 }));
    assert_eq!(asked(&M10, &[], 1, 0).0, Err(Refusal { number: 21, place: 1 }));
}

#[test]
fn a_buffer_that_is_too_short_is_10_and_never_needs_none() {
    let file = file_of(&r());
    for room in 0..4 {
        assert_eq!(asked(&file, &[0, 0], 1, room), (Err(Refusal { number: 10, place: 4 }), vec![77; room]));
    }
    assert_eq!(asked(&file, &[0, 0], 1, 4), (Ok(Eviction { reason: Reason::EveryVisit(1), count: 4 }), vec![0, 1, 2, 1]));
    assert_eq!(asked(&file, &[0, 0], 3, 0), (Ok(Eviction { reason: Reason::Never, count: 0 }), vec![]));
    assert_eq!(asked(&M10, &[], 0, 0), (Err(Refusal { number: 10, place: 1 }), vec![]));
}
