//! The worked evictions asked of the library through the safe wrapper, and what it refuses.

use examiner::{eviction, Eviction, Reason, Refusal, RefusalKind, MOST_SHOWN};
use examiner_tests::damage::file_of;
use examiner_tests::evictions::wrapped_reason;
use reference::examples::{evictions, longest_shown, p, r, WorkedEviction};

fn refused(number: RefusalKind, place: u64) -> Result<Eviction, Refusal> {
    Err(Refusal { number, place })
}

/// The answer, and so many entries afterwards, each 77 before.
fn asked(file: &[u8], layout: &[u8], vertex: u64, entries: usize) -> (Result<Eviction, Refusal>, Vec<u32>) {
    let mut walk = vec![77; entries];
    (eviction(file, layout, vertex, &mut walk), walk)
}

#[test]
fn worked_evictions_are_as_they_are_written() {
    for WorkedEviction { what, problem, layout, vertex, reason, walk } in evictions() {
        let reason = wrapped_reason(reason).expect("functions are below 32");
        let (answer, after) = asked(&file_of(&problem), &layout, u64::from(vertex), MOST_SHOWN);
        assert_eq!(answer, Ok(Eviction { reason, count: walk.len() }), "{what}, vertex {vertex}");
        let kept = vec![77; MOST_SHOWN - walk.len()];
        assert_eq!(after, [walk, kept].concat(), "{what}, vertex {vertex}");
    }
}

#[test]
fn an_unknown_vertex_is_refused_whatever_its_size() {
    let file = file_of(&p());
    for vertex in [7, 128, 256 + 3, 1 << 32, (1 << 32) + 3, u64::MAX] {
        for entries in [0, MOST_SHOWN] {
            let (answer, walk) = asked(&file, &[0, 1, 1], vertex, entries);
            assert_eq!(answer, refused(RefusalKind::UnknownVertex, vertex));
            assert_eq!(walk, vec![77; entries]);
        }
    }
    // the layout is judged before
    assert_eq!(asked(&file, &[0, 1, 2], 7, 0).0, refused(RefusalKind::ScratchpadTooSmall, 18));
    assert_eq!(asked(&file, &[0, 32], 7, 0).0, refused(RefusalKind::UnknownRegion, 1));
    assert_eq!(asked(&file, &[0; 4], 7, 0).0, refused(RefusalKind::LayoutTooLong, 3));
}

#[test]
fn a_buffer_needs_room_for_the_walk_alone() {
    let file = file_of(&r());
    for entries in 0..4 {
        assert_eq!(asked(&file, &[0, 0], 1, entries), (refused(RefusalKind::BufferTooShort, 4), vec![77; entries]));
    }
    let shown = |function, count| Ok(Eviction { reason: Reason::EveryVisit { function }, count });
    assert_eq!(asked(&file, &[0, 0], 1, 4), (shown(1, 4), vec![0, 1, 2, 1]));
    assert_eq!(asked(&file, &[0, 0], 3, 0).0, Ok(Eviction { reason: Reason::Never, count: 0 }));

    let longest = longest_shown();
    let file = file_of(&longest.problem);
    assert_eq!(asked(&file, &longest.layout, 127, 253), (refused(RefusalKind::BufferTooShort, 254), vec![77; 253]));
    assert_eq!(asked(&file, &longest.layout, 127, 254), (shown(1, 254), longest.walk));
}
