//! The worked check costs of request 9/14, and the two editions of the file.

use reference::examples::{checked, p, q, r, refused_checks, samples, with_checks, M10, M10_CHECKED};
use reference::file::{encode, spell_in, LONGEST};
use reference::layout::check;
use reference::longest::lawful_walks;
use reference::run::{simulate, simulate_by_looking_back};
use reference::totals::entered;
use reference::{bound, fast, read, run, write, write_fields, Problem, Refusal};

fn file_of(problem: &Problem) -> Vec<u8> {
    encode(problem, problem.counts()).expect("the worked examples are in range")
}

fn refused(number: u8, place: u64) -> Refusal {
    Refusal { number, place }
}

/// What Write makes of a file.
fn written(file: &[u8]) -> Vec<u8> {
    let mut out = [0; LONGEST];
    let bytes = write(file, &mut out).expect("lawful");
    out[..bytes].to_vec()
}

/// M10 in edition 2 with this spelling of its check cost.
fn m10_with(check: &[u8]) -> Vec<u8> {
    [&M10_CHECKED[..5], check, &M10_CHECKED[6..]].concat()
}

#[test]
fn bounds_and_runs_of_the_worked_problems() {
    for worked in checked() {
        let file = file_of(&worked.problem);
        assert_eq!(bound(&file, &worked.layout), Ok(worked.bound), "{}", worked.what);
        assert_eq!(fast::bound(&file, &worked.layout), Ok(worked.bound), "{}", worked.what);
        for (walk, cycles, loads) in worked.runs {
            let ran = run(&file, &worked.layout, &walk).expect("lawful");
            assert_eq!((ran.cycles, ran.loads), (cycles, loads), "{} {walk:?}", worked.what);
            assert_eq!(fast::run(&file, &worked.layout, &walk), Ok(ran), "{} {walk:?}", worked.what);
        }
    }
}

#[test]
fn longest_runs_of_the_worked_problems() {
    for worked in checked() {
        let (regions, _) = check(&worked.problem, &worked.layout).expect("it fits");
        let mut longest = 0;
        let all = lawful_walks(&worked.problem, 1_000, &mut |walk| {
            let ran = simulate(&worked.problem, &regions, walk);
            assert_eq!(simulate_by_looking_back(&worked.problem, &regions, walk), ran);
            longest = longest.max(ran.cycles);
        });
        assert!(all);
        assert_eq!(longest, worked.longest, "{}", worked.what);
    }
}

/// By function, not by vertex, and by any edge of the list.
#[test]
fn entered_vertices() {
    assert_eq!(entered(&r()), [true, true, true, false]);
    assert_eq!(entered(&q()), [true; 4]);
    let mut one_function = r();
    one_function.vertices.iter_mut().for_each(|vertex| vertex.function = 0);
    assert_eq!(entered(&one_function), [true, false, false, false]);
}

#[test]
fn m10_in_either_edition() {
    assert_eq!(file_of(&with_checks(read(&M10).expect("lawful"), &[5])), M10_CHECKED);
    assert_eq!(written(&M10_CHECKED), M10_CHECKED);
    // no check cost above zero: edition 1, a byte a function shorter
    assert_eq!(written(&m10_with(&[0])), M10);
    assert_eq!(written(&M10), M10);
    assert_eq!(read(&m10_with(&[0])), read(&M10));
}

#[test]
fn editions_and_check_costs_out_of_range() {
    let edition = |number| [&[number], &M10_CHECKED[1..]].concat();
    assert_eq!(read(&edition(0)), Err(refused(3, 0)));
    assert_eq!(read(&edition(3)), Err(refused(3, 0)));
    assert!(read(&m10_with(&[0xFF, 0xFF, 0x03])).is_ok());
    assert_eq!(read(&m10_with(&[0x80, 0x80, 0x04])), Err(refused(3, 5)));
    assert_eq!(read(&m10_with(&[0x80, 0x80, 0x80, 0x80, 0x10])), Err(refused(2, 5)));
    assert_eq!(read(&M10_CHECKED[..5]), Err(refused(1, 5)));
}

#[test]
fn padded_editions_and_check_costs() {
    let padded = [&spell_in(2, 5)[..], &M10_CHECKED[1..5], &spell_in(5, 5), &M10_CHECKED[6..]].concat();
    assert_eq!(padded[..5], [0x82, 0x80, 0x80, 0x80, 0x00]);
    assert_eq!(written(&padded), M10_CHECKED);
    assert_eq!(written(&[&spell_in(1, 5)[..], &M10[1..]].concat()), M10);
}

#[test]
fn records_are_refused_at_the_bytes_that_they_would_write() {
    for (what, problem, place) in refused_checks() {
        assert_eq!(write_fields(&problem.to_fields(), &mut [0; 99]), Err(refused(3, place)), "{what}");
    }
}

/// The first spare place is behind those of Q's two functions, each with three numbers.
#[test]
fn a_spare_check_cost_is_no_part_of_a_record() {
    let spare = 2 + 3 * 2 + 2;
    for value in [1, 70_000] {
        let mut fields = q().to_fields();
        fields[spare] = value;
        let mut out = [0; 99];
        let bytes = write_fields(&fields, &mut out).expect("lawful");
        assert_eq!(out[..bytes], file_of(&q()));
    }
}

#[test]
fn the_sample_of_edition_2_is_p_with_its_check_costs() {
    let named = |name: &str| samples().into_iter().find(|sample| sample.name == name).expect("bundled");
    let (sample, plain) = (named("p-checks"), named("p"));
    assert_eq!(sample.layout, plain.layout);
    assert_eq!((sample.problem[0], plain.problem[0]), (2, 1));
    assert_eq!(read(&sample.problem), Ok(with_checks(p(), &[1, 2, 3])));
}
