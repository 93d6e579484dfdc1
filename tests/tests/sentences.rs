//! Sentences: the worked ones, every row of their page, and what is refused, asked of the library and of the independent implementation; and
//! the traits by which Rust callers have them.

use std::error::Error;
use std::fs;
use std::path::Path;
use std::ptr::null;

use examiner::{raw, RefusalKind, MOST_SENTENCE};
use examiner_tests::asked::{read_sentence, word, word_reason, word_refusal};
use examiner_tests::sentences::{bytes_of, reasons, refused, remarks, wrapped_remark, PLACES};
use reference::examples::{sentences, NO_SENTENCES};
use reference::sentence::{among, LAST_REFUSAL};
use reference::{Form, Reason, Remark};

fn no_sentence(place: u64) -> examiner::Refusal {
    examiner::Refusal { number: RefusalKind::NoSentence, place }
}

#[test]
fn worked_sentences_are_as_they_are_written() {
    for (remark, text) in sentences() {
        assert_eq!(word(remark, text.len()), Ok(text.as_bytes().to_vec()));
        assert_eq!(read_sentence(text.as_bytes()), Ok(remark));
    }
}

#[test]
fn other_texts_are_22_at_the_first_byte_that_does_not_fit() {
    for (text, place) in NO_SENTENCES {
        assert_eq!(read_sentence(text.as_bytes()), Err((22, place)), "{text:?}");
    }
    assert_eq!(read_sentence(b"Refused 13\0"), Err((22, 10)));
    assert_eq!(read_sentence(&[b'R', b'e' | 0x80]), Err((22, 1)));
}

/// What stands in docs/SENTENCES.md.
fn page() -> String {
    fs::read_to_string(Path::new(env!("CARGO_MANIFEST_DIR")).join("../docs/SENTENCES.md")).expect("the page")
}

/// The cells of each row of the table below a heading.
fn rows<'a>(page: &'a str, heading: &str) -> Vec<Vec<&'a str>> {
    let section = page.split("\n## ").find(|section| section.starts_with(heading)).expect("a section");
    let table = section.lines().filter(|line| line.starts_with('|')).skip(2);
    table.map(|row| row.trim_matches('|').split('|').map(str::trim).collect()).collect()
}

/// The library writes the sentence and reads it back.
fn is_sentence(remark: Remark, text: &str) {
    assert_eq!(word(remark, MOST_SENTENCE).as_deref(), Ok(text.as_bytes()));
    assert_eq!(word(remark, text.len()).as_deref(), Ok(text.as_bytes()));
    assert_eq!(read_sentence(text.as_bytes()), Ok(remark));
}

#[test]
fn the_page_has_every_refusal() {
    let page = page();
    let rows = rows(&page, "Refusals");
    let numbers: Vec<String> = RefusalKind::ALL.iter().map(|kind| kind.number().to_string()).collect();
    assert_eq!(rows.iter().map(|row| row[0]).collect::<Vec<_>>(), numbers);
    for (row, number) in rows.iter().zip(1..) {
        let phrase = row[1];
        assert!(!phrase.contains(|c: char| c.is_ascii_digit()), "{phrase}");
        for place in PLACES {
            is_sentence(refused(number, place), &format!("Refused {number}: {phrase} {place}."));
        }
    }
    // and there is none that the page has not
    assert_eq!(word_refusal(rows.len() as u32 + 1, 0, MOST_SENTENCE), Err((3, 0)));
    assert_eq!(usize::from(LAST_REFUSAL), rows.len());
}

#[test]
fn the_page_has_every_reason() {
    let page = page();
    let rows = rows(&page, "Why a vertex pays its load");
    let [[one, every_visit], [two, first_load], [three, never]] = [0, 1, 2].map(|row| [rows[row][0], rows[row][1]]);
    assert_eq!((rows.len(), [one, two, three]), (3, ["1", "2", "3"]));
    let words = every_visit.strip_suffix("5.").expect("function 5");
    for function in 0..=31 {
        is_sentence(Remark::Explained(Reason::EveryVisit(function)), &format!("{words}{function}."));
    }
    is_sentence(Remark::Explained(Reason::FirstLoad), first_load);
    is_sentence(Remark::Explained(Reason::Never), never);
    assert_eq!(word_reason(4, 0, MOST_SENTENCE), Err((3, 0)));
}

#[test]
fn the_examples_of_the_page_are_read_as_it_says() {
    let page = page();
    let rows = rows(&page, "How a text is read");
    assert!(rows.len() >= 14, "only {} examples", rows.len());
    for row in rows {
        let text = if row[0] == "(empty)" { String::new() } else { row[0].trim_matches('`').replace('⏎', "\n") };
        let answer = row[1].split(',').next().expect("an answer");
        let of_remark = answer.strip_prefix("refused ");
        let (number, place) = of_remark.unwrap_or(answer).split_once(" at ").expect("a number and a place");
        let (number, place) = (number.parse().expect("a number"), place.parse().expect("a place"));
        let wanted = if of_remark.is_some() { Err((u32::from(number), place)) } else { Ok(refused(number, place)) };
        assert_eq!(read_sentence(text.as_bytes()), wanted, "{text:?}");
    }
    let shown: Vec<&str> = page.lines().filter_map(|line| line.strip_prefix("> ")).collect();
    assert_eq!(shown.len(), 1, "one sentence stands by itself");
    is_sentence(refused(13, 18), shown[0]);
    assert!(page.contains(&format!("more than {MOST_SENTENCE} bytes")));
    assert!(page.contains(&format!("0 to {}", u64::MAX)));
}

#[test]
fn the_longest_sentence_has_106_bytes() {
    let longest = remarks(&PLACES).map(|remark| word(remark, MOST_SENTENCE).expect("room enough").len()).max();
    assert_eq!(longest, Some(106));
}

#[test]
fn an_unknown_number_is_3_before_the_buffer_is_looked_at() {
    for length in [0, 1, MOST_SENTENCE] {
        for number in [0, u32::from(LAST_REFUSAL) + 1, 256 + 3, u32::MAX] {
            assert_eq!(word_refusal(number, 18, length), Err((3, 0)), "refusal {number}");
        }
        for reason in [0, 4, 256 + 1, u32::MAX] {
            assert_eq!(word_reason(reason, 0, length), Err((3, 0)), "reason {reason}");
        }
        for function in [32, 33, 256, 1 << 32, u64::MAX] {
            assert_eq!(word_reason(1, function, length), Err((3, 0)), "function {function}");
        }
    }
}

#[test]
fn the_function_is_looked_at_for_reason_1_alone() {
    for function in [0, 31, 32, u64::MAX] {
        for (reason, remark) in [(2, Reason::FirstLoad), (3, Reason::Never)] {
            assert_eq!(word_reason(reason, function, MOST_SENTENCE), Ok(bytes_of(Remark::Explained(remark))));
        }
    }
}

#[test]
fn a_buffer_needs_room_for_the_sentence_alone() {
    for (remark, text) in sentences() {
        for length in 0..text.len() {
            assert_eq!(word(remark, length), Err((10, text.len() as u64)), "{length} bytes for {text}");
        }
        assert_eq!(word(remark, text.len()).as_deref(), Ok(text.as_bytes()));
    }
}

/// What the export returns, and all of `answer`, whose places were 7.
fn told(text: &[u8]) -> (u32, [u64; 4]) {
    let mut answer = [7; 4];
    let start = if text.is_empty() { null() } else { text.as_ptr() };
    // SAFETY: a null pointer stands with length 0 alone; `text` and `answer` are valid for the call, and apart.
    let number = unsafe { raw::examiner_read_sentence(start, text.len(), answer.as_mut_ptr()) };
    (number, answer)
}

#[test]
fn c_callers_are_told_a_remark_by_its_numbers() {
    let told_of = |remark| told(&bytes_of(remark));
    assert_eq!(told_of(refused(13, 18)), (0, [0, 13, 18, 7]));
    assert_eq!(told_of(refused(22, u64::MAX)), (0, [0, 22, u64::MAX, 7]));
    assert_eq!(told_of(Remark::Explained(Reason::EveryVisit(31))), (0, [1, 31, 7, 7]));
    assert_eq!(told_of(Remark::Explained(Reason::EveryVisit(0))), (0, [1, 0, 7, 7]));
    assert_eq!(told_of(Remark::Explained(Reason::FirstLoad)), (0, [2, 7, 7, 7]));
    assert_eq!(told_of(Remark::Explained(Reason::Never)), (0, [3, 7, 7, 7]));
    assert_eq!(told(b"Refused 3"), (22, [9, 7, 7, 7]));
    assert_eq!(told(b""), (22, [0, 7, 7, 7]));
}

#[test]
fn what_has_a_sentence_displays_as_it_and_is_parsed_from_it() {
    for remark in remarks(&PLACES) {
        let text = String::from_utf8(bytes_of(remark)).expect("ASCII");
        let remark = wrapped_remark(remark).expect("in range");
        assert_eq!((remark.to_string(), text.parse()), (text.clone(), Ok(remark)));
        match remark {
            examiner::Remark::Refused(refusal) => {
                assert_eq!((refusal.to_string(), text.parse()), (text.clone(), Ok(refusal)));
                assert_eq!(text.parse::<examiner::Reason>(), Err(no_sentence(0)));
            }
            examiner::Remark::Explained(reason) => {
                assert_eq!((reason.to_string(), text.parse()), (text.clone(), Ok(reason)));
                assert_eq!(text.parse::<examiner::Refusal>(), Err(no_sentence(0)));
            }
        }
    }
}

/// As an error, and in a column of a table.
#[test]
fn a_refusal_displays_like_any_text() {
    let refusal = examiner::read(&[]).unwrap_err();
    let text = "Refused 1: the file ends before a number does; its length is 0.";
    assert_eq!(Box::<dyn Error>::from(refusal).to_string(), text);
    assert_eq!(format!("{refusal:-<70}|"), format!("{text}-------|"));
    assert_eq!(format!("{refusal:.9}"), "Refused 1");
}

#[test]
fn a_reason_without_a_sentence_displays_in_its_debug_form() {
    for function in [32, 255] {
        let reason = examiner::Reason::EveryVisit { function };
        assert_eq!(reason.to_string(), format!("EveryVisit {{ function: {function} }}"));
        assert_eq!(examiner::Remark::from(reason).to_string(), format!("Explained(EveryVisit {{ function: {function} }})"));
    }
}

/// A text that is parsed as a refusal, or as a reason, is refused by how much of it fits a sentence of that kind.
#[test]
fn other_texts_are_parsed_as_nothing() {
    for (text, place) in NO_SENTENCES {
        let of_refusals = if text.starts_with('R') { place } else { 0 };
        let of_reasons = if text.starts_with('R') { 0 } else { place };
        assert_eq!(text.parse::<examiner::Remark>(), Err(no_sentence(place)), "{text:?}");
        assert_eq!(text.parse::<examiner::Refusal>(), Err(no_sentence(of_refusals)), "{text:?}");
        assert_eq!(text.parse::<examiner::Reason>(), Err(no_sentence(of_reasons)), "{text:?}");
        let place_among = |forms: &mut dyn Iterator<Item = Form>| among(forms, text.as_bytes()).unwrap_err().place;
        let places = (place_among(&mut Form::refusals()), place_among(&mut Form::reasons()));
        assert_eq!(places, (of_refusals, of_reasons), "{text:?}");
    }
}

/// The wrapper rests on it that all refusals begin with one byte and no reason does.
#[test]
fn openings_differ_in_their_first_byte() {
    assert!(remarks(&[0]).all(|remark| bytes_of(remark).starts_with(b"R") == matches!(remark, Remark::Refused(_))));
    let mut firsts: Vec<u8> = reasons().map(|reason| bytes_of(reason)[0]).collect();
    firsts.dedup();
    assert_eq!(firsts, b"EON");
}
