//! The worked sentences and texts, by both methods, and what Word refuses.

use reference::examples::{sentences, NO_SENTENCES};
use reference::sentence::{among, sentence, LAST_REFUSAL};
use reference::{fast, read_sentence, word, Form, Reason, Refusal, Remark};

fn refused(number: u8, place: u64) -> Remark {
    Remark::Refused(Refusal { number, place })
}

fn no_sentence(place: u64) -> Result<Remark, Refusal> {
    Err(Refusal { number: 22, place })
}

/// What the plain and the quick method answer, which is the same, and so many bytes afterwards, each 77 before.
fn worded(remark: Remark, length: usize) -> (Result<usize, Refusal>, Vec<u8>) {
    let mut text = vec![77; length];
    let mut quick_text = text.clone();
    let answer = word(remark, &mut text);
    assert_eq!(fast::word(remark, &mut quick_text), answer, "{remark:?}");
    assert_eq!(quick_text, text, "{remark:?}");
    (answer, text)
}

fn read(text: &[u8]) -> Result<Remark, Refusal> {
    let answer = read_sentence(text);
    assert_eq!(fast::read_sentence(text), answer, "{:?}", String::from_utf8_lossy(text));
    answer
}

#[test]
fn worked_sentences_are_as_they_are_written() {
    for (remark, text) in sentences() {
        assert_eq!(worded(remark, text.len()), (Ok(text.len()), text.as_bytes().to_vec()));
        assert_eq!(worded(remark, text.len() + 2).1, [text.as_bytes(), &[77, 77]].concat());
        assert_eq!(read(text.as_bytes()), Ok(remark));
    }
}

#[test]
fn other_texts_are_22_at_the_first_byte_that_does_not_fit() {
    for (text, place) in NO_SENTENCES {
        assert_eq!(read(text.as_bytes()), no_sentence(place), "{text:?}");
    }
    assert_eq!(read(b"Refused 13\0"), no_sentence(10));
    assert_eq!(read(&[b'R', b'e' | 0x80]), no_sentence(1));
}

#[test]
fn every_sentence_reads_back_and_the_longest_has_106_bytes() {
    let places = [0, 9, 10, 1 << 32, u64::MAX];
    let refusals = (1..=LAST_REFUSAL).flat_map(|number| places.map(|place| refused(number, place)));
    let reasons = (0..=31).map(Reason::EveryVisit).chain([Reason::FirstLoad, Reason::Never]).map(Remark::Explained);
    let mut longest = 0;
    for remark in refusals.chain(reasons) {
        let text = sentence(remark).expect("in range");
        assert_eq!(worded(remark, text.len()), (Ok(text.len()), text.clone().into_bytes()));
        assert_eq!(read(text.as_bytes()), Ok(remark));
        longest = longest.max(text.len());
    }
    assert_eq!(longest, 106);
}

#[test]
fn what_has_no_sentence_is_3_before_the_buffer_is_looked_at() {
    let functions = [32, 33, 255, 256, u32::MAX].map(|function| Remark::Explained(Reason::EveryVisit(function)));
    let numbers = [0, LAST_REFUSAL + 1, 255].map(|number| refused(number, 0));
    for remark in functions.into_iter().chain(numbers) {
        assert_eq!(sentence(remark), None);
        for length in [0, 128] {
            assert_eq!(worded(remark, length), (Err(Refusal { number: 3, place: 0 }), vec![77; length]), "{remark:?}");
        }
    }
}

#[test]
fn a_buffer_that_is_too_short_is_10_and_keeps_its_bytes() {
    for (remark, text) in sentences() {
        let needed = Err(Refusal { number: 10, place: text.len() as u64 });
        for length in 0..text.len() {
            assert_eq!(worded(remark, length), (needed, vec![77; length]));
        }
    }
}

/// Of refusals or of reasons alone, a sentence of the other kind has no front at all: the openings differ in their first byte.
#[test]
fn texts_among_refusals_or_reasons_alone() {
    for (remark, text) in sentences() {
        let (refusal, reason) = (among(Form::refusals(), text.as_bytes()), among(Form::reasons(), text.as_bytes()));
        match remark {
            Remark::Refused(_) => assert_eq!((refusal, reason), (Ok(remark), no_sentence(0))),
            Remark::Explained(_) => assert_eq!((refusal, reason), (no_sentence(0), Ok(remark))),
        }
    }
}
