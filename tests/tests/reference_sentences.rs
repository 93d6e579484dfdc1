//! Sentences of the independent implementation held to itself on seeded texts: form by form, by the quick method, and by sentences written
//! that begin as a text does. Needs no archive.

use std::collections::BTreeMap;

use examiner_tests::effort;
use examiner_tests::random::Random;
use examiner_tests::sentences::{any_remark, bytes_of, case_of, damaged, reasons, refusals, CASES, DAMAGES};
use reference::problem::Refusal;
use reference::{fast, read_sentence, word, Remark};

/// Whether some sentence begins with these bytes. Where they end in digits, or in digits and a full stop, a sentence that begins so has a
/// number that begins so, and if any has, then the one whose number these digits are.
fn begins(front: &[u8]) -> bool {
    let numbers = front.strip_suffix(b".").unwrap_or(front);
    let digits = numbers.iter().rev().take_while(|byte| byte.is_ascii_digit()).count();
    let digits = std::str::from_utf8(&numbers[numbers.len() - digits..]).expect("digits");
    let remarks = refusals(digits.parse().unwrap_or(0)).chain(reasons());
    remarks.map(bytes_of).any(|sentence| sentence.starts_with(front))
}

/// What Read-sentence answers of a text, as the definition words it.
fn is_right(text: &[u8], answer: Result<Remark, Refusal>) -> bool {
    match answer {
        Ok(remark) => bytes_of(remark) == text,
        Err(Refusal { number, place }) => {
            let end = place as usize;
            let goes_on = text.get(..end + 1).is_some_and(begins);
            // a whole sentence begins with itself, so only where all of it fits may it be one
            let whole = end == text.len() && text.ends_with(b".");
            number == 22 && begins(&text[..end]) && !goes_on && !whole
        }
    }
}

#[test]
fn damaged_sentences_by_written_ones_and_quickly() {
    let mut random = Random::seeded(16);
    let mut seen: BTreeMap<&str, usize> = CASES.map(|case| (case, 0)).into();
    for _ in 0..40_000 * effort() {
        let mut text = bytes_of(any_remark(&mut random));
        if random.percent(90) {
            let damage = random.field(0..=DAMAGES - 1);
            text = damaged(&mut random, &text, damage);
        }
        let answer = read_sentence(&text);
        let shown = String::from_utf8_lossy(&text);
        assert!(is_right(&text, answer), "{shown:?} is read as {answer:?}");
        assert_eq!(fast::read_sentence(&text), answer, "{shown:?}");
        *seen.get_mut(case_of(&text, answer)).expect("one of the cases") += 1;
    }
    for (case, times) in seen {
        println!("{times:6}  {case}");
        assert!(times >= 200, "there was hardly ever {case}");
    }
}

#[test]
fn random_texts_by_written_sentences_and_quickly() {
    let mut random = Random::seeded(17);
    let letters = b"RefusdEvryOnlNoa 0123456789:;.,";
    for _ in 0..10_000 * effort() {
        let length = random.count(0..=12);
        let text: Vec<u8> = match random.percent(50) {
            true => random.bytes(length),
            false => (0..length).map(|_| *random.pick(letters)).collect(),
        };
        let answer = read_sentence(&text);
        assert!(is_right(&text, answer), "{text:02X?} is read as {answer:?}");
        assert_eq!(fast::read_sentence(&text), answer, "{text:02X?}");
    }
}

#[test]
fn remarks_worded_quickly() {
    let mut random = Random::seeded(18);
    for _ in 0..20_000 * effort() {
        let remark = any_remark(&mut random);
        let needed = bytes_of(remark).len();
        let length = *random.pick(&[0, needed - 1, needed, needed + 3, 128]);
        let mut plain = random.bytes(length);
        let mut quick = plain.clone();
        let written = word(remark, &mut plain);
        assert_eq!(written.is_ok(), length >= needed);
        assert_eq!(fast::word(remark, &mut quick), written, "{remark:?}");
        assert_eq!(quick, plain, "{remark:?}");
    }
}
