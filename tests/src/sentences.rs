//! Remarks and their sentences, texts that come of damaging these, and what such texts are like, to be counted.

use examiner::RefusalKind;
use reference::problem::{Refusal, MOST_FUNCTIONS};
use reference::sentence::{sentence, EVERY_VISIT, LAST_REFUSAL, OPENINGS};
use reference::{Reason, Remark};

use crate::evictions::wrapped_reason;
use crate::random::Random;

/// The ends of the range of places, and some where the number of digits or of words changes.
pub const PLACES: [u64; 5] = [0, 9, 10, 1 << 32, u64::MAX];

/// The refusal of this number and place.
pub fn refused(number: u8, place: u64) -> Remark {
    Remark::Refused(Refusal { number, place })
}

/// The refusal of each number at a place.
pub fn refusals(place: u64) -> impl Iterator<Item = Remark> {
    (1..=LAST_REFUSAL).map(move |number| refused(number, place))
}

/// Every reason that has a sentence.
pub fn reasons() -> impl Iterator<Item = Remark> {
    let every_visit = (0..MOST_FUNCTIONS as u32).map(Reason::EveryVisit);
    every_visit.chain([Reason::FirstLoad, Reason::Never]).map(Remark::Explained)
}

/// Every number at these places, and every reason.
pub fn remarks(places: &[u64]) -> impl Iterator<Item = Remark> + '_ {
    places.iter().flat_map(|&place| refusals(place)).chain(reasons())
}

/// A place of so many digits, 1 to 20.
pub fn place_of(random: &mut Random, digits: u32) -> u64 {
    let least = if digits == 1 { 0 } else { 10_u64.pow(digits - 1) };
    random.within(least..=10_u64.checked_pow(digits).map_or(u64::MAX, |next| next - 1))
}

/// Some remark that has a sentence.
pub fn any_remark(random: &mut Random) -> Remark {
    if random.percent(20) {
        let function = random.field(0..=MOST_FUNCTIONS as u32 - 1);
        return Remark::Explained(*random.pick(&[Reason::EveryVisit(function), Reason::FirstLoad, Reason::Never]));
    }
    let digits = random.field(1..=20);
    let place = if random.percent(30) { *random.pick(&PLACES) } else { place_of(random, digits) };
    refused(random.field(1..=u32::from(LAST_REFUSAL)) as u8, place)
}

/// The bytes of a sentence, of a remark that has one.
pub fn bytes_of(remark: Remark) -> Vec<u8> {
    sentence(remark).expect("in range").into_bytes()
}

/// A remark in the wrapper's form, if it has a form for it.
pub fn wrapped_remark(remark: Remark) -> Option<examiner::Remark> {
    match remark {
        Remark::Refused(Refusal { number, place }) => {
            RefusalKind::from_number(u32::from(number)).map(|number| examiner::Refusal { number, place }.into())
        }
        Remark::Explained(reason) => wrapped_reason(reason).map(examiner::Remark::from),
    }
}

/// A remark of the wrapper in the form of the independent implementation.
pub fn plain_remark(remark: examiner::Remark) -> Remark {
    match remark {
        examiner::Remark::Refused(refusal) => refused(refusal.number.number() as u8, refusal.place),
        examiner::Remark::Explained(reason) => Remark::Explained(match reason {
            examiner::Reason::EveryVisit { function } => Reason::EveryVisit(u32::from(function)),
            examiner::Reason::FirstLoad => Reason::FirstLoad,
            examiner::Reason::Never => Reason::Never,
        }),
    }
}

/// The refusal that a C caller names so. 0 stands for every number that is none's.
pub fn named_refusal(number: u32, place: u64) -> Remark {
    refused(u8::try_from(number).unwrap_or(0), place)
}

/// The reason that a C caller names so, if there is one.
pub fn named_reason(reason: u32, function: u64) -> Option<Remark> {
    let reason = match reason {
        1 => Reason::EveryVisit(u32::try_from(function).unwrap_or(u32::MAX)),
        2 => Reason::FirstLoad,
        3 => Reason::Never,
        _ => return None,
    };
    Some(Remark::Explained(reason))
}

/// What may stand for a number: longer and greater than the greatest place or function, with zeros before it, or not only digits.
pub const ODD_NUMBERS: [&str; 28] = [
    "",
    "00",
    "01",
    "007",
    "000000000000000000000000",
    "31",
    "32",
    "39",
    "40",
    "99",
    "100",
    "256",
    "310",
    "4294967296",
    "9999999999999999999",
    "10000000000000000000",
    "18446744073709551614",
    "18446744073709551616",
    "18446744073709551619",
    "18446744073709551620",
    "18446744073709551700",
    "18446744073709551615000",
    "20000000000000000000",
    "99999999999999999999",
    "+1",
    "-1",
    "1 ",
    "1,000",
];

/// The bytes that are likely to be mistaken: ends of texts and of ranges of digits, marks of sentences, and high ones.
pub const ODD_BYTES: [u8; 12] = [0, b'\n', b' ', b'.', b'/', b'0', b'1', b'9', b':', b'R', 0x80, 0xFF];

/// A text with another byte at a position.
pub fn changed(text: &[u8], at: usize, byte: u8) -> Vec<u8> {
    [&text[..at], &[byte], &text[at + 1..]].concat()
}

/// A text with a byte put in at a position, or at the end.
pub fn put_in(text: &[u8], at: usize, byte: u8) -> Vec<u8> {
    [&text[..at], &[byte], &text[at..]].concat()
}

/// What stands before the last number of a sentence.
fn before_last_number(text: &[u8]) -> &[u8] {
    let after = text.iter().rposition(|byte| byte.is_ascii_digit()).map_or(0, |last| last + 1);
    let digits = text[..after].iter().rev().take_while(|byte| byte.is_ascii_digit()).count();
    &text[..after - digits]
}

/// A refusal's sentence with another number before its phrase. A reason's stays as it is.
pub fn renumbered(text: &[u8], number: u32) -> Vec<u8> {
    match text.iter().position(|&byte| byte == b':') {
        Some(colon) => [b"Refused ", number.to_string().as_bytes(), &text[colon..]].concat(),
        None => text.to_vec(),
    }
}

/// What [`damaged`] does to a sentence.
pub const DAMAGES: u32 = 10;

/// A sentence with one thing done to it, by number below [`DAMAGES`]. Most of what comes out is none.
pub fn damaged(random: &mut Random, text: &[u8], damage: u32) -> Vec<u8> {
    let at = random.count(0..=text.len() - 1);
    let byte = if random.percent(50) { *random.pick(&ODD_BYTES) } else { random.any() as u8 };
    match damage {
        0 => text[..at].to_vec(),
        1 => changed(text, at, byte),
        2 => put_in(text, at, byte),
        3 => put_in(text, text.len(), byte),
        4 => [&text[..at], &text[at + 1..]].concat(),
        // a digit in the last number, at its start, inside or at its end
        5 => {
            let start = before_last_number(text).len();
            let position = random.count(start..=text.len() - 1);
            put_in(text, position, b'0' + random.field(0..=9) as u8)
        }
        6 => [before_last_number(text), random.pick(&ODD_NUMBERS).as_bytes(), b"."].concat(),
        // the front of one and the end of another
        7 => {
            let other = bytes_of(any_remark(random));
            let from = if random.percent(50) { at.min(other.len()) } else { random.count(0..=other.len()) };
            [&text[..at], &other[from..]].concat()
        }
        8 => renumbered(text, random.field(0..=40)),
        _ => {
            let length = random.count(0..=60);
            [&text[..at], &random.bytes(length)].concat()
        }
    }
}

const REFUSAL: &str = "a text that is a refusal's sentence";
const EVERY: &str = "a text that is the sentence of a load on every visit";
const FIRST: &str = "a text that is the sentence of a first load";
const NONE: &str = "a text that is the sentence of no load";
const AT_ITS_LENGTH: &str = "a text refused 22 at its length";
const AT_ITS_FIRST_BYTE: &str = "a text refused 22 at its first byte";
const BEHIND_A_SENTENCE: &str = "a text refused 22 behind a whole sentence";
const NO_DIGIT: &str = "a text refused 22 where a number has to begin";
const BEHIND_A_ZERO: &str = "a text refused 22 at a digit behind a zero";
const NUMBER_TOO_GREAT: &str = "a text refused 22 at a digit that makes a refusal's number too great";
const PLACE_TOO_GREAT: &str = "a text refused 22 at a digit that makes a place too great";
const FUNCTION_TOO_GREAT: &str = "a text refused 22 at a digit that makes a function too great";
const IN_ITS_WORDS: &str = "a text refused 22 in its words";

/// What texts read as, and where they are refused.
pub const CASES: [&str; 13] = [
    REFUSAL,
    EVERY,
    FIRST,
    NONE,
    AT_ITS_LENGTH,
    AT_ITS_FIRST_BYTE,
    BEHIND_A_SENTENCE,
    NO_DIGIT,
    BEHIND_A_ZERO,
    NUMBER_TOO_GREAT,
    PLACE_TOO_GREAT,
    FUNCTION_TOO_GREAT,
    IN_ITS_WORDS,
];

/// Which of [`CASES`] a text is.
pub fn case_of(text: &[u8], read: Result<Remark, Refusal>) -> &'static str {
    match read {
        Ok(Remark::Refused(_)) => REFUSAL,
        Ok(Remark::Explained(Reason::EveryVisit(_))) => EVERY,
        Ok(Remark::Explained(Reason::FirstLoad)) => FIRST,
        Ok(Remark::Explained(Reason::Never)) => NONE,
        Err(refusal) => refused_at(text, refusal.place as usize),
    }
}

/// What is in the way at the place of 22. Only sentences have a full stop, at their end.
fn refused_at(text: &[u8], place: usize) -> &'static str {
    let (front, rest) = text.split_at(place);
    let Some(next) = rest.first() else { return AT_ITS_LENGTH };
    let Some(last) = front.last() else { return AT_ITS_FIRST_BYTE };
    let digits = front.iter().rev().take_while(|byte| byte.is_ascii_digit()).count();
    let before = &front[..place - digits];
    let one_digit_more = digits > 0 && next.is_ascii_digit();
    match last {
        b'.' => BEHIND_A_SENTENCE,
        b'0' if one_digit_more && digits == 1 => BEHIND_A_ZERO,
        _ if one_digit_more && before == b"Refused " => NUMBER_TOO_GREAT,
        _ if one_digit_more && before == EVERY_VISIT.as_bytes() => FUNCTION_TOO_GREAT,
        _ if one_digit_more => PLACE_TOO_GREAT,
        _ if digits == 0 && ends_before_a_number(front) => NO_DIGIT,
        _ => IN_ITS_WORDS,
    }
}

fn ends_before_a_number(front: &[u8]) -> bool {
    OPENINGS.iter().chain(&[EVERY_VISIT, "Refused "]).any(|words| words.as_bytes() == front)
}
