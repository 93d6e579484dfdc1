//! Sentences: the words before a number are one text, copied or compared whole. The first byte of a text tells which words these are, and
//! of a refusal its number does.

use crate::eviction::Reason;
use crate::problem::Refusal;
use crate::sentence::{Remark, EVERY_VISIT, FIRST_LOAD, LAST_REFUSAL, MOST_FUNCTION, NEVER, OPENINGS};

/// Word.
pub fn word(remark: Remark, text: &mut [u8]) -> Result<usize, Refusal> {
    let (words, number) = pieces(remark).ok_or(Refusal::at(3, 0))?;
    let digits = number.map_or(0, |number| number.checked_ilog10().unwrap_or(0) as usize + 1);
    let need = words.len() + digits + 1;
    let Some(room) = text.get_mut(..need) else {
        return Err(Refusal::at(10, need));
    };
    let (opening, ending) = room.split_at_mut(words.len());
    opening.copy_from_slice(words.as_bytes());
    ending[digits] = b'.';
    store(&mut ending[..digits], number.unwrap_or(0));
    Ok(need)
}

/// The words of a remark's sentence, and its last number if there is one. Nothing where the remark has no sentence.
#[inline(always)]
fn pieces(remark: Remark) -> Option<(&'static str, Option<u64>)> {
    match remark {
        Remark::Refused(Refusal { number, place }) => Some((OPENINGS.get(usize::from(number).wrapping_sub(1))?, Some(place))),
        Remark::Explained(Reason::EveryVisit(function)) => {
            let function = u64::from(function);
            (function <= MOST_FUNCTION).then_some((EVERY_VISIT, Some(function)))
        }
        Remark::Explained(Reason::FirstLoad) => Some((FIRST_LOAD, None)),
        Remark::Explained(Reason::Never) => Some((NEVER, None)),
    }
}

/// Fills a text with the lowest digits of a number, two at a time from the end.
#[inline(always)]
fn store(text: &mut [u8], number: u64) {
    let mut rest = number;
    let mut pairs = text.rchunks_exact_mut(2);
    for pair in &mut pairs {
        let two = (rest % 100) as u8;
        rest /= 100;
        pair.copy_from_slice(&[b'0' + two / 10, b'0' + two % 10]);
    }
    if let [first] = pairs.into_remainder() {
        *first = b'0' + (rest % 10) as u8;
    }
}

/// Read-sentence.
pub fn read_sentence(text: &[u8]) -> Result<Remark, Refusal> {
    match text.first() {
        Some(b'R') => {
            let number = number_to_compare(text);
            let place = numbered(text, OPENINGS[usize::from(number) - 1], u64::MAX)?;
            Ok(Remark::Refused(Refusal { number, place }))
        }
        Some(b'E') => {
            let function = numbered(text, EVERY_VISIT, MOST_FUNCTION)?;
            Ok(Remark::Explained(Reason::EveryVisit(function as u32)))
        }
        Some(b'O') => {
            stop(text, opening(text, FIRST_LOAD)?)?;
            Ok(Remark::Explained(Reason::FirstLoad))
        }
        Some(b'N') => {
            stop(text, opening(text, NEVER)?)?;
            Ok(Remark::Explained(Reason::Never))
        }
        _ => no_sentence(0),
    }
}

fn no_sentence<T>(place: usize) -> Result<T, Refusal> {
    Err(Refusal::at(22, place))
}

/// The digit at a position, if there is one.
#[inline(always)]
fn digit(text: &[u8], at: usize) -> Option<u8> {
    text.get(at).map(|byte| byte.wrapping_sub(b'0')).filter(|&digit| digit <= 9)
}

/// The number of the refusal whose opening has a longest front of the text: the number that stands there, or as much of it as is one.
#[inline(always)]
fn number_to_compare(text: &[u8]) -> u8 {
    let at = "Refused ".len();
    let Some(first @ 1..) = digit(text, at) else {
        return 1;
    };
    let two = digit(text, at + 1).map(|second| 10 * first + second);
    two.filter(|&number| number <= LAST_REFUSAL).unwrap_or(first)
}

/// The number between these words and the full stop at the end.
#[inline(always)]
fn numbered(text: &[u8], words: &str, greatest: u64) -> Result<u64, Refusal> {
    let start = opening(text, words)?;
    let Some(first) = digit(text, start) else {
        return no_sentence(start);
    };
    let mut number = u64::from(first);
    let mut end = start + 1;
    while let Some(next) = digit(text, end).filter(|_| number > 0).and_then(|digit| longer(number, digit, greatest)) {
        number = next;
        end += 1;
    }
    stop(text, end)?;
    Ok(number)
}

/// The number with one more digit, if it is no greater than this.
#[inline(always)]
fn longer(number: u64, digit: u8, greatest: u64) -> Option<u64> {
    number.checked_mul(10)?.checked_add(u64::from(digit)).filter(|&number| number <= greatest)
}

/// The end of the words that a text begins with.
#[inline(always)]
fn opening(text: &[u8], words: &str) -> Result<usize, Refusal> {
    if text.starts_with(words.as_bytes()) {
        return Ok(words.len());
    }
    no_sentence(text.iter().zip(words.as_bytes()).take_while(|(byte, word)| byte == word).count())
}

/// Nothing but a full stop is left.
#[inline(always)]
fn stop(text: &[u8], at: usize) -> Result<(), Refusal> {
    match &text[at..] {
        [b'.'] => Ok(()),
        [b'.', ..] => no_sentence(at + 1),
        _ => no_sentence(at),
    }
}
