//! Refusals and reasons as sentences, and sentences read back.

use std::fmt;
use std::str::{from_utf8, FromStr};

use crate::{judge, raw, Reason, Refusal, RefusalKind};

/// No sentence has more bytes: a buffer of so many is never too short.
pub const MOST_SENTENCE: usize = 128;

/// What a sentence says. It displays as its [sentence](word), and is parsed from it. A reason that has none, since its function is above 31,
/// displays in its `Debug` form.
#[derive(Clone, Copy, Debug, PartialEq, Eq, Hash)]
pub enum Remark {
    /// Why an operation refused, and where.
    Refused(Refusal),
    /// Why a vertex pays its load.
    Explained(Reason),
}

impl From<Refusal> for Remark {
    fn from(refusal: Refusal) -> Remark {
        Remark::Refused(refusal)
    }
}

impl From<Reason> for Remark {
    fn from(reason: Reason) -> Remark {
        Remark::Explained(reason)
    }
}

/// Writes a remark as a fixed English sentence into `text`, and gives the number of bytes written. No zero byte and no line end follows:
/// bytes of `text` past the sentence keep their values, and all of them on a refusal.
///
/// The number of a refusal comes first; then what is wrong and what the place is, and the place. No two remarks have the same sentence, and
/// none is longer than [`MOST_SENTENCE`] bytes.
///
/// ```
/// use examiner::{word, Reason, Refusal, RefusalKind, MOST_SENTENCE};
///
/// let refusal = Refusal { number: RefusalKind::ScratchpadTooSmall, place: 18 };
/// let mut text = [0; MOST_SENTENCE];
/// let written = word(refusal.into(), &mut text)?;
/// assert_eq!(&text[..written], b"Refused 13: the layout needs more than the scratchpad; the bytes needed are 18.");
/// assert_eq!(word(refusal.into(), &mut text[..78]), Err(Refusal { number: RefusalKind::BufferTooShort, place: 79 }));
///
/// // no problem has a function 32
/// let reason = Reason::EveryVisit { function: 32 };
/// assert_eq!(word(reason.into(), &mut text), Err(Refusal { number: RefusalKind::OutOfRange, place: 0 }));
/// # Ok::<(), Refusal>(())
/// ```
///
/// # Errors
/// [`OutOfRange`](RefusalKind::OutOfRange) at 0 for a reason whose function is above 31; then
/// [`BufferTooShort`](RefusalKind::BufferTooShort).
pub fn word(remark: Remark, text: &mut [u8]) -> Result<usize, Refusal> {
    let mut answer = [0; 4];
    let (start, room, told) = (text.as_mut_ptr(), text.len(), answer.as_mut_ptr());
    let number = match remark {
        // SAFETY: `text` and `answer` are valid for the call, and borrowed for it alone.
        Remark::Refused(Refusal { number, place }) => unsafe { raw::examiner_word_refusal(number.number(), place, start, room, told) },
        Remark::Explained(reason) => {
            let (number, function) = reason.numbers();
            // SAFETY: as above.
            unsafe { raw::examiner_word_reason(number, function, start, room, told) }
        }
    };
    Ok(judge(number, answer)?[0] as usize)
}

/// Reads a sentence: the remark whose sentence `text` is, to the last byte.
///
/// ```
/// use examiner::{read_sentence, Reason, Refusal, RefusalKind, Remark};
///
/// let slip = b"No load is charged, since its function is always in its region.";
/// assert_eq!(read_sentence(slip), Ok(Remark::Explained(Reason::Never)));
///
/// let no_sentence = |place| Err(Refusal { number: RefusalKind::NoSentence, place });
/// // no refusal has the number 45
/// assert_eq!(read_sentence(b"Refused 45"), no_sentence(9));
/// // all of it fits, and its end is missing
/// assert_eq!(read_sentence(&slip[..20]), no_sentence(20));
/// ```
///
/// # Errors
/// [`NoSentence`](RefusalKind::NoSentence), at the length of the longest front of `text` that some sentence begins with: the first byte that
/// fits no sentence, or the length where all of it fits.
pub fn read_sentence(text: &[u8]) -> Result<Remark, Refusal> {
    let mut answer = [0; 4];
    // SAFETY: `text` and `answer` are valid for the call, and apart.
    let number = unsafe { raw::examiner_read_sentence(text.as_ptr(), text.len(), answer.as_mut_ptr()) };
    Ok(Remark::told(judge(number, answer)?))
}

impl Remark {
    /// What an answer tells: 0, a refusal's number and its place; or a reason's number, and for the first reason the function.
    fn told([reason, first, place, _]: [u64; 4]) -> Remark {
        if reason > 0 {
            return Remark::Explained(Reason::told(reason, first));
        }
        let number = RefusalKind::from_number(first as u32).expect("the library reads no other number");
        Remark::Refused(Refusal { number, place })
    }
}

/// Displays a remark as its sentence, or where it has none as what it was made of debugs: an error would make `to_string` panic.
fn display(remark: Remark, made_of: &dyn fmt::Debug, f: &mut fmt::Formatter<'_>) -> fmt::Result {
    let mut text = [0; MOST_SENTENCE];
    match word(remark, &mut text) {
        Ok(written) => f.pad(from_utf8(&text[..written]).expect("sentences are ASCII")),
        Err(_) => made_of.fmt(f),
    }
}

impl fmt::Display for Remark {
    fn fmt(&self, f: &mut fmt::Formatter<'_>) -> fmt::Result {
        display(*self, self, f)
    }
}

impl fmt::Display for Refusal {
    fn fmt(&self, f: &mut fmt::Formatter<'_>) -> fmt::Result {
        display(Remark::Refused(*self), self, f)
    }
}

impl fmt::Display for Reason {
    fn fmt(&self, f: &mut fmt::Formatter<'_>) -> fmt::Result {
        display(Remark::Explained(*self), self, f)
    }
}

impl FromStr for Remark {
    type Err = Refusal;

    fn from_str(text: &str) -> Result<Remark, Refusal> {
        read_sentence(text.as_bytes())
    }
}

/// Every refusal's sentence begins so, and no reason's: of the wrong kind not even the first byte fits.
const OPENS_REFUSALS: char = 'R';

/// What a text of the wrong kind is.
const OTHER_KIND: Refusal = Refusal { number: RefusalKind::NoSentence, place: 0 };

impl FromStr for Refusal {
    type Err = Refusal;

    /// The place of [`NoSentence`](RefusalKind::NoSentence) is the length of the longest front that some refusal's sentence begins with.
    fn from_str(text: &str) -> Result<Refusal, Refusal> {
        match read_sentence(text.as_bytes()) {
            Ok(Remark::Refused(refusal)) => Ok(refusal),
            Err(refusal) if text.starts_with(OPENS_REFUSALS) => Err(refusal),
            _ => Err(OTHER_KIND),
        }
    }
}

impl FromStr for Reason {
    type Err = Refusal;

    /// The place of [`NoSentence`](RefusalKind::NoSentence) is the length of the longest front that some reason's sentence begins with.
    fn from_str(text: &str) -> Result<Reason, Refusal> {
        match read_sentence(text.as_bytes()) {
            Ok(Remark::Explained(reason)) => Ok(reason),
            Err(refusal) if !text.starts_with(OPENS_REFUSALS) => Err(refusal),
            _ => Err(OTHER_KIND),
        }
    }
}
