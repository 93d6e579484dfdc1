//! Remarks as sentences, and texts read back: every form of sentence is held to the text in turn, and the longest front counts.

use crate::eviction::Reason;
use crate::problem::{Refusal, MOST_FUNCTIONS};

/// What the sentence of each refusal says before its place, by ascending number.
pub const OPENINGS: [&str; 22] = [
    "Refused 1: the file ends before a number does; its length is ",
    "Refused 2: a number is misspelt; its first byte is at ",
    "Refused 3: a number is out of range; its place is ",
    "Refused 4: an edge or a loop does not ascend; its place is ",
    "Refused 5: bytes are left over; the first of them is at ",
    "Refused 6: a vertex lacks an edge that it must have; its place is ",
    "Refused 7: a loop crosses an earlier one or holds the last vertex; its place is ",
    "Refused 8: an edge is wrong; its place is ",
    "Refused 9: a loop has no edge back to its header; its place is ",
    "Refused 10: the buffer is too short; the room needed is ",
    "Refused 11: the layout is longer than the list of functions; their number is ",
    "Refused 12: a region is unknown; its function is ",
    "Refused 13: the layout needs more than the scratchpad; the bytes needed are ",
    "Refused 14: the bound passes its limit; its place is ",
    "Refused 15: the walk does not follow the graph to its end; the first bad position is ",
    "Refused 16: the walk visits a header beyond its bound; the first bad position is ",
    "Refused 17: the walk is too long; the most entries are ",
    "Refused 18: a function can reach itself by calls; its number is ",
    "Refused 19: the whole graph would pass a count; its place is ",
    "Refused 20: the last vertex of a graph calls; its function is ",
    "Refused 21: the vertex is unknown; its number is ",
    "Refused 22: the text is no such sentence; the first byte that does not fit is at ",
];
/// What the sentence of a load on every visit says before the function.
pub const EVERY_VISIT: &str = "Every visit is charged the load, since its region may have been taken by function ";
/// The sentence of a first load, but for its full stop.
pub const FIRST_LOAD: &str = "Only a first load is charged, since no other function can have taken its region";
/// The sentence of no load, but for its full stop.
pub const NEVER: &str = "No load is charged, since its function is always in its region";

/// The last refusal's number.
pub const LAST_REFUSAL: u8 = OPENINGS.len() as u8;
/// The greatest function that a sentence names.
pub const MOST_FUNCTION: u64 = MOST_FUNCTIONS as u64 - 1;

/// What a sentence says.
#[derive(Clone, Copy, Debug, PartialEq, Eq, Hash)]
pub enum Remark {
    /// Why an operation refused, and where.
    Refused(Refusal),
    /// When the load of a vertex is charged.
    Explained(Reason),
}

/// The sentences that differ in their last number alone, or the one sentence that has no such number.
#[derive(Clone, Copy, Debug, PartialEq, Eq)]
pub enum Form {
    /// Of the refusal with this number, one for each place.
    Refusal(u8),
    /// One for each function.
    EveryVisit,
    /// One sentence.
    FirstLoad,
    /// One sentence.
    Never,
}

impl Form {
    /// The forms of refusals.
    pub fn refusals() -> impl Iterator<Item = Form> {
        (1..=LAST_REFUSAL).map(Form::Refusal)
    }

    /// The forms of reasons.
    pub fn reasons() -> impl Iterator<Item = Form> {
        [Form::EveryVisit, Form::FirstLoad, Form::Never].into_iter()
    }

    /// What stands before the number, or before the full stop where there is none.
    fn words(self) -> &'static str {
        match self {
            Form::Refusal(number) => OPENINGS[usize::from(number) - 1],
            Form::EveryVisit => EVERY_VISIT,
            Form::FirstLoad => FIRST_LOAD,
            Form::Never => NEVER,
        }
    }

    /// The greatest number, if there is one.
    fn greatest(self) -> Option<u64> {
        match self {
            Form::Refusal(_) => Some(u64::MAX),
            Form::EveryVisit => Some(MOST_FUNCTION),
            Form::FirstLoad | Form::Never => None,
        }
    }

    /// What the sentence with this number says.
    fn remark(self, number: u64) -> Remark {
        match self {
            Form::Refusal(refusal) => Remark::Refused(Refusal { number: refusal, place: number }),
            Form::EveryVisit => Remark::Explained(Reason::EveryVisit(number as u32)),
            Form::FirstLoad => Remark::Explained(Reason::FirstLoad),
            Form::Never => Remark::Explained(Reason::Never),
        }
    }

    /// How long a front of the text some sentence of this form begins with, and what the text says if it is one.
    fn read(self, text: &[u8]) -> (usize, Option<Remark>) {
        let words = self.words().as_bytes();
        let alike = text.iter().zip(words).take_while(|(byte, word)| byte == word).count();
        if alike < words.len() {
            return (alike, None);
        }
        let (number, end) = match self.greatest() {
            None => (0, alike),
            Some(greatest) => match number_before(&text[alike..], greatest) {
                None => return (alike, None),
                Some((number, digits)) => (number, alike + digits),
            },
        };
        match &text[end..] {
            [b'.'] => (end + 1, Some(self.remark(number))),
            [b'.', ..] => (end + 1, None),
            _ => (end, None),
        }
    }
}

/// The longest front of a text that is a decimal number, no greater than this: the number, and its digits.
fn number_before(text: &[u8], greatest: u64) -> Option<(u64, usize)> {
    let number = |digits: usize| {
        let front = std::str::from_utf8(text.get(..digits)?).ok()?;
        let number: u64 = front.parse().ok()?;
        // no other spelling of a number is one
        (number <= greatest && number.to_string() == front).then_some((number, digits))
    };
    (1..).map_while(number).last()
}

/// The sentence of a remark, if it has one.
pub fn sentence(remark: Remark) -> Option<String> {
    let (form, number) = match remark {
        Remark::Refused(Refusal { number, place }) => (Form::Refusal(number), place),
        Remark::Explained(Reason::EveryVisit(function)) => (Form::EveryVisit, u64::from(function)),
        Remark::Explained(Reason::FirstLoad) => (Form::FirstLoad, 0),
        Remark::Explained(Reason::Never) => (Form::Never, 0),
    };
    let known = Form::refusals().chain(Form::reasons()).any(|known| known == form);
    let in_range = form.greatest().is_none_or(|greatest| number <= greatest);
    let last = form.greatest().map_or(String::new(), |_| number.to_string());
    (known && in_range).then(|| format!("{}{last}.", form.words()))
}

/// The remark whose sentence a text is, of these forms; or 22 at the end of its longest front that a sentence of one of them begins with.
pub fn among(forms: impl Iterator<Item = Form>, text: &[u8]) -> Result<Remark, Refusal> {
    let mut longest = 0;
    for form in forms {
        let (front, meant) = form.read(text);
        if let Some(remark) = meant {
            return Ok(remark);
        }
        longest = longest.max(front);
    }
    Err(Refusal::at(22, longest))
}
