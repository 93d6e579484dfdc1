//! Sentences: remarks worded into buffers of every kind of length, and sentences read as they are, cut, changed, put together and at random.

use super::*;
use examiner_tests::sentences::*;
use reference::sentence::{among, LAST_REFUSAL};
use reference::{Form, Reason, Remark};

const OUT_OF_RANGE: &str = "a function refused 3 by Word";
const UNKNOWN: &str = "a number that is no refusal's or reason's, refused 3 by Word";
const BEFORE_10: &str = "a remark refused 3 by Word, into no byte";
const TOO_SHORT: &str = "a remark refused 10 by Word";
const EXACT: &str = "a sentence into exactly its bytes";
const LONGER: &str = "a sentence into more bytes than it has";
const FEWER: &str = "a sentence into fewer bytes";
const ONE_LESS: &str = "a sentence into one byte less";
const NO_BYTE: &str = "a sentence into no byte";
const DISPLAYED: &str = "a sentence that the wrapper displays";
const PARSED: &str = "a text parsed as a remark, as a refusal and as a reason";

/// How often the cases of sentences are met at least.
pub fn least() -> Vec<(&'static str, usize)> {
    let counted = [
        (OUT_OF_RANGE, 500),
        (UNKNOWN, 500),
        (BEFORE_10, 300),
        (TOO_SHORT, 5_000),
        (EXACT, 1_500),
        (LONGER, 1_500),
        (FEWER, 1_500),
        (ONE_LESS, 1_500),
        (NO_BYTE, 1_500),
        (DISPLAYED, 3_000),
        (PARSED, 150_000),
    ];
    counted.into_iter().chain(CASES.map(|what| (what, 500))).collect()
}

/// What a remark that is read answers, in the order of `answer`.
fn values(remark: Remark) -> Vec<u64> {
    match remark {
        Remark::Refused(Refusal { number, place }) => vec![0, u64::from(number), place],
        Remark::Explained(Reason::EveryVisit(function)) => vec![1, u64::from(function)],
        Remark::Explained(Reason::FirstLoad) => vec![2],
        Remark::Explained(Reason::Never) => vec![3],
    }
}

impl Comparison {
    /// Word by an export into so many bytes, for this remark, if it names one.
    fn word_by(
        &mut self,
        export: &'static str,
        remark: Option<Remark>,
        length: usize,
        call: impl FnOnce(&mut [u8], *mut u64) -> u32,
    ) -> Result<usize, Refusal> {
        self.asked = Asked { remark, ..Asked::default() };
        let mut text = Lent::random(&mut self.random, length);
        let mut wrapper_text = text.clone();
        let mut wanted = text.clone();
        let unnamed = Err(Refusal { number: 3, place: 0 });
        let written = remark.map_or(unnamed, |remark| reference::word(remark, wanted.part_mut()));
        let room = text.part_mut();
        self.call(export, &written.map(|bytes| vec![bytes as u64]), |answer| call(room, answer));
        assert_eq!(text, wanted);
        if let Some(remark) = remark.and_then(wrapped_remark) {
            assert_eq!(plain(examiner::word(remark, wrapper_text.part_mut())), written);
            assert_eq!(wrapper_text, wanted);
            if let Ok(bytes) = written {
                assert_eq!(remark.to_string().as_bytes(), &wanted.part()[..bytes]);
                self.saw(DISPLAYED, true);
            }
        }
        self.saw(TOO_SHORT, written.is_err_and(|refusal| refusal.number == 10));
        self.saw(BEFORE_10, length == 0 && written.is_err_and(|refusal| refusal.number == 3));
        written
    }

    fn word_refusal(&mut self, number: u32, place: u64, length: usize) -> Result<usize, Refusal> {
        // SAFETY: the part and the answer are valid for the call, and apart.
        self.word_by("examiner_word_refusal", Some(named_refusal(number, place)), length, |text, answer| unsafe {
            examiner::raw::examiner_word_refusal(number, place, text.as_mut_ptr(), text.len(), answer)
        })
    }

    fn word_reason(&mut self, reason: u32, function: u64, length: usize) -> Result<usize, Refusal> {
        // SAFETY: the part and the answer are valid for the call, and apart.
        self.word_by("examiner_word_reason", named_reason(reason, function), length, |text, answer| unsafe {
            examiner::raw::examiner_word_reason(reason, function, text.as_mut_ptr(), text.len(), answer)
        })
    }

    /// A remark that has a sentence, into bytes enough, too few and none.
    fn every_room(&mut self, remark: Remark) {
        let needed = bytes_of(remark).len();
        let more = self.random.count(1..=30);
        let fewer = self.random.count(1..=needed - 2);
        for (length, what) in [(needed, EXACT), (needed + more, LONGER), (needed - 1, ONE_LESS), (fewer, FEWER), (0, NO_BYTE)] {
            // only the first reason's function is looked at
            let any = self.random.any();
            let written = match remark {
                Remark::Refused(Refusal { number, place }) => self.word_refusal(u32::from(number), place, length),
                Remark::Explained(Reason::EveryVisit(function)) => self.word_reason(1, u64::from(function), length),
                Remark::Explained(Reason::FirstLoad) => self.word_reason(2, any, length),
                Remark::Explained(Reason::Never) => self.word_reason(3, any, length),
            };
            assert_eq!(written.is_ok(), length >= needed);
            self.saw(what, true);
        }
    }

    /// Read-sentence on any text.
    fn text(&mut self, text: &[u8]) {
        self.asked = Asked { text: text.to_vec(), ..Asked::default() };
        let lent = Lent::holding(&mut self.random, text);
        let before = lent.clone();
        let read = reference::read_sentence(text);
        let part = lent.part();
        // SAFETY: the part and the answer are valid for the call, and apart.
        self.call("examiner_read_sentence", &read.map(values), |answer| unsafe {
            examiner::raw::examiner_read_sentence(part.as_ptr(), part.len(), answer)
        });
        assert_eq!(plain(examiner::read_sentence(part)).map(plain_remark), read);
        assert_eq!(lent, before);
        self.saw(case_of(text, read), true);
        if let Ok(text) = std::str::from_utf8(text) {
            self.parsed(text, read);
        }
    }

    /// The same text as a Rust caller parses it.
    fn parsed(&mut self, text: &str, read: Result<Remark, Refusal>) {
        let [as_refusal, as_reason] = [among(Form::refusals(), text.as_bytes()), among(Form::reasons(), text.as_bytes())];
        assert_eq!(plain(text.parse::<examiner::Remark>()).map(plain_remark), read);
        assert_eq!(plain(text.parse::<examiner::Refusal>()).map(|refusal| plain_remark(refusal.into())), as_refusal);
        assert_eq!(plain(text.parse::<examiner::Reason>()).map(|reason| plain_remark(reason.into())), as_reason);
        self.saw(PARSED, true);
    }

    /// A sentence as it is, cut at each byte, and with each byte changed, put in and put at the end, by a few values.
    fn every_byte(&mut self, text: &[u8]) {
        self.text(text);
        for at in 0..text.len() {
            self.text(&text[..at]);
            let odd = *self.random.pick(&ODD_BYTES);
            for byte in [text[at] ^ 0x20, text[at] ^ 0x80, odd] {
                self.text(&changed(text, at, byte));
            }
            for byte in [text[at], odd] {
                self.text(&put_in(text, at, byte));
            }
        }
        for byte in ODD_BYTES {
            self.text(&put_in(text, text.len(), byte));
        }
    }

    /// A sentence with each byte changed to every value.
    fn every_value(&mut self, text: &[u8]) {
        for at in 0..text.len() {
            for byte in 0..=255 {
                self.text(&changed(text, at, byte));
            }
        }
    }
}

/// Every number at places of every length, every reason, and what has no sentence.
pub fn worded_remarks(c: &mut Comparison) {
    for _ in 0..5 * effort() {
        let mut places = PLACES.to_vec();
        places.extend((1..=20).map(|digits| place_of(&mut c.random, digits)));
        for remark in remarks(&places) {
            c.every_room(remark);
        }
    }
    let unknown = [0, u32::from(LAST_REFUSAL) + 1, 255, 256, 256 + 3, 65_536 + 3, u32::MAX];
    let out_of_range = [32, 33, 63, 64, 255, 256, 256 + 5, 1 << 32, (1 << 32) + 5, u64::MAX];
    for _ in 0..30 * effort() {
        let any = c.random.any();
        for length in [0, c.random.count(1..=60), 128] {
            for number in unknown {
                assert!(c.word_refusal(number, any, length).is_err());
                c.saw(UNKNOWN, true);
            }
            for reason in [0, 4, 256 + 1, u32::MAX] {
                assert!(c.word_reason(reason, any % 32, length).is_err());
                c.saw(UNKNOWN, true);
            }
            for function in out_of_range {
                assert!(c.word_reason(1, function, length).is_err());
                c.saw(OUT_OF_RANGE, true);
            }
        }
    }
}

/// Sentences with a byte done something to, for every byte.
pub fn bytes_of_sentences(c: &mut Comparison) {
    for _ in 0..effort() {
        let mut places = PLACES.to_vec();
        places.extend((1..=20).map(|digits| place_of(&mut c.random, digits)));
        for remark in remarks(&places) {
            c.every_byte(&bytes_of(remark));
        }
    }
    for remark in [refused(3, 0), refused(13, 18), refused(22, u64::MAX)].into_iter().chain(reasons().skip(31)) {
        c.every_value(&bytes_of(remark));
    }
}

/// Odd numbers in every form, every phrase behind every number, and texts that go on for long.
pub fn odd_sentences(c: &mut Comparison) {
    for remark in refusals(0).chain(reasons().take(1)) {
        let sentence = bytes_of(remark);
        let words = sentence.strip_suffix(b"0.").expect("the number is 0");
        for number in ODD_NUMBERS {
            for end in [".", "", "..", ".0", " .", ",", "\n"] {
                c.text(&[words, number.as_bytes(), end.as_bytes()].concat());
            }
        }
        for number in 0..=120 {
            c.text(&renumbered(&sentence, number));
        }
        for zeros in ["0", "00"] {
            c.text(&[b"Refused ", zeros.as_bytes(), &sentence[b"Refused ".len()..]].concat());
        }
        for byte in [b'0', b'9', b'.', b' ', 0] {
            c.text(&[&sentence[..], &vec![byte; 100_000]].concat());
            c.text(&[words, b"1", &vec![byte; 100_000]].concat());
        }
    }
}

/// Sentences damaged at random, two of them put together, and texts of random bytes.
pub fn random_texts(c: &mut Comparison) {
    for _ in 0..10_000 * effort() {
        let text = bytes_of(any_remark(&mut c.random));
        for damage in 0..DAMAGES {
            let once = damaged(&mut c.random, &text, damage);
            c.text(&once);
            if !once.is_empty() && c.random.percent(20) {
                let again = c.random.field(0..=DAMAGES - 1);
                let twice = damaged(&mut c.random, &once, again);
                c.text(&twice);
            }
        }
        let other = bytes_of(any_remark(&mut c.random));
        c.text(&[&text[..], &other].concat());
        let length = c.random.count(0..=140);
        let bytes = c.random.bytes(length);
        c.text(&bytes);
    }
}
