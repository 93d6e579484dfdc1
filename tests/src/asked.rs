//! Operations asked of the library and of the independent implementation, by its plain methods and, but for Write, by its quick ones: all must say
//! the same.

use examiner::raw;
use reference::fast;
use reference::problem::{Problem, Refusal, FIELDS};
use reference::{Bound, Drawing, Eviction, Reason, Remark, Run};

use crate::sentences::{named_reason, named_refusal, plain_remark};

/// What an operation gives, or the number and the place of the refusal.
pub type Said<T> = Result<T, (u32, u64)>;

fn by_library<T>(result: Result<T, examiner::Refusal>) -> Said<T> {
    result.map_err(|refusal| (refusal.number.number(), refusal.place))
}

fn by_reference<T>(result: Result<T, Refusal>) -> Said<T> {
    result.map_err(|refusal| (u32::from(refusal.number), refusal.place))
}

/// What an export told: its first value, or the refusal.
fn told(number: u32, [first, ..]: [u64; 4]) -> Said<usize> {
    if number == 0 {
        Ok(first as usize)
    } else {
        Err((number, first))
    }
}

/// Read: the number of vertices.
pub fn read(file: &[u8]) -> Said<usize> {
    let said = by_library(examiner::read(file)).map(|counts| counts.vertices);
    assert_eq!(by_reference(reference::read(file)).map(|problem| problem.vertices.len()), said, "{file:02X?}");
    assert_eq!(by_reference(fast::read(file)).map(|flat| flat.counts()[1]), said, "{file:02X?}");
    said
}

/// Write into so many bytes: those written.
pub fn write(file: &[u8], length: usize) -> Said<Vec<u8>> {
    let mut out = vec![0xA5; length];
    let mut out_of_reference = out.clone();
    let said = by_library(examiner::write(file, &mut out));
    assert_eq!(by_reference(reference::write(file, &mut out_of_reference)), said, "{file:02X?}");
    assert_eq!(out_of_reference, out, "{file:02X?}");
    said.map(|bytes| out[..bytes].to_vec())
}

/// Write on the record of a problem, into 99 bytes: how many are written.
pub fn write_fields(problem: &Problem) -> Said<usize> {
    write_record(&problem.to_fields()).map(|bytes| bytes.len())
}

/// Write on a record, into 99 bytes: those written.
pub fn write_record(fields: &[u32; FIELDS]) -> Said<Vec<u8>> {
    let (mut out, mut out_of_reference, mut answer) = ([0; 99], [0; 99], [0; 4]);
    // SAFETY: a record has a place for each field; it, `out` and `answer` are valid for the call, and apart.
    let number = unsafe { raw::examiner_write_fields(fields.as_ptr(), out.as_mut_ptr(), out.len(), answer.as_mut_ptr()) };
    let said = told(number, answer);
    assert_eq!(by_reference(reference::write_fields(fields, &mut out_of_reference)), said);
    assert_eq!(out_of_reference, out);
    said.map(|bytes| out[..bytes].to_vec())
}

/// Interference into so many words: how many are filled.
pub fn interference(file: &[u8], length: usize) -> Said<usize> {
    let mut words = vec![0xA5; length];
    let (mut plain, mut quick) = (words.clone(), words.clone());
    let said = by_library(examiner::interference(file, &mut words));
    assert_eq!(by_reference(reference::interference(file, &mut plain)), said, "{file:02X?}");
    assert_eq!(by_reference(fast::interference(file, &mut quick)), said, "{file:02X?}");
    assert_eq!((&plain, &quick), (&words, &words), "{file:02X?}");
    said
}

/// Bound: the bound.
pub fn bound(file: &[u8], layout: &[u8]) -> Said<u64> {
    priced(file, layout).map(|priced| priced.bound)
}

/// Bound: all that it gives.
pub fn priced(file: &[u8], layout: &[u8]) -> Said<Bound> {
    let plain = |examiner::Bound { need, contested, first_loads, bound }| Bound { need, contested, first_loads, bound };
    let said = by_library(examiner::bound(file, layout)).map(plain);
    assert_eq!(by_reference(reference::bound(file, layout)), said, "{file:02X?}");
    assert_eq!(by_reference(fast::bound(file, layout)), said, "{file:02X?}");
    said
}

/// Run: the cycles and the loads.
pub fn run(file: &[u8], layout: &[u8], walk: &[u32]) -> Said<(u64, u64)> {
    let said = by_library(examiner::run(file, layout, walk)).map(|run| (run.cycles, run.loads));
    let cycles_and_loads = |run: Run| (run.cycles, run.loads);
    assert_eq!(by_reference(reference::run(file, layout, walk)).map(cycles_and_loads), said, "{file:02X?}");
    assert_eq!(by_reference(fast::run(file, layout, walk)).map(cycles_and_loads), said, "{file:02X?}");
    said
}

/// Eviction into so many entries: how many are written.
pub fn eviction(file: &[u8], layout: &[u8], vertex: u64, length: usize) -> Said<usize> {
    let mut walk = vec![0xA5; length];
    let (mut plain, mut quick) = (walk.clone(), walk.clone());
    let said = by_library(examiner::eviction(file, layout, vertex, &mut walk)).map(|shown| shown.count);
    let count = |shown: Eviction| shown.count;
    assert_eq!(by_reference(reference::eviction(file, layout, vertex, &mut plain)).map(count), said, "{file:02X?}");
    assert_eq!(by_reference(fast::eviction(file, layout, vertex, &mut quick)).map(count), said, "{file:02X?}");
    assert_eq!((&plain, &quick), (&walk, &walk), "{file:02X?}");
    said
}

/// Inline into so many bytes: those written.
pub fn inline(drawing: &Drawing, length: usize) -> Said<Vec<u8>> {
    let numbers = drawing.to_numbers();
    let mut out = vec![0xA5; length];
    let (mut plain, mut quick, mut answer) = (out.clone(), out.clone(), [0; 4]);
    // SAFETY: a drawing has all its places; it, `out` and `answer` are valid for the call, and apart.
    let number = unsafe { raw::examiner_inline(numbers.as_ptr(), out.as_mut_ptr(), out.len(), answer.as_mut_ptr()) };
    let said = told(number, answer);
    assert_eq!(by_reference(reference::inline(&numbers, &mut plain)), said, "{drawing:?}");
    assert_eq!(by_reference(fast::inline(&numbers, &mut quick)), said, "{drawing:?}");
    assert_eq!((&plain, &quick), (&out, &out), "{drawing:?}");
    said.map(|bytes| out[..bytes].to_vec())
}

/// Word by an export into so many bytes, for this remark, if it names one: the bytes written.
fn worded(remark: Option<Remark>, length: usize, export: impl FnOnce(&mut [u8], *mut u64) -> u32) -> Said<Vec<u8>> {
    let mut text = vec![0xA5; length];
    let (mut plain, mut quick, mut answer) = (text.clone(), text.clone(), [0; 4]);
    let number = export(&mut text, answer.as_mut_ptr());
    let said = told(number, answer);
    let unnamed = Err((3, 0));
    assert_eq!(remark.map_or(unnamed, |remark| by_reference(reference::word(remark, &mut plain))), said, "{remark:?}");
    assert_eq!(remark.map_or(unnamed, |remark| by_reference(fast::word(remark, &mut quick))), said, "{remark:?}");
    assert_eq!((&plain, &quick), (&text, &text), "{remark:?}");
    said.map(|bytes| text[..bytes].to_vec())
}

/// Word for a refusal into so many bytes: those written.
pub fn word_refusal(number: u32, place: u64, length: usize) -> Said<Vec<u8>> {
    // SAFETY: `text` and `answer` are valid for the call, and apart.
    worded(Some(named_refusal(number, place)), length, |text, answer| unsafe {
        raw::examiner_word_refusal(number, place, text.as_mut_ptr(), text.len(), answer)
    })
}

/// Word for a reason into so many bytes: those written.
pub fn word_reason(reason: u32, function: u64, length: usize) -> Said<Vec<u8>> {
    // SAFETY: `text` and `answer` are valid for the call, and apart.
    worded(named_reason(reason, function), length, |text, answer| unsafe {
        raw::examiner_word_reason(reason, function, text.as_mut_ptr(), text.len(), answer)
    })
}

/// Word for any remark into so many bytes: those written.
pub fn word(remark: Remark, length: usize) -> Said<Vec<u8>> {
    match remark {
        Remark::Refused(Refusal { number, place }) => word_refusal(u32::from(number), place, length),
        Remark::Explained(Reason::EveryVisit(function)) => word_reason(1, u64::from(function), length),
        Remark::Explained(Reason::FirstLoad) => word_reason(2, 0, length),
        Remark::Explained(Reason::Never) => word_reason(3, 0, length),
    }
}

/// Read-sentence: what it says.
pub fn read_sentence(text: &[u8]) -> Said<Remark> {
    let said = by_library(examiner::read_sentence(text)).map(plain_remark);
    assert_eq!(by_reference(reference::read_sentence(text)), said, "{:?}", String::from_utf8_lossy(text));
    assert_eq!(by_reference(fast::read_sentence(text)), said, "{:?}", String::from_utf8_lossy(text));
    said
}
