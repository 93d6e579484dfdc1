//! The exports as `include/examiner.h` declares them.
//!
//! Each returns 0, or the number of a refusal with its place in `answer[0]`. A slice is a pointer and a length; `answer` has 4 places,
//! `held` 32, `fields` EXAMINER_FIELDS and `drawing` EXAMINER_DRAWING. Pointers are aligned, not null (a slice of length 0 apart), and do not
//! overlap where one of them is written to.

extern "C" {
    /// Read.
    pub fn examiner_read(file: *const u8, file_length: usize, answer: *mut u64) -> u32;

    /// Write.
    pub fn examiner_write(file: *const u8, file_length: usize, out: *mut u8, out_length: usize, answer: *mut u64) -> u32;

    /// Interference.
    pub fn examiner_interference(file: *const u8, file_length: usize, words: *mut u32, words_length: usize, answer: *mut u64) -> u32;

    /// Bound.
    pub fn examiner_bound(file: *const u8, file_length: usize, layout: *const u8, layout_length: usize, answer: *mut u64) -> u32;

    /// Run.
    pub fn examiner_run(
        file: *const u8,
        file_length: usize,
        layout: *const u8,
        layout_length: usize,
        walk: *const u32,
        walk_length: usize,
        held: *mut u8,
        answer: *mut u64,
    ) -> u32;

    /// Eviction.
    pub fn examiner_eviction(
        file: *const u8,
        file_length: usize,
        layout: *const u8,
        layout_length: usize,
        vertex: u64,
        walk: *mut u32,
        walk_length: usize,
        answer: *mut u64,
    ) -> u32;

    /// Write on any record.
    pub fn examiner_write_fields(fields: *const u32, out: *mut u8, out_length: usize, answer: *mut u64) -> u32;

    /// Inline.
    pub fn examiner_inline(drawing: *const u32, out: *mut u8, out_length: usize, answer: *mut u64) -> u32;

    /// Word, for a refusal.
    pub fn examiner_word_refusal(number: u32, place: u64, text: *mut u8, text_length: usize, answer: *mut u64) -> u32;

    /// Word, for a reason.
    pub fn examiner_word_reason(reason: u32, function: u64, text: *mut u8, text_length: usize, answer: *mut u64) -> u32;

    /// Read-sentence.
    pub fn examiner_read_sentence(text: *const u8, text_length: usize, answer: *mut u64) -> u32;
}
