//! The exported functions, as include/galoxumi.h declares them, and a safe function over each.
//!
//! Each exported function takes a slice as a pointer and a length, reads and writes within it and
//! nowhere else, keeps no pointer, and returns for all arguments: that is proved. So each wrapper
//! below is safe for all arguments, too. That these declarations match the archive's is not checked
//! by anything but the tests.

use core::mem::MaybeUninit;

#[derive(Copy, Clone)]
#[repr(C)]
pub(crate) struct Answer {
    pub refusal: usize,
    pub value: usize,
    pub length: usize,
}

#[repr(C)]
pub(crate) struct Tallied {
    pub answer: Answer,
    pub totals: crate::Totals,
}

#[repr(C)]
pub(crate) struct Cursor {
    pub place: usize,
    pub ended: usize,
    pub line: usize,
}

#[repr(C)]
pub(crate) struct Started {
    pub answer: Answer,
    pub cursor: Cursor,
}

#[repr(C)]
pub(crate) struct Token {
    pub kind: usize,
    pub start: usize,
    pub end: usize,
    pub line: usize,
}

#[repr(C)]
pub(crate) struct Stepped {
    pub answer: Answer,
    pub found: usize,
    pub token: Token,
    pub cursor: Cursor,
}

#[repr(C)]
pub(crate) struct Part {
    pub start: usize,
    pub length: usize,
}

#[repr(C)]
pub(crate) struct Positioned {
    pub answer: Answer,
    pub line: usize,
    pub column: usize,
}

#[repr(C)]
pub(crate) struct Decoded {
    pub answer: Answer,
    pub errors: usize,
}

#[repr(C)]
pub(crate) struct Mended {
    pub answer: Answer,
    pub records: usize,
}

#[cfg(test)]
#[repr(C)]
pub(crate) struct Described {
    pub answer: Answer,
    pub length: usize,
    pub bytes: [u8; 25],
}

#[cfg(test)]
#[repr(C)]
pub(crate) struct Encoded {
    pub answer: Answer,
    pub encoding: usize,
}

#[repr(C)]
pub(crate) struct ErrorWords {
    pub answer: Answer,
    pub expected: usize,
    pub said: usize,
    pub length: usize,
    pub bytes: [u8; 43],
}

#[repr(C)]
pub(crate) struct Broken {
    pub answer: Answer,
    pub found: usize,
    pub token: Token,
    pub error: [usize; 3],
}

#[derive(Copy, Clone)]
#[repr(C)]
pub(crate) struct Body {
    pub at: usize,
    pub end: usize,
    pub dropping: usize,
}

#[repr(C)]
pub(crate) struct Opened {
    pub answer: Answer,
    pub opening: [usize; 3],
    pub closing: [usize; 3],
    pub body: Body,
}

#[repr(C)]
pub(crate) struct Pieced {
    pub answer: Answer,
    pub found: usize,
    pub take: usize,
    pub given: usize,
    pub scalar: usize,
    pub error: [usize; 3],
    pub body: Body,
}

/// A document that comes in parts, between two calls.
#[derive(Copy, Clone, PartialEq, Eq, Debug)]
#[repr(C)]
pub(crate) struct State {
    pub mode: usize,
    pub start: usize,
    pub first: usize,
    pub at: usize,
    pub line: usize,
    pub left: usize,
    pub low: usize,
    pub high: usize,
    pub valid: usize,
    pub ended: usize,
}

#[repr(C)]
pub(crate) struct Fed {
    pub answer: Answer,
    pub state: State,
}

mod archive {
    use super::*;

    extern "C" {
        pub fn galoxumi_check_utf8(doc: *const u8, len: usize) -> Answer;
        pub fn galoxumi_start(doc: *const u8, len: usize) -> Started;
        pub fn galoxumi_step(doc: *const u8, len: usize, place: usize, ended: usize, line: usize) -> Stepped;
        pub fn galoxumi_lex(doc: *const u8, len: usize, records: *mut [usize; 4], records_len: usize) -> Answer;
        pub fn galoxumi_check_span(doc: *const u8, len: usize, start: usize, end: usize) -> Answer;
        pub fn galoxumi_text(doc: *const u8, len: usize, start: usize, end: usize) -> Part;
        pub fn galoxumi_position(doc: *const u8, len: usize, offset: usize) -> Positioned;
        pub fn galoxumi_decode_in(
            text: *const u8,
            len: usize,
            edition: usize,
            kind: usize,
            output: *mut u8,
            output_len: usize,
            errors: *mut [usize; 3],
            errors_len: usize,
        ) -> Decoded;
        pub fn galoxumi_open_text(text: *const u8, len: usize, edition: usize, kind: usize) -> Opened;
        pub fn galoxumi_piece(
            text: *const u8,
            len: usize,
            edition: usize,
            kind: usize,
            at: usize,
            end: usize,
            dropping: usize,
        ) -> Pieced;
        pub fn galoxumi_put_right_in(
            doc: *const u8,
            len: usize,
            edition: usize,
            output: *mut u8,
            output_len: usize,
            records: *mut [usize; 5],
            records_len: usize,
        ) -> Mended;
        pub fn galoxumi_write_value(value: *const u8, len: usize, output: *mut u8, output_len: usize) -> Answer;
        pub fn galoxumi_first_broken_in(doc: *const u8, len: usize, edition: usize) -> Broken;
        #[cfg(test)]
        pub fn galoxumi_description(kind: usize) -> Described;
        #[cfg(test)]
        pub fn galoxumi_encoding(kind: usize) -> Encoded;
        pub fn galoxumi_error_words(error: usize, edition: usize, which: usize) -> ErrorWords;
        pub fn galoxumi_tick(
            records: *const [usize; 4],
            records_len: usize,
            marks: *mut u8,
            marks_len: usize,
            reviewer: usize,
            token: usize,
        ) -> Answer;
        pub fn galoxumi_untick(
            records: *const [usize; 4],
            records_len: usize,
            marks: *mut u8,
            marks_len: usize,
            reviewer: usize,
            token: usize,
        ) -> Answer;
        pub fn galoxumi_is_ticked(
            records: *const [usize; 4],
            records_len: usize,
            marks: *const u8,
            marks_len: usize,
            reviewer: usize,
            token: usize,
        ) -> Answer;
        pub fn galoxumi_ticks(
            records: *const [usize; 4],
            records_len: usize,
            marks: *const u8,
            marks_len: usize,
            reviewer: usize,
        ) -> Answer;
        pub fn galoxumi_is_value_in(
            records: *const [usize; 4],
            records_len: usize,
            edition: usize,
            start: usize,
            end: usize,
        ) -> Answer;
        pub fn galoxumi_tally(doc: *const u8, doc_len: usize, totals: *const crate::Totals) -> Tallied;
        pub fn galoxumi_parts_start() -> State;
        pub fn galoxumi_parts_feed(
            state: *const State,
            part: *const u8,
            part_len: usize,
            records: *mut [usize; 4],
            records_len: usize,
        ) -> Fed;
        pub fn galoxumi_parts_close(state: *const State, records: *mut [usize; 4], records_len: usize) -> Fed;
    }
}

pub(crate) fn check_utf8(doc: &[u8]) -> Answer {
    unsafe { archive::galoxumi_check_utf8(doc.as_ptr(), doc.len()) }
}

pub(crate) fn start(doc: &[u8]) -> Started {
    unsafe { archive::galoxumi_start(doc.as_ptr(), doc.len()) }
}

pub(crate) fn step(doc: &[u8], place: usize, ended: bool, line: usize) -> Stepped {
    unsafe { archive::galoxumi_step(doc.as_ptr(), doc.len(), place, ended.into(), line) }
}

pub(crate) fn open_text(text: &[u8], edition: usize, kind: usize) -> Opened {
    unsafe { archive::galoxumi_open_text(text.as_ptr(), text.len(), edition, kind) }
}

pub(crate) fn piece(text: &[u8], edition: usize, kind: usize, body: Body) -> Pieced {
    unsafe { archive::galoxumi_piece(text.as_ptr(), text.len(), edition, kind, body.at, body.end, body.dropping) }
}

/// Writes tokens where records are written: both are the same four numbers, and `lex` writes only numbers of kinds.
pub(crate) fn lex(doc: &[u8], tokens: &mut [MaybeUninit<crate::Token>]) -> Answer {
    unsafe { archive::galoxumi_lex(doc.as_ptr(), doc.len(), tokens.as_mut_ptr().cast(), tokens.len()) }
}

/// Tokens as memory for tokens. Only tokens are ever written to it.
pub(crate) fn lent(tokens: &mut [crate::Token]) -> &mut [MaybeUninit<crate::Token>] {
    unsafe { core::slice::from_raw_parts_mut(tokens.as_mut_ptr().cast(), tokens.len()) }
}

pub(crate) fn check_span(doc: &[u8], start: usize, end: usize) -> Answer {
    unsafe { archive::galoxumi_check_span(doc.as_ptr(), doc.len(), start, end) }
}

pub(crate) fn text(doc: &[u8], start: usize, end: usize) -> Part {
    unsafe { archive::galoxumi_text(doc.as_ptr(), doc.len(), start, end) }
}

pub(crate) fn position(doc: &[u8], offset: usize) -> Positioned {
    unsafe { archive::galoxumi_position(doc.as_ptr(), doc.len(), offset) }
}

pub(crate) fn decode_in(text: &[u8], edition: usize, kind: usize, output: &mut [u8], errors: &mut [[usize; 3]]) -> Decoded {
    unsafe {
        archive::galoxumi_decode_in(
            text.as_ptr(),
            text.len(),
            edition,
            kind,
            output.as_mut_ptr(),
            output.len(),
            errors.as_mut_ptr(),
            errors.len(),
        )
    }
}

pub(crate) fn put_right_in(doc: &[u8], edition: usize, output: &mut [u8], records: &mut [[usize; 5]]) -> Mended {
    unsafe {
        archive::galoxumi_put_right_in(
            doc.as_ptr(),
            doc.len(),
            edition,
            output.as_mut_ptr(),
            output.len(),
            records.as_mut_ptr(),
            records.len(),
        )
    }
}

pub(crate) fn write_value(value: &[u8], output: &mut [u8]) -> Answer {
    unsafe { archive::galoxumi_write_value(value.as_ptr(), value.len(), output.as_mut_ptr(), output.len()) }
}

pub(crate) fn first_broken_in(doc: &[u8], edition: usize) -> Broken {
    unsafe { archive::galoxumi_first_broken_in(doc.as_ptr(), doc.len(), edition) }
}

/// The crate has the words of kinds as constants, which a test holds to these.
#[cfg(test)]
pub(crate) fn description(kind: usize) -> Described {
    unsafe { archive::galoxumi_description(kind) }
}

#[cfg(test)]
pub(crate) fn encoding(kind: usize) -> Encoded {
    unsafe { archive::galoxumi_encoding(kind) }
}

pub(crate) fn error_words(error: usize, edition: usize, which: usize) -> ErrorWords {
    unsafe { archive::galoxumi_error_words(error, edition, which) }
}

// A token is a record of four numbers: its kind is one by its `repr(usize)`, and its fields stand in order by `repr(C)`.
const _: () = assert!(core::mem::size_of::<crate::Token>() == core::mem::size_of::<[usize; 4]>());
const _: () = assert!(core::mem::align_of::<crate::Token>() == core::mem::align_of::<[usize; 4]>());

/// The tokens as records of four numbers, as which they lie in memory.
fn records_of(tokens: &[crate::Token]) -> *const [usize; 4] {
    tokens.as_ptr().cast()
}

pub(crate) fn tick(tokens: &[crate::Token], marks: &mut [u8], reviewer: usize, token: usize) -> Answer {
    unsafe { archive::galoxumi_tick(records_of(tokens), tokens.len(), marks.as_mut_ptr(), marks.len(), reviewer, token) }
}

pub(crate) fn untick(tokens: &[crate::Token], marks: &mut [u8], reviewer: usize, token: usize) -> Answer {
    unsafe { archive::galoxumi_untick(records_of(tokens), tokens.len(), marks.as_mut_ptr(), marks.len(), reviewer, token) }
}

pub(crate) fn is_ticked(tokens: &[crate::Token], marks: &[u8], reviewer: usize, token: usize) -> Answer {
    unsafe { archive::galoxumi_is_ticked(records_of(tokens), tokens.len(), marks.as_ptr(), marks.len(), reviewer, token) }
}

pub(crate) fn ticks(tokens: &[crate::Token], marks: &[u8], reviewer: usize) -> Answer {
    unsafe { archive::galoxumi_ticks(records_of(tokens), tokens.len(), marks.as_ptr(), marks.len(), reviewer) }
}

pub(crate) fn is_value_in(tokens: &[crate::Token], edition: usize, start: usize, end: usize) -> Answer {
    unsafe { archive::galoxumi_is_value_in(records_of(tokens), tokens.len(), edition, start, end) }
}

pub(crate) fn tally(doc: &[u8], totals: &crate::Totals) -> Tallied {
    unsafe { archive::galoxumi_tally(doc.as_ptr(), doc.len(), totals) }
}

pub(crate) fn parts_start() -> State {
    unsafe { archive::galoxumi_parts_start() }
}

/// Writes tokens as `lex` does.
pub(crate) fn parts_feed(state: &State, part: &[u8], tokens: &mut [MaybeUninit<crate::Token>]) -> Fed {
    unsafe { archive::galoxumi_parts_feed(state, part.as_ptr(), part.len(), tokens.as_mut_ptr().cast(), tokens.len()) }
}

pub(crate) fn parts_close(state: &State, tokens: &mut [MaybeUninit<crate::Token>]) -> Fed {
    unsafe { archive::galoxumi_parts_close(state, tokens.as_mut_ptr().cast(), tokens.len()) }
}
