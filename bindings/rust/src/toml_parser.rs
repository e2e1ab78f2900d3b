//! toml_parser's own names and shapes, over the proved calls: for a caller of toml_parser that changes its `use` lines.
//!
//! What is carried over is lexing and the decoding of strings and keys. docs/SWAP.md says what is the same, what differs
//! and what is not there.
//!
//! ```
//! use galoxumi::toml_parser::{decoder::Encoding, lexer::TokenKind, ParseError, Source};
//!
//! let source = Source::new("flags = \"-O2\\q\"\n");
//! let token = source.lex().find(|token| token.kind() == TokenKind::BasicString).unwrap();
//! assert_eq!(token.kind().encoding(), Some(Encoding::BasicString));
//! let (mut value, mut errors) = (String::new(), Vec::<ParseError>::new());
//! source.get(token).unwrap().decode_string(&mut value, &mut errors);
//! assert_eq!(value, "-O2\\q");
//! assert_eq!(errors[0].description(), "missing escaped value");
//! assert_eq!(errors[0].unexpected().unwrap().start(), 13);
//! ```

use crate::{check_span, Edition, Encoding, LIMIT};
use alloc::borrow::Cow;
use alloc::string::{String, ToString};
use alloc::vec::Vec;

pub use crate::Span;

mod kept;

/// Lexing.
pub mod lexer {
    pub use super::Lexer;
    pub use crate::{Token, TokenKind};
}

/// Decoding.
pub mod decoder {
    pub use super::StringBuilder;
    pub use crate::Encoding;
}

/// A TOML document.
#[derive(Copy, Clone, Debug, PartialEq, Eq)]
pub struct Source<'i> {
    input: &'i str,
}

impl<'i> Source<'i> {
    /// A document of up to [`LIMIT`] bytes.
    ///
    /// # Panics
    ///
    /// Where it has more, which toml_parser would take. A caller that cannot tell measures it first.
    pub fn new(input: &'i str) -> Self {
        assert!(input.len() <= LIMIT, "refused 2: more than {LIMIT} bytes");
        Self { input }
    }

    /// Its tokens, one after the other.
    pub fn lex(&self) -> Lexer<'i> {
        let steps = crate::Lexer::new(self.input.as_bytes()).expect("a source is within the limit");
        Lexer { input: self.input, steps, fresh: true }
    }

    /// The document.
    pub fn input(&self) -> &'i str {
        self.input
    }

    /// The part of the document at a span or a token; none where that lies beyond it or cuts a character.
    pub fn get(&self, span: impl SourceIndex) -> Option<Raw<'i>> {
        span.get(self)
    }

    fn part(&self, span: Span, encoding: Option<Encoding>) -> Option<Raw<'i>> {
        check_span(self.input.as_bytes(), span).ok()?;
        let part = self.input.get(span.start()..span.end())?;
        Some(Raw::new_unchecked(part, encoding, span))
    }
}

/// What [`Source::get`] takes: a [`Span`] or a [`Token`](crate::Token).
pub trait SourceIndex: sealed::Sealed {
    /// That part of the document.
    fn get<'i>(self, source: &Source<'i>) -> Option<Raw<'i>>;
}

impl SourceIndex for Span {
    fn get<'i>(self, source: &Source<'i>) -> Option<Raw<'i>> {
        source.part(self, None)
    }
}

impl SourceIndex for &Span {
    fn get<'i>(self, source: &Source<'i>) -> Option<Raw<'i>> {
        (*self).get(source)
    }
}

impl SourceIndex for crate::Token {
    fn get<'i>(self, source: &Source<'i>) -> Option<Raw<'i>> {
        source.part(self.span(), self.kind().encoding())
    }
}

impl SourceIndex for &crate::Token {
    fn get<'i>(self, source: &Source<'i>) -> Option<Raw<'i>> {
        (*self).get(source)
    }
}

mod sealed {
    pub trait Sealed {}

    impl Sealed for crate::Span {}
    impl Sealed for &crate::Span {}
    impl Sealed for crate::Token {}
    impl Sealed for &crate::Token {}
}

/// The tokens of a document, one after the other.
#[derive(Clone, Debug)]
pub struct Lexer<'i> {
    input: &'i str,
    steps: crate::Lexer<'i>,
    /// No token has been asked for.
    fresh: bool,
}

impl Lexer<'_> {
    /// The tokens that are left.
    pub fn into_vec(self) -> Vec<crate::Token> {
        if self.fresh {
            // Whole lexing takes half as long as steps.
            crate::lex(self.input.as_bytes()).expect("a source is UTF-8 and within the limit")
        } else {
            self.collect()
        }
    }
}

impl Iterator for Lexer<'_> {
    type Item = crate::Token;

    fn next(&mut self) -> Option<crate::Token> {
        self.fresh = false;
        // No step is refused: the source is within the limit, and each cursor is the one that the step before answered.
        self.steps.next()?.ok()
    }
}

/// A part of a document.
#[derive(Copy, Clone, Debug)]
pub struct Raw<'i> {
    raw: &'i str,
    encoding: Option<Encoding>,
    span: Span,
}

impl<'i> Raw<'i> {
    /// A text, how it is encoded, and where it stands in its document.
    pub fn new_unchecked(raw: &'i str, encoding: Option<Encoding>, span: Span) -> Self {
        Self { raw, encoding, span }
    }

    /// The value of a key: of a string, or of a key without quotes where there is no encoding. A multi-line string is no
    /// key, which is an error, and is decoded all the same.
    pub fn decode_key(&self, output: &mut dyn StringBuilder<'i>, error: &mut dyn ErrorSink) {
        let multi_line = match self.encoding {
            Some(Encoding::MlLiteralString) => Some("keys cannot be multi-line literal strings"),
            Some(Encoding::MlBasicString) => Some("keys cannot be multi-line basic strings"),
            _ => None,
        };
        if let Some(description) = multi_line {
            const STRINGS: &[Expected] = &[Expected::Description("basic string"), Expected::Description("literal string")];
            error.report_error(ParseError::new(description).with_expected(STRINGS).with_unexpected(self.whole()));
        }
        self.decode(output, error);
    }

    /// The value of a string. Answers false, and does nothing else, where there is no encoding: numbers, dates and booleans
    /// are not carried over.
    #[must_use]
    pub fn decode_string(&self, output: &mut dyn StringBuilder<'i>, error: &mut dyn ErrorSink) -> bool {
        if self.encoding.is_some() {
            self.decode(output, error);
        }
        self.encoding.is_some()
    }

    fn decode(&self, output: &mut dyn StringBuilder<'i>, error: &mut dyn ErrorSink) {
        output.clear();
        let bytes = self.raw.as_bytes();
        let decoded = match self.encoding {
            Some(encoding) => crate::decode_in(bytes, encoding, Edition::Toml10),
            None => crate::decode_key(bytes),
        };
        match decoded {
            Ok(decoded) => {
                for err in decoded.errors {
                    error.report_error(ParseError::from(err).rebased(self.span.start()));
                }
                if !self.push(&decoded.text, output) {
                    error.report_error(ParseError::new("could not allocate for string").with_unexpected(self.whole()));
                }
            }
            Err(refusal) => error.report_error(ParseError::new(refusal.to_string()).with_unexpected(self.whole())),
        }
    }

    /// Hands a value to a builder: as the part of the text that it is, so that nothing need be copied, and by its characters
    /// where it is none.
    fn push(&self, value: &str, output: &mut dyn StringBuilder<'i>) -> bool {
        let part = self.raw.find(value).map(|start| &self.raw[start..start + value.len()]);
        if let Some(part) = part {
            return output.push_str(part);
        }
        // All are pushed, as by toml_parser, whatever becomes of one.
        let mut pushed = true;
        for character in value.chars() {
            pushed &= output.push_char(character);
        }
        pushed
    }

    /// Where it stands in its document, by its text's length.
    fn whole(&self) -> Span {
        Span::new(0, self.len()) + self.span.start()
    }

    /// The text.
    pub fn as_str(&self) -> &'i str {
        self.raw
    }

    /// The text's bytes.
    pub fn as_bytes(&self) -> &'i [u8] {
        self.raw.as_bytes()
    }

    /// How many bytes it has.
    pub fn len(&self) -> usize {
        self.raw.len()
    }

    /// Whether it has none.
    pub fn is_empty(&self) -> bool {
        self.raw.is_empty()
    }
}

/// What values are decoded into.
pub trait StringBuilder<'s> {
    /// Begins anew.
    fn clear(&mut self);
    /// Appends a part of the document; false where it cannot.
    #[must_use]
    fn push_str(&mut self, append: &'s str) -> bool;
    /// Appends a character; false where it cannot.
    #[must_use]
    fn push_char(&mut self, append: char) -> bool;
}

/// Drops the value.
impl<'s> StringBuilder<'s> for () {
    fn clear(&mut self) {}

    fn push_str(&mut self, _append: &'s str) -> bool {
        true
    }

    fn push_char(&mut self, _append: char) -> bool {
        true
    }
}

/// Takes a value that is a part of the document, and no other.
impl<'s> StringBuilder<'s> for &'s str {
    fn clear(&mut self) {
        *self = &self[..0];
    }

    fn push_str(&mut self, append: &'s str) -> bool {
        let first = self.is_empty();
        if first {
            *self = append;
        }
        first
    }

    fn push_char(&mut self, _append: char) -> bool {
        false
    }
}

/// Borrows a value that is a part of the document, and owns any other.
impl<'s> StringBuilder<'s> for Cow<'s, str> {
    fn clear(&mut self) {
        match self {
            Cow::Borrowed(part) => part.clear(),
            Cow::Owned(text) => text.clear(),
        }
    }

    fn push_str(&mut self, append: &'s str) -> bool {
        let borrowed = matches!(self, Cow::Borrowed(part) if part.is_empty());
        if borrowed {
            *self = Cow::Borrowed(append);
        } else {
            self.to_mut().push_str(append);
        }
        true
    }

    fn push_char(&mut self, append: char) -> bool {
        self.to_mut().push(append);
        true
    }
}

impl<'s> StringBuilder<'s> for String {
    fn clear(&mut self) {
        self.clear();
    }

    fn push_str(&mut self, append: &'s str) -> bool {
        self.push_str(append);
        true
    }

    fn push_char(&mut self, append: char) -> bool {
        self.push(append);
        true
    }
}

/// What errors are reported to.
pub trait ErrorSink {
    /// Takes an error.
    fn report_error(&mut self, error: ParseError);
}

impl<F: FnMut(ParseError)> ErrorSink for F {
    fn report_error(&mut self, error: ParseError) {
        self(error);
    }
}

/// Drops errors.
impl ErrorSink for () {
    fn report_error(&mut self, _error: ParseError) {}
}

/// Keeps the first.
impl ErrorSink for Option<ParseError> {
    fn report_error(&mut self, error: ParseError) {
        self.get_or_insert(error);
    }
}

/// Keeps all.
impl ErrorSink for Vec<ParseError> {
    fn report_error(&mut self, error: ParseError) {
        self.push(error);
    }
}

/// What was expected at the place of an error.
#[derive(Copy, Clone, PartialEq, Eq, Debug)]
#[non_exhaustive]
pub enum Expected {
    /// This text.
    Literal(&'static str),
    /// Something of this kind.
    Description(&'static str),
}

/// An error, with whatever is known of it.
#[derive(Clone, PartialEq, Eq, Debug)]
#[non_exhaustive]
pub struct ParseError {
    context: Option<Span>,
    description: Cow<'static, str>,
    expected: Option<&'static [Expected]>,
    unexpected: Option<Span>,
}

impl ParseError {
    /// An error by its words alone.
    pub fn new(description: impl Into<Cow<'static, str>>) -> Self {
        Self { context: None, description: description.into(), expected: None, unexpected: None }
    }

    /// With what was being decoded.
    pub fn with_context(mut self, context: Span) -> Self {
        self.context = Some(context);
        self
    }

    /// With what was expected.
    pub fn with_expected(mut self, expected: &'static [Expected]) -> Self {
        self.expected = Some(expected);
        self
    }

    /// With where it stands.
    pub fn with_unexpected(mut self, unexpected: Span) -> Self {
        self.unexpected = Some(unexpected);
        self
    }

    /// What was being decoded.
    pub fn context(&self) -> Option<Span> {
        self.context
    }

    /// What is wrong.
    pub fn description(&self) -> &str {
        &self.description
    }

    /// What was expected.
    pub fn expected(&self) -> Option<&'static [Expected]> {
        self.expected
    }

    /// Where it stands.
    pub fn unexpected(&self) -> Option<Span> {
        self.unexpected
    }

    /// With its places moved on.
    fn rebased(mut self, offset: usize) -> Self {
        self.context = self.context.map(|span| span + offset);
        self.unexpected = self.unexpected.map(|span| span + offset);
        self
    }
}

/// All is known of an error of the proved decoders. Its words are the library's, which are read once and kept.
impl From<crate::ParseError> for ParseError {
    fn from(error: crate::ParseError) -> Self {
        let words = kept::words_of(&error);
        Self::new(words.description())
            .with_context(error.context())
            .with_expected(words.expected())
            .with_unexpected(error.unexpected())
    }
}
