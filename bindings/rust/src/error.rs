//! Errors of decoding: an error's number stands for its description and for what was expected. The words are the proved
//! library's, which are toml_parser's, and none is spelled here: each text is read from the library where it is asked for.

use crate::{ffi, position, Edition, Position, Refusal, Span};

/// A text of an error, in the proved library's words. It is a `str` by value: it holds its bytes, which are ASCII, and no
/// allocator is needed. For a `&str` that outlives a statement, give the text a name, as below.
///
/// ```
/// use galoxumi::{decode_into, Edition, Encoding, Words};
///
/// let (mut output, mut errors) = ([0u8; 8], [[0usize; 3]; 8]);
/// let decoded = decode_into(br#""\q""#, Encoding::BasicString, Edition::Toml10, &mut output, &mut errors)?;
/// let description: Words = decoded.value().unwrap_err().description();
/// assert_eq!(description, "missing escaped value");
/// let first: &str = description.split(' ').next().unwrap();
/// assert_eq!(first, "missing");
/// # Ok::<(), galoxumi::Refusal>(())
/// ```
#[derive(Copy, Clone, PartialEq, Eq)]
pub struct Words {
    length: usize,
    /// The text, and zeros after it, so that two texts are equal where all of these bytes are.
    bytes: [u8; 43],
}

impl Words {
    /// The text.
    pub fn as_str(&self) -> &str {
        // All texts of the library are within 43 bytes, and ASCII: crates/decoder_words/specs/Words.antt spells them.
        core::str::from_utf8(&self.bytes[..self.length]).expect("the library's words are ASCII")
    }
}

impl core::ops::Deref for Words {
    type Target = str;

    fn deref(&self) -> &str {
        self.as_str()
    }
}

impl AsRef<str> for Words {
    fn as_ref(&self) -> &str {
        self
    }
}

impl PartialEq<str> for Words {
    fn eq(&self, other: &str) -> bool {
        **self == *other
    }
}

impl PartialEq<&str> for Words {
    fn eq(&self, other: &&str) -> bool {
        **self == **other
    }
}

impl core::fmt::Display for Words {
    fn fmt(&self, f: &mut core::fmt::Formatter<'_>) -> core::fmt::Result {
        core::fmt::Display::fmt(&**self, f)
    }
}

/// As a `str`: `"letters"`.
impl core::fmt::Debug for Words {
    fn fmt(&self, f: &mut core::fmt::Formatter<'_>) -> core::fmt::Result {
        core::fmt::Debug::fmt(&**self, f)
    }
}

/// What was expected at the place of an error.
#[derive(Copy, Clone, PartialEq, Eq, Debug)]
pub enum Expected {
    /// This text.
    Literal(Words),
    /// Something of this kind.
    Description(Words),
}

/// An error of a text, and where it stands. Places are counted from the start of the text that was given: of the document,
/// where a [`Token`](crate::Token) was decoded.
#[derive(Copy, Clone, PartialEq, Eq, Debug)]
pub struct ParseError {
    number: usize,
    edition: Edition,
    context: Span,
    unexpected: Span,
}

/// Three numbers of memory that a decode is lent for an error: the error's number, its start and its end.
pub type ErrorRecord = [usize; 3];

impl ParseError {
    /// The error of a record, whose text is `context` of what was given.
    pub(crate) fn from_record(record: ErrorRecord, context: Span, edition: Edition) -> Self {
        let [number, start, end] = record;
        Self { number, edition, context, unexpected: Span::new(start, end) + context.start() }
    }

    /// Its number, 1 to 15.
    pub const fn number(&self) -> usize {
        self.number
    }

    /// The edition of TOML that the text was read as.
    pub const fn edition(&self) -> Edition {
        self.edition
    }

    /// What was being decoded: the whole text.
    pub const fn context(&self) -> Span {
        self.context
    }

    /// Where it stands.
    pub const fn unexpected(&self) -> Span {
        self.unexpected
    }

    /// Line and column of where it stands, in the document that the token was decoded from. It counts from the document's
    /// start; for many errors of a document there is [`Places`](crate::Places).
    pub fn position(&self, doc: &[u8]) -> Result<Position, Refusal> {
        position(doc, self.unexpected.start())
    }

    /// What is wrong, in the words of toml_parser.
    pub fn description(&self) -> Words {
        self.read(0).words()
    }

    /// What was expected there, one thing after the other, each read from the library as it is asked for. The list of
    /// escapes has no `t`, though `\t` is accepted: it is toml_parser's list, to which TOML 1.1 adds its own two.
    ///
    /// ```
    /// use galoxumi::{decode_key_into, Expected};
    ///
    /// let mut errors = [[0usize; 3]; 2];
    /// let error = decode_key_into(b"", &mut [], &mut errors)?.value().unwrap_err();
    /// assert_eq!(error.expected().len(), 4);
    /// assert!(matches!(error.expected().last(), Some(Expected::Literal(mark)) if mark == "_"));
    /// # Ok::<(), galoxumi::Refusal>(())
    /// ```
    pub fn expected(&self) -> impl ExactSizeIterator<Item = Expected> {
        let error = *self;
        (0..self.read(0).expected).map(move |before| error.read(before + 1).thing())
    }

    /// What the library says: text number 0 is the description, and those after it are what was expected.
    fn read(&self, which: usize) -> ffi::ErrorWords {
        let read = ffi::error_words(self.number, self.edition.number(), which);
        debug_assert_eq!(read.answer.refusal, 0, "every error that a decode writes has its words");
        read
    }
}

impl ffi::ErrorWords {
    fn words(&self) -> Words {
        Words { length: self.length, bytes: self.bytes }
    }

    /// It as something that is expected: a literal is 2 in the library's numbers, and a description 3.
    fn thing(&self) -> Expected {
        match self.said {
            2 => Expected::Literal(self.words()),
            _ => Expected::Description(self.words()),
        }
    }
}

impl core::fmt::Display for ParseError {
    fn fmt(&self, f: &mut core::fmt::Formatter<'_>) -> core::fmt::Result {
        write!(f, "{} at {:?}", self.description(), self.unexpected)
    }
}

impl core::error::Error for ParseError {}

#[cfg(test)]
mod tests {
    use super::*;

    /// Text 0 of each error is its message (1), those that are counted are literals (2) or descriptions (3), and there is
    /// none (0) after them. No other number has words.
    #[test]
    fn texts_are_what_they_are_taken_for() {
        for edition in [Edition::Toml10, Edition::Toml11] {
            for number in 1..=15 {
                let said = |which| ffi::error_words(number, edition.number(), which).said;
                let count = ParseError::from_record([number, 0, 0], Span::new(0, 0), edition).expected().len();
                assert_eq!((said(0), said(count + 1)), (1, 0));
                assert!((1..=count).all(|which| [2, 3].contains(&said(which))));
            }
            for number in [0, 16] {
                assert_eq!(ffi::error_words(number, edition.number(), 0).answer.refusal, 7);
            }
        }
    }
}
