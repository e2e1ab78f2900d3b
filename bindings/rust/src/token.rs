//! Tokens, their kinds and their spans. The words and encodings of kinds are the proved library's; they stand here as
//! constants, and a test below holds each to the library.

#[cfg(feature = "alloc")]
use crate::Decoded;
use crate::{decode, text, ErrorRecord, Lent, Refusal};

/// A token: its kind, its span and the line of its first byte. Whether its text is valid is not said.
///
/// It lies in memory as the library's record of four numbers: kind, start, end, line.
#[derive(Copy, Clone, PartialEq, Eq, PartialOrd, Ord, Hash, Debug)]
#[repr(C)]
pub struct Token {
    kind: TokenKind,
    span: Span,
    line: usize,
}

impl Token {
    /// The token of a record.
    pub(crate) fn from_record(kind: usize, start: usize, end: usize, line: usize) -> Result<Self, Refusal> {
        Ok(Self { kind: TokenKind::from_number(kind)?, span: Span::new(start, end), line })
    }

    /// What kind of token it is.
    pub const fn kind(&self) -> TokenKind {
        self.kind
    }

    /// Where it stands in its document.
    pub const fn span(&self) -> Span {
        self.span
    }

    /// The line of its first byte: 1 plus the line feeds before it.
    pub const fn line(&self) -> usize {
        self.line
    }

    /// Its text in its document.
    pub fn text<'i>(&self, doc: &'i [u8]) -> Result<&'i [u8], Refusal> {
        text(doc, self.span)
    }

    /// The decoded string, for a token of a string kind, read as TOML 1.0. Its errors have their places in the document.
    #[cfg(feature = "alloc")]
    pub fn decode(&self, doc: &[u8]) -> Option<Result<Decoded, Refusal>> {
        self.decode_in(doc, Edition::Toml10)
    }

    /// The decoded string, for a token of a string kind, read as an edition of TOML. Its errors have their places in the
    /// document.
    #[cfg(feature = "alloc")]
    pub fn decode_in(&self, doc: &[u8], edition: Edition) -> Option<Result<Decoded, Refusal>> {
        let encoding = self.kind.encoding()?;
        Some(self.text(doc).and_then(|text| decode::owned(text, encoding.number(), edition, self.span)))
    }

    /// The same in lent memory; see [`decode_into`](crate::decode_into).
    pub fn decode_into<'m>(
        &self,
        doc: &[u8],
        edition: Edition,
        output: &'m mut [u8],
        errors: &'m mut [ErrorRecord],
    ) -> Option<Result<Lent<'m>, Refusal>> {
        let encoding = self.kind.encoding()?;
        Some(self.text(doc).and_then(|text| decode::lent(text, encoding.number(), edition, self.span, output, errors)))
    }
}

/// The end of an empty document: what lent tokens hold before they are written.
impl Default for Token {
    fn default() -> Self {
        Self { kind: TokenKind::Eof, span: Span::default(), line: 1 }
    }
}

/// The bytes from a start up to an end, which is not included.
#[derive(Copy, Clone, Default, PartialEq, Eq, PartialOrd, Ord, Hash)]
#[repr(C)]
pub struct Span {
    start: usize,
    end: usize,
}

impl Span {
    /// A span; whether it fits a document is for [`crate::check_span`] to say.
    pub const fn new(start: usize, end: usize) -> Self {
        Self { start, end }
    }

    /// The same, by toml_parser's name for it.
    pub const fn new_unchecked(start: usize, end: usize) -> Self {
        Self::new(start, end)
    }

    /// Its first place.
    pub const fn start(&self) -> usize {
        self.start
    }

    /// The place after its last byte.
    pub const fn end(&self) -> usize {
        self.end
    }

    /// How many bytes it has; 0 where its start is after its end.
    pub const fn len(&self) -> usize {
        self.end.saturating_sub(self.start)
    }

    /// Whether it has no byte.
    pub const fn is_empty(&self) -> bool {
        self.len() == 0
    }

    /// The empty span at its start.
    pub const fn before(&self) -> Self {
        Self::new(self.start, self.start)
    }

    /// The empty span at its end.
    pub const fn after(&self) -> Self {
        Self::new(self.end, self.end)
    }

    /// From its own start to the end of `after`.
    #[must_use]
    pub const fn append(&self, after: Self) -> Self {
        Self::new(self.start, after.end)
    }
}

/// As a range: `2..5`.
impl core::fmt::Debug for Span {
    fn fmt(&self, f: &mut core::fmt::Formatter<'_>) -> core::fmt::Result {
        (self.start..self.end).fmt(f)
    }
}

impl core::ops::Add<usize> for Span {
    type Output = Self;

    fn add(self, offset: usize) -> Self {
        Self::new(self.start + offset, self.end + offset)
    }
}

impl core::ops::Add<Span> for usize {
    type Output = Span;

    fn add(self, span: Span) -> Span {
        span + self
    }
}

impl core::ops::AddAssign<usize> for Span {
    fn add_assign(&mut self, offset: usize) {
        *self = *self + offset;
    }
}

macro_rules! kinds {
    ($($(#[$doc:meta])* $name:ident = $number:literal, $words:literal, $encoding:expr;)*) => {
        /// The kinds of token; the numbers are those of the records.
        #[derive(Copy, Clone, PartialEq, Eq, PartialOrd, Ord, Hash, Debug)]
        #[repr(usize)]
        pub enum TokenKind {
            $($(#[$doc])* $name = $number,)*
        }

        impl TokenKind {
            /// Every kind.
            pub const ALL: &'static [Self] = &[$(Self::$name,)*];

            /// The kind that has a number.
            pub const fn from_number(number: usize) -> Result<Self, Refusal> {
                match number {
                    $($number => Ok(Self::$name),)*
                    _ => Err(Refusal::NoKind { number }),
                }
            }

            /// Its name, as it is written in Rust.
            pub const fn name(&self) -> &'static str {
                match self {
                    $(Self::$name => stringify!($name),)*
                }
            }

            /// The words for this kind, as an error message uses them.
            pub const fn description(&self) -> &'static str {
                match self {
                    $(Self::$name => $words,)*
                }
            }

            /// How a token of this kind is decoded; none for a kind that is no string.
            pub const fn encoding(&self) -> Option<Encoding> {
                match self {
                    $(Self::$name => $encoding,)*
                }
            }
        }
    };
}

kinds! {
    /// `.`
    Dot = 46, "`.`", None;
    /// `=`
    Equals = 61, "`=`", None;
    /// `,`
    Comma = 44, "`,`", None;
    /// `[`
    LeftSquareBracket = 91, "`[`", None;
    /// `]`
    RightSquareBracket = 93, "`]`", None;
    /// `{`
    LeftCurlyBracket = 123, "`{`", None;
    /// `}`
    RightCurlyBracket = 125, "`}`", None;
    /// A run of spaces and tabs.
    Whitespace = 32, "whitespace", None;
    /// From `#` up to the end of the line.
    Comment = 35, "comment", None;
    /// LF, CR LF, or a CR alone.
    Newline = 10, "newline", None;
    /// Between apostrophes, on one line.
    LiteralString = 39, "literal string", Some(Encoding::LiteralString);
    /// Between quotation marks, on one line.
    BasicString = 34, "basic string", Some(Encoding::BasicString);
    /// Between three apostrophes.
    MlLiteralString = 1, "multi-line literal string", Some(Encoding::MlLiteralString);
    /// Between three quotation marks.
    MlBasicString = 2, "multi-line basic string", Some(Encoding::MlBasicString);
    /// All else.
    Atom = 3, "token", None;
    /// The end of the document.
    Eof = 4, "end-of-input", None;
}

impl TokenKind {
    /// The number of this kind.
    pub const fn number(self) -> usize {
        self as usize
    }
}

/// How a string is encoded. A key without quotes is none of these: it has [`decode_key`](crate::decode_key).
#[derive(Copy, Clone, PartialEq, Eq, PartialOrd, Ord, Hash, Debug)]
#[repr(u8)]
pub enum Encoding {
    /// Between apostrophes, on one line.
    LiteralString = 39,
    /// Between quotation marks, on one line.
    BasicString = 34,
    /// Between three apostrophes.
    MlLiteralString = 1,
    /// Between three quotation marks.
    MlBasicString = 2,
}

impl Encoding {
    /// The number of the kind that a text is decoded as.
    pub const fn number(self) -> usize {
        self as usize
    }

    /// The words for the kind of string.
    pub const fn description(&self) -> &'static str {
        match self {
            Self::LiteralString => TokenKind::LiteralString.description(),
            Self::BasicString => TokenKind::BasicString.description(),
            Self::MlLiteralString => TokenKind::MlLiteralString.description(),
            Self::MlBasicString => TokenKind::MlBasicString.description(),
        }
    }
}

/// The edition of TOML that a text is read as. TOML 1.1 adds `\e` and `\xHH` to the basic kinds; nothing else about strings
/// differs.
#[derive(Copy, Clone, Default, PartialEq, Eq, Hash, Debug)]
pub enum Edition {
    /// TOML 1.0
    #[default]
    Toml10,
    /// TOML 1.1
    Toml11,
}

impl Edition {
    /// The number that names the edition.
    pub const fn number(self) -> usize {
        match self {
            Self::Toml10 => 10,
            Self::Toml11 => 11,
        }
    }
}

#[cfg(test)]
mod tests {
    use super::*;
    use crate::ffi;

    /// The words and the encoding of each kind are the library's, and the library knows no other number up to 255.
    #[test]
    fn kinds_are_the_library_s() {
        for number in 0..256 {
            let (words, encoded) = (ffi::description(number), ffi::encoding(number));
            match TokenKind::from_number(number) {
                Ok(kind) => {
                    assert_eq!((kind.number(), words.answer.refusal), (number, 0));
                    assert_eq!(kind.description().as_bytes(), &words.bytes[..words.length]);
                    assert_eq!(kind.encoding().map_or(0, Encoding::number), encoded.encoding);
                }
                Err(_) => assert_eq!((words.answer.refusal, encoded.answer.refusal), (7, 7)),
            }
        }
    }
}
