//! Decoding piece by piece: what a string's text gives and what is wrong with it, in turn, without memory for the whole.

use crate::decode::KEY;
use crate::{ffi, Edition, Encoding, ErrorRecord, ParseError, Refusal, Span};

/// What a piece of a text gives.
#[derive(Copy, Clone, PartialEq, Eq, Debug)]
pub enum Given<'t> {
    /// These bytes of the text, which stand for themselves. Of a key they may be a part of a character; of a string that is
    /// UTF-8 they are whole ones.
    Bytes(&'t [u8]),
    /// The character that an escape stands for, or U+FFFD where it names none.
    Char(char),
    /// Nothing: blanks and newlines after a line-ending backslash.
    Nothing,
}

/// A piece of a text.
#[derive(Copy, Clone, PartialEq, Eq, Debug)]
pub struct Piece<'t> {
    /// Its bytes, in the text.
    pub span: Span,
    /// What it gives.
    pub given: Given<'t>,
    /// What is wrong with it.
    pub error: Option<ParseError>,
}

/// The pieces of a text between its marks, in turn. What they give, joined, is what a decode of the text gives, and their
/// errors, after those of the marks, are its errors. Neither UTF-8 nor the length is tested: [`check_utf8`](crate::check_utf8)
/// does that.
#[derive(Copy, Clone, Debug)]
pub struct Pieces<'t> {
    text: &'t [u8],
    kind: usize,
    edition: Edition,
    opening: ErrorRecord,
    closing: ErrorRecord,
    at: usize,
    end: usize,
    dropping: usize,
}

/// A string's text, opened to be read piece by piece. Nothing is lent and nothing allocated.
///
/// ```
/// use galoxumi::{pieces, Edition, Encoding, Given};
///
/// let text = br#""-O2\t-g""#;
/// let given: Vec<Given> = pieces(text, Encoding::BasicString, Edition::Toml10).map(|piece| piece.given).collect();
/// assert_eq!(given, [Given::Bytes(b"-O2"), Given::Char('\t'), Given::Bytes(b"-g")]);
/// ```
pub fn pieces(text: &[u8], encoding: Encoding, edition: Edition) -> Pieces<'_> {
    open(text, encoding.number(), edition)
}

/// The same of a key without quotes, which is an Atom's text. It is the same in all editions.
pub fn key_pieces(text: &[u8]) -> Pieces<'_> {
    open(text, KEY, Edition::Toml10)
}

fn open(text: &[u8], kind: usize, edition: Edition) -> Pieces<'_> {
    let opened = ffi::open_text(text, edition.number(), kind);
    debug_assert!(Refusal::read(opened.answer).is_ok(), "the kind and the edition are ours");
    let ffi::Body { at, end, dropping } = opened.body;
    Pieces { text, kind, edition, opening: opened.opening, closing: opened.closing, at, end, dropping }
}

impl Pieces<'_> {
    /// What is wrong with the text's opening mark; of a key, that it is empty.
    pub fn opening(&self) -> Option<ParseError> {
        self.error(self.opening)
    }

    /// What is wrong with the text's closing mark.
    pub fn closing(&self) -> Option<ParseError> {
        self.error(self.closing)
    }

    fn error(&self, record: ErrorRecord) -> Option<ParseError> {
        (record[0] != 0).then(|| ParseError::from_record(record, Span::new(0, self.text.len()), self.edition))
    }
}

impl<'t> Iterator for Pieces<'t> {
    type Item = Piece<'t>;

    fn next(&mut self) -> Option<Piece<'t>> {
        let body = ffi::Body { at: self.at, end: self.end, dropping: self.dropping };
        let piece = ffi::piece(self.text, self.edition.number(), self.kind, body);
        if piece.found == 0 {
            return None;
        }
        let span = Span::new(self.at, self.at + piece.take);
        let given = match piece.given {
            1 => Given::Bytes(&self.text[span.start()..span.end()]),
            2 => Given::Char(u32::try_from(piece.scalar).ok().and_then(char::from_u32).unwrap_or(char::REPLACEMENT_CHARACTER)),
            _ => Given::Nothing,
        };
        (self.at, self.end, self.dropping) = (piece.body.at, piece.body.end, piece.body.dropping);
        Some(Piece { span, given, error: self.error(piece.error) })
    }
}

impl core::iter::FusedIterator for Pieces<'_> {}
