//! Whole lexing, and tokens one after the other.

use crate::{ffi, Refusal, Sought, Token};
#[cfg(feature = "alloc")]
use alloc::vec::Vec;

/// All tokens of a document, `Eof` last.
///
/// It takes memory for the tokens that there are, 32 bytes each, and not for the most that there could be.
#[cfg(feature = "alloc")]
pub fn lex(doc: &[u8]) -> Result<Vec<Token>, Refusal> {
    // A short document is lent as many records as it could have tokens, and its tokens are not counted first. A long one is
    // lent one for every four bytes, of which only those that are written become memory; where these are too few, the
    // refusal says how many there are.
    const SHORT: usize = 4096;
    let room = if doc.len() <= SHORT { doc.len() + 1 } else { doc.len().min(crate::LIMIT) / 4 };
    let mut tokens = Vec::with_capacity(room);
    match lex_in(doc, &mut tokens) {
        Err(Refusal::FewTokens { needed }) => {
            tokens = Vec::with_capacity(needed);
            lex_in(doc, &mut tokens)?;
        }
        answer => answer?,
    }
    tokens.shrink_to_fit();
    Ok(tokens)
}

/// Lexes into a vector's spare room.
#[cfg(feature = "alloc")]
fn lex_in(doc: &[u8], tokens: &mut Vec<Token>) -> Result<(), Refusal> {
    let count = Refusal::read(ffi::lex(doc, tokens.spare_capacity_mut()))?;
    // SAFETY: so many records were written from the front, each with a kind's number: both are promised by `lex`.
    unsafe { tokens.set_len(tokens.len() + count) };
    Ok(())
}

/// The tokens of a document in lent memory, from its front. Answers how many there are; tokens after the last of them keep
/// their contents. Where fewer are lent, [`Refusal::FewTokens`] says how many are needed, and nothing is written.
///
/// ```
/// use galoxumi::{lex_into, Token, TokenKind};
///
/// let mut tokens = [Token::default(); 8];
/// let count = lex_into(b"a = 'b'", &mut tokens)?;
/// assert_eq!(tokens[..count].iter().map(|t| t.kind()).last(), Some(TokenKind::Eof));
/// # Ok::<(), galoxumi::Refusal>(())
/// ```
pub fn lex_into(doc: &[u8], tokens: &mut [Token]) -> Result<usize, Refusal> {
    Refusal::read(ffi::lex(doc, ffi::lent(tokens)))
}

/// The tokens of a document one after the other, each lexed when it is asked for. A refusal is given once and ends them.
#[derive(Copy, Clone, Debug)]
pub struct Lexer<'i> {
    doc: &'i [u8],
    place: usize,
    ended: bool,
    line: usize,
    refused: bool,
}

impl<'i> Lexer<'i> {
    /// At the document's start, past a byte order mark. It does not test UTF-8.
    pub fn new(doc: &'i [u8]) -> Result<Self, Refusal> {
        let start = ffi::start(doc);
        Refusal::read(start.answer)?;
        Ok(Self::at(doc, start.cursor.place, start.cursor.ended != 0, start.cursor.line))
    }

    /// At any place of a document, with any number as its line; lines are counted on from there. A place beyond the document,
    /// and a line past the place plus 1, are refused when a token is asked for.
    pub const fn at(doc: &'i [u8], place: usize, ended: bool, line: usize) -> Self {
        Self { doc, place, ended, line, refused: false }
    }

    /// Where the next token begins.
    pub const fn place(&self) -> usize {
        self.place
    }
}

impl Iterator for Lexer<'_> {
    type Item = Result<Token, Refusal>;

    fn next(&mut self) -> Option<Self::Item> {
        // The cursor would be refused again and again, and a caller that collects would never end.
        if self.refused {
            return None;
        }
        let step = ffi::step(self.doc, self.place, self.ended, self.line);
        if let Err(refusal) = Refusal::read_sought(step.answer, Sought::Cursor) {
            self.refused = true;
            return Some(Err(refusal));
        }
        if step.found == 0 {
            return None;
        }
        self.place = step.cursor.place;
        self.ended = step.cursor.ended != 0;
        self.line = step.cursor.line;
        Some(Token::from_record(step.token.kind, step.token.start, step.token.end, step.token.line))
    }
}

impl core::iter::FusedIterator for Lexer<'_> {}
