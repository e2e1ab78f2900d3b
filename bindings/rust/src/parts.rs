//! Documents that come in parts, cut anywhere.

use crate::{ffi, Refusal, Token};
#[cfg(feature = "alloc")]
use alloc::vec::Vec;

/// A document that comes in parts: what was handed in so far, in as much memory as ten numbers take. Nothing of the parts is kept.
///
/// Each token is given as soon as no further bytes could change it, and not sooner. After the closing word, [`close`](Self::close),
/// the tokens given are in all those of [`lex`](crate::lex) of the parts joined, wherever they were cut; places and lines are those
/// of the parts joined.
///
/// ```
/// use galoxumi::{Parts, TokenKind};
///
/// let mut parts = Parts::new();
/// assert_eq!(parts.feed(b"name = \"x\\")?.len(), 4);
/// assert_eq!(parts.feed(b"\"\" # a com")?[0].kind(), TokenKind::BasicString);
/// let rest = parts.close()?;
/// assert_eq!(rest.iter().map(|t| t.kind()).collect::<Vec<_>>(), [TokenKind::Comment, TokenKind::Eof]);
/// # Ok::<(), galoxumi::Refusal>(())
/// ```
///
/// A part is refused where the parts joined pass the limit, and where no further bytes could make them UTF-8; the closing word
/// where they end inside a character. After that, and after the closing word, all further calls are refused with
/// [`Refusal::AfterEnd`].
#[derive(Copy, Clone, PartialEq, Eq, Debug)]
pub struct Parts {
    state: ffi::State,
}

impl Parts {
    /// Before the first part.
    pub fn new() -> Self {
        Self { state: ffi::parts_start() }
    }

    /// How many bytes were handed in.
    pub const fn place(&self) -> usize {
        self.state.at
    }

    /// Whether nothing more is taken.
    pub const fn is_ended(&self) -> bool {
        self.state.ended != 0
    }

    /// The tokens that a part gives.
    #[cfg(feature = "alloc")]
    pub fn feed(&mut self, part: &[u8]) -> Result<Vec<Token>, Refusal> {
        let mut tokens = Vec::with_capacity(part.len().min(crate::LIMIT) / 4 + 2);
        loop {
            let fed = ffi::parts_feed(&self.state, part, tokens.spare_capacity_mut());
            match self.after(fed) {
                Err(Refusal::FewTokens { needed }) => tokens.reserve(needed),
                answer => {
                    let count = answer?;
                    // SAFETY: so many records were written from the front, each with a kind's number: `feed_memory`,
                    // crates/built_parts/specs/Feeding.antt.
                    unsafe { tokens.set_len(count) };
                    return Ok(tokens);
                }
            }
        }
    }

    /// The tokens that the closing word gives: the one in progress, if there is one, and `Eof`.
    #[cfg(feature = "alloc")]
    pub fn close(&mut self) -> Result<Vec<Token>, Refusal> {
        let mut tokens = Vec::with_capacity(2);
        let fed = ffi::parts_close(&self.state, tokens.spare_capacity_mut());
        let count = self.after(fed)?;
        // SAFETY: as in `feed`, by `close_memory`.
        unsafe { tokens.set_len(count) };
        Ok(tokens)
    }

    /// The tokens that a part gives, in lent memory, from its front. Answers how many there are; tokens after the last of them
    /// keep their contents. Where fewer are lent, [`Refusal::FewTokens`] says how many are needed, nothing is written, and the part
    /// may be handed in again with more. One more than the part has bytes always suffices.
    pub fn feed_into(&mut self, part: &[u8], tokens: &mut [Token]) -> Result<usize, Refusal> {
        let fed = ffi::parts_feed(&self.state, part, ffi::lent(tokens));
        self.after(fed)
    }

    /// The tokens that the closing word gives, likewise; two always suffice.
    pub fn close_into(&mut self, tokens: &mut [Token]) -> Result<usize, Refusal> {
        let fed = ffi::parts_close(&self.state, ffi::lent(tokens));
        self.after(fed)
    }

    fn after(&mut self, fed: ffi::Fed) -> Result<usize, Refusal> {
        self.state = fed.state;
        Refusal::read(fed.answer)
    }
}

impl Default for Parts {
    fn default() -> Self {
        Self::new()
    }
}

/// A writer that hands out tokens: what is written to it is a document, and each token goes to a function as soon as no further
/// bytes could change it. It allocates nothing.
///
/// With the feature `std` it is a `std::io::Write`, so that a document can be copied to it from wherever bytes come: here from a
/// pipe.
///
/// ```
/// # #[cfg(feature = "std")] {
/// use galoxumi::{TokenKind, TokenWriter};
/// use std::io;
/// use std::process::{Command, Stdio};
///
/// let mut board = Command::new("printf").arg("a = 'b' # typed").stdout(Stdio::piped()).spawn()?;
/// let mut pipe = board.stdout.take().expect("a pipe");
///
/// let mut kinds = Vec::new();
/// let mut writer = TokenWriter::new(|token| kinds.push(token.kind()));
/// io::copy(&mut pipe, &mut writer)?;
/// writer.finish()?;
/// board.wait()?;
///
/// assert_eq!(kinds.len(), 8);
/// assert_eq!(kinds[4..], [TokenKind::LiteralString, TokenKind::Whitespace, TokenKind::Comment, TokenKind::Eof]);
/// # }
/// # Ok::<(), Box<dyn std::error::Error>>(())
/// ```
#[derive(Clone, Debug)]
pub struct TokenWriter<F> {
    parts: Parts,
    give: F,
}

/// How much of what is written is handed on at once: room for its tokens stands on the stack.
const PIECE: usize = 256;

impl<F: FnMut(Token)> TokenWriter<F> {
    /// A writer of an empty document, whose tokens go to a function.
    pub fn new(give: F) -> Self {
        Self { parts: Parts::new(), give }
    }

    /// Writes a part, which is handed on in pieces. A piece that is refused gives no token, those before it have given theirs, and
    /// nothing more is taken after it.
    pub fn write_part(&mut self, part: &[u8]) -> Result<(), Refusal> {
        let mut tokens = [Token::default(); PIECE + 1];
        part.chunks(PIECE).try_for_each(|piece| {
            let count = self.parts.feed_into(piece, &mut tokens)?;
            tokens[..count].iter().for_each(|token| (self.give)(*token));
            Ok(())
        })
    }

    /// The closing word: gives the token in progress, if there is one, and `Eof`.
    pub fn finish(mut self) -> Result<(), Refusal> {
        let mut tokens = [Token::default(); 2];
        let count = self.parts.close_into(&mut tokens)?;
        tokens[..count].iter().for_each(|token| (self.give)(*token));
        Ok(())
    }

    /// What was written so far.
    pub const fn parts(&self) -> &Parts {
        &self.parts
    }
}

/// A refusal is an error of the kind `InvalidData`, which holds it.
#[cfg(feature = "std")]
impl<F: FnMut(Token)> std::io::Write for TokenWriter<F> {
    fn write(&mut self, part: &[u8]) -> std::io::Result<usize> {
        match self.write_part(part) {
            Ok(()) => Ok(part.len()),
            Err(refusal) => Err(std::io::Error::new(std::io::ErrorKind::InvalidData, refusal)),
        }
    }

    fn flush(&mut self) -> std::io::Result<()> {
        Ok(())
    }
}
