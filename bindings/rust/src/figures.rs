//! Figures over documents: which faults recur.

use crate::{ffi, Refusal, TokenKind};
use core::num::NonZeroUsize;

/// The most bytes that a document may have to be tallied.
pub const MOST_TALLIED: usize = 65_536;

/// Totals over documents: tokens of each kind, errors of each number over all string tokens, read as TOML 1.0, and documents
/// that were refused.
///
/// ```
/// use galoxumi::{TokenKind, Totals};
///
/// let mut totals = Totals::default();
/// totals.add(b"path = \"C:\\qt\"\n")?;
/// assert_eq!(totals.tokens(TokenKind::BasicString), 1);
/// assert_eq!(totals.errors(8), 1);
/// # Ok::<(), galoxumi::Untallied>(())
/// ```
#[derive(Copy, Clone, PartialEq, Eq, Debug, Default)]
#[repr(C)]
pub struct Totals {
    tokens: [u64; 16],
    errors: [u64; 15],
    not_utf8: u64,
    too_long: u64,
}

impl Totals {
    /// How many tokens of a kind there are.
    pub fn tokens(&self, kind: TokenKind) -> u64 {
        TokenKind::ALL.iter().zip(self.tokens).find(|(k, _)| **k == kind).map_or(0, |(_, n)| n)
    }

    /// How many errors have the number; 0 for a number that no error has.
    pub fn errors(&self, number: usize) -> u64 {
        number.checked_sub(1).and_then(|i| self.errors.get(i)).copied().unwrap_or(0)
    }

    /// How many documents were refused because they are not UTF-8.
    pub const fn not_utf8(&self) -> u64 {
        self.not_utf8
    }

    /// How many documents were refused because they have more than [`MOST_TALLIED`] bytes.
    pub const fn too_long(&self) -> u64 {
        self.too_long
    }

    /// Adds a document. One that is too long or not UTF-8 is counted as that and adds nothing else; where a total would pass 64
    /// bits, all stay as they were. In which order documents are added changes no total, as long as none is refused so.
    pub fn add(&mut self, doc: &[u8]) -> Result<(), Untallied> {
        let tallied = ffi::tally(doc, self);
        *self = tallied.totals;
        match Refusal::read(tallied.answer) {
            Ok(_) => Ok(()),
            Err(Refusal::TooLong) => Err(Untallied::TooLong),
            Err(Refusal::NotUtf8 { valid, error_len }) => Err(Untallied::NotUtf8 { valid, error_len }),
            Err(_) => Err(Untallied::TotalFull),
        }
    }
}

/// Why a document was not added to totals.
#[derive(Copy, Clone, PartialEq, Eq, Debug)]
pub enum Untallied {
    /// 1: it is not UTF-8, and is counted as that; the numbers of [`Refusal::NotUtf8`].
    NotUtf8 {
        /// The length of the longest prefix that is UTF-8.
        valid: usize,
        /// How many bytes after it are the faulty sequence; none where the text ends inside a character.
        error_len: Option<NonZeroUsize>,
    },
    /// 2: it has more than [`MOST_TALLIED`] bytes, and is counted as that.
    TooLong,
    /// 13: a total would pass 64 bits, and all are as they were.
    TotalFull,
}

impl core::fmt::Display for Untallied {
    fn fmt(&self, f: &mut core::fmt::Formatter<'_>) -> core::fmt::Result {
        match *self {
            Self::NotUtf8 { valid, error_len } => Refusal::NotUtf8 { valid, error_len }.fmt(f),
            Self::TooLong => write!(f, "refused 2: more than {MOST_TALLIED} bytes"),
            Self::TotalFull => Refusal::TotalFull.fmt(f),
        }
    }
}

impl core::error::Error for Untallied {}
