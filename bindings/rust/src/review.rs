//! Two reviewers tick off the tokens of one document, in a table of marks: a byte for each token, in which each reviewer has
//! a bit. A token is named by its number among the tokens, from 0 on.

use crate::{ffi, Refusal, Sought, Token};

/// One of the two reviewers of a table of marks. What one is told depends on nothing that the other does.
#[derive(Copy, Clone, PartialEq, Eq, Hash, Debug)]
pub enum Reviewer {
    /// Reviewer 0, whose bit of a mark is bit 0.
    First,
    /// Reviewer 1, whose bit of a mark is bit 1.
    Second,
}

impl Reviewer {
    /// The reviewer's number.
    pub const fn number(self) -> usize {
        match self {
            Self::First => 0,
            Self::Second => 1,
        }
    }
}

/// Sets the reviewer's bit of a token; every other bit of the table keeps its value.
///
/// ```
/// use galoxumi::{is_ticked, lex, tick, ticks, Reviewer};
///
/// let tokens = lex(b"a = 'b'")?;
/// let mut marks = vec![0u8; tokens.len()];
/// tick(&tokens, &mut marks, Reviewer::First, 4)?;
/// assert!(is_ticked(&tokens, &marks, Reviewer::First, 4)?);
/// assert_eq!(ticks(&tokens, &marks, Reviewer::Second)?, 0);
/// # Ok::<(), galoxumi::Refusal>(())
/// ```
pub fn tick(tokens: &[Token], marks: &mut [u8], reviewer: Reviewer, token: usize) -> Result<(), Refusal> {
    Refusal::read_sought(ffi::tick(tokens, marks, reviewer.number(), token), Sought::Token).map(|_| ())
}

/// Clears the reviewer's bit of a token; every other bit of the table keeps its value.
pub fn untick(tokens: &[Token], marks: &mut [u8], reviewer: Reviewer, token: usize) -> Result<(), Refusal> {
    Refusal::read_sought(ffi::untick(tokens, marks, reviewer.number(), token), Sought::Token).map(|_| ())
}

/// Whether the reviewer's bit of a token is set.
pub fn is_ticked(tokens: &[Token], marks: &[u8], reviewer: Reviewer, token: usize) -> Result<bool, Refusal> {
    Refusal::read_sought(ffi::is_ticked(tokens, marks, reviewer.number(), token), Sought::Token).map(|bit| bit == 1)
}

/// How many of the reviewer's bits are set over the tokens. What the table has after them does not count.
pub fn ticks(tokens: &[Token], marks: &[u8], reviewer: Reviewer) -> Result<usize, Refusal> {
    Refusal::read_sought(ffi::ticks(tokens, marks, reviewer.number()), Sought::Token)
}
