//! Whether a run of tokens is one value, by the rules of TOML for brackets, commas, comments and newlines.

use core::ops::Range;

use crate::{ffi, Edition, Refusal, Sought, Token};

/// Whether the tokens of a run, by their numbers among the tokens, are one value by TOML 1.0: a string token, a run of
/// atoms and dots, an array or an inline table. What a token holds is not looked at: errors of strings do not matter, and
/// numbers, dates and words are not told apart. With anything before or after the value it is none.
///
/// A run that passes the tokens or starts after its end is refused, and so is one in which more than 64 brackets are open at
/// once: [`Refusal::OutOfPlace`], then [`Refusal::TooDeep`].
///
/// ```
/// use galoxumi::{is_value, lex};
///
/// let tokens = lex(b"flags = ['-O2', '-g']")?;
/// let end = tokens.len() - 1;
/// assert!(is_value(&tokens, 4..end)?);
/// // the closing bracket is lost
/// assert!(!is_value(&tokens, 4..end - 1)?);
/// # Ok::<(), galoxumi::Refusal>(())
/// ```
pub fn is_value(tokens: &[Token], run: Range<usize>) -> Result<bool, Refusal> {
    is_value_in(tokens, Edition::Toml10, run)
}

/// The same by an edition of TOML: in TOML 1.1 an inline table may hold newlines, comments and a last comma.
pub fn is_value_in(tokens: &[Token], edition: Edition, run: Range<usize>) -> Result<bool, Refusal> {
    Refusal::read_sought(ffi::is_value_in(tokens, edition.number(), run.start, run.end), Sought::Run).map(|yes| yes == 1)
}
