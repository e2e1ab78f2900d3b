//! The first broken string of a document, and no further.

use crate::{ffi, Edition, ParseError, Refusal, Token};

/// A string token that decodes with an error, and the first of its errors.
#[derive(Copy, Clone, PartialEq, Eq, Debug)]
pub struct Broken {
    /// The token.
    pub token: Token,
    /// Its first error, in places of the document: a missing opening mark, a missing closing one, then what is wrong between them.
    pub error: ParseError,
}

/// The first string token of a document that decodes with an error, as TOML 1.0; `None` where every string is sound, and then
/// the document is UTF-8.
///
/// The tokens are gone over in turn, nothing is allocated, and no byte is read beyond the one after the token that decides. A
/// token that is not UTF-8, and that no broken string comes before, is a [`Refusal`] with the whole document's numbers.
///
/// ```
/// use galoxumi::first_broken;
///
/// assert_eq!(first_broken(b"flags = '-O2'\n")?, None);
/// let broken = first_broken(b"flags = '-O2\n")?.expect("a mark is missing");
/// assert_eq!((broken.token.line(), broken.error.number(), broken.error.unexpected().start()), (1, 1, 12));
/// # Ok::<(), galoxumi::Refusal>(())
/// ```
pub fn first_broken(doc: &[u8]) -> Result<Option<Broken>, Refusal> {
    first_broken_in(doc, Edition::Toml10)
}

/// The same in an edition of TOML.
pub fn first_broken_in(doc: &[u8], edition: Edition) -> Result<Option<Broken>, Refusal> {
    let found = ffi::first_broken_in(doc, edition.number());
    Refusal::read(found.answer)?;
    if found.found == 0 {
        return Ok(None);
    }
    let ffi::Token { kind, start, end, line } = found.token;
    let token = Token::from_record(kind, start, end, line)?;
    Ok(Some(Broken { token, error: ParseError::from_record(found.error, token.span(), edition) }))
}
