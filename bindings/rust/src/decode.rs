//! Decoding: the value of a string's text, or its errors.

use crate::{ffi, Edition, Encoding, ErrorRecord, ParseError, Refusal, Span};
#[cfg(feature = "alloc")]
use alloc::{string::String, vec, vec::Vec};

/// The number of the kind by which a key without quotes is decoded.
pub(crate) const KEY: usize = 3;

/// What a text decodes to.
#[cfg(feature = "alloc")]
#[derive(Clone, PartialEq, Eq, Debug)]
pub struct Decoded {
    /// What was read. Where there are errors, it is what was recovered, and no value that TOML gives the text.
    pub text: String,
    /// The errors: opening mark, closing mark, then the body from left to right.
    pub errors: Vec<ParseError>,
}

#[cfg(feature = "alloc")]
impl Decoded {
    /// The value, where there is no error; else the errors.
    pub fn value(self) -> Result<String, Vec<ParseError>> {
        if self.errors.is_empty() {
            Ok(self.text)
        } else {
            Err(self.errors)
        }
    }
}

/// The value and the errors of a string's text, read as TOML 1.0.
#[cfg(feature = "alloc")]
pub fn decode(text: &[u8], encoding: Encoding) -> Result<Decoded, Refusal> {
    decode_in(text, encoding, Edition::Toml10)
}

/// The value and the errors of a string's text, read as an edition of TOML.
#[cfg(feature = "alloc")]
pub fn decode_in(text: &[u8], encoding: Encoding, edition: Edition) -> Result<Decoded, Refusal> {
    owned(text, encoding.number(), edition, Span::new(0, text.len()))
}

/// The value and the errors of a key without quotes, which is an Atom's text. It is the same in all editions.
#[cfg(feature = "alloc")]
pub fn decode_key(text: &[u8]) -> Result<Decoded, Refusal> {
    owned(text, KEY, Edition::Toml10, Span::new(0, text.len()))
}

/// What a text decodes to, in lent memory.
#[derive(Copy, Clone, PartialEq, Eq, Debug)]
pub struct Lent<'m> {
    text: &'m str,
    records: &'m [ErrorRecord],
    context: Span,
    edition: Edition,
}

impl<'m> Lent<'m> {
    /// What was read. Where there are errors, it is what was recovered, and no value that TOML gives the text.
    pub const fn text(&self) -> &'m str {
        self.text
    }

    /// The errors: opening mark, closing mark, then the body from left to right.
    pub fn errors(&self) -> impl ExactSizeIterator<Item = ParseError> + 'm {
        let (context, edition) = (self.context, self.edition);
        self.records.iter().map(move |record| ParseError::from_record(*record, context, edition))
    }

    /// The value, where there is no error; else the first error.
    pub fn value(&self) -> Result<&'m str, ParseError> {
        self.errors().next().map_or(Ok(self.text), Err)
    }
}

/// The value and the errors of a string's text in lent memory, each from its front; what is lent beyond keeps its
/// contents. Where either is too short, [`Refusal::ShortOutput`] or [`Refusal::FewErrors`] says how many are needed, and
/// nothing is written. One and a half times as many bytes as the text has, and two more records, always suffice, and then
/// nothing is counted first.
///
/// ```
/// use galoxumi::{decode_into, Edition, Encoding};
///
/// let (mut output, mut errors) = ([0u8; 64], [[0usize; 3]; 8]);
/// let decoded = decode_into(br#""-O2\t-g""#, Encoding::BasicString, Edition::Toml10, &mut output, &mut errors)?;
/// assert_eq!(decoded.value(), Ok("-O2\t-g"));
/// # Ok::<(), galoxumi::Refusal>(())
/// ```
pub fn decode_into<'m>(
    text: &[u8],
    encoding: Encoding,
    edition: Edition,
    output: &'m mut [u8],
    errors: &'m mut [ErrorRecord],
) -> Result<Lent<'m>, Refusal> {
    lent(text, encoding.number(), edition, Span::new(0, text.len()), output, errors)
}

/// The same of a key without quotes.
pub fn decode_key_into<'m>(text: &[u8], output: &'m mut [u8], errors: &'m mut [ErrorRecord]) -> Result<Lent<'m>, Refusal> {
    lent(text, KEY, Edition::Toml10, Span::new(0, text.len()), output, errors)
}

/// Decodes a text, which stands at `context`, by the number of its kind, into lent memory.
pub(crate) fn lent<'m>(
    text: &[u8],
    kind: usize,
    edition: Edition,
    context: Span,
    output: &'m mut [u8],
    errors: &'m mut [ErrorRecord],
) -> Result<Lent<'m>, Refusal> {
    let decoded = ffi::decode_in(text, edition.number(), kind, output, errors);
    let count = Refusal::read(decoded.answer)?;
    let written: &'m [u8] = &output[..count];
    debug_assert!(core::str::from_utf8(written).is_ok());
    // SAFETY: what an answered decode writes is UTF-8: `decode_answered`, crates/decoder_rules/specs/Answered.antt.
    let text = unsafe { core::str::from_utf8_unchecked(written) };
    Ok(Lent { text, records: &errors[..decoded.errors], context, edition })
}

/// The same in memory of its own.
#[cfg(feature = "alloc")]
pub(crate) fn owned(text: &[u8], kind: usize, edition: Edition, context: Span) -> Result<Decoded, Refusal> {
    // So much output always suffices. So do a few error records for most texts, and the most that there can be for short
    // ones, of which then nothing is counted first.
    let len = text.len().min(crate::LIMIT);
    let mut output = vec![0; len + len / 2];
    let mut records = vec![[0; 3]; (len + 2).min(256)];
    let mut decoded = ffi::decode_in(text, edition.number(), kind, &mut output, &mut records);
    if let Err(Refusal::FewErrors { needed }) = Refusal::read(decoded.answer) {
        records.resize(needed, [0; 3]);
        decoded = ffi::decode_in(text, edition.number(), kind, &mut output, &mut records);
    }
    output.truncate(Refusal::read(decoded.answer)?);
    records.truncate(decoded.errors);
    debug_assert!(core::str::from_utf8(&output).is_ok());
    // SAFETY: what an answered decode writes is UTF-8: `decode_answered`, crates/decoder_rules/specs/Answered.antt.
    let text = unsafe { String::from_utf8_unchecked(output) };
    let errors = records.iter().map(|record| ParseError::from_record(*record, context, edition)).collect();
    Ok(Decoded { text, errors })
}
