//! Putting broken strings right.

use crate::{ffi, Edition, ParseError, Refusal, Span};
#[cfg(feature = "alloc")]
use alloc::{string::String, vec, vec::Vec};

/// An error of a string that was put right as five numbers, as it is written into lent memory: the old token's start and end in
/// the document, then the number, the start and the end of the error in the token's text.
pub type BrokenRecord = [usize; 5];

/// The error of a record, in places of the document; its context is the old token.
fn error_of(record: BrokenRecord, edition: Edition) -> ParseError {
    let [start, end, number, from, to] = record;
    ParseError::from_record([number, from, to], Span::new(start, end), edition)
}

/// A document put right.
#[cfg(feature = "alloc")]
#[derive(Clone, PartialEq, Eq, Debug)]
pub struct Mended {
    /// The document with its broken strings replaced. None of its strings has an error.
    pub text: String,
    /// What was wrong, in the order and in places of the document; the context of each is the old token.
    pub errors: Vec<ParseError>,
}

/// A copy of a document in which each string token that has an error, read as an edition of TOML, is replaced by a basic string of
/// the bytes that it decodes to; a space goes first where it would stand right after a quotation mark. All other bytes are kept.
/// The document has to be UTF-8; neither it nor the result may pass the limit.
///
/// ```
/// use galoxumi::{put_right, Edition};
///
/// let mended = put_right(b"path = \"C:\\dir\"\n", Edition::Toml10)?;
/// assert_eq!(mended.text, "path = \"C:\\\\dir\"\n");
/// assert_eq!(mended.errors[0].context().start(), 7);
/// assert_eq!(put_right(mended.text.as_bytes(), Edition::Toml10)?.text, mended.text);
/// # Ok::<(), galoxumi::Refusal>(())
/// ```
#[cfg(feature = "alloc")]
pub fn put_right(doc: &[u8], edition: Edition) -> Result<Mended, Refusal> {
    // As long as the document is most often enough. Where it is not, the refusals say how much is.
    let mut output = vec![0; doc.len().min(crate::LIMIT)];
    let mut records: Vec<BrokenRecord> = Vec::new();
    let (bytes, count) = loop {
        let mended = ffi::put_right_in(doc, edition.number(), &mut output, &mut records);
        match Refusal::read(mended.answer) {
            Err(Refusal::ShortOutput { needed }) => output.resize(needed, 0),
            Err(Refusal::FewErrors { needed }) => records.resize(needed, [0; 5]),
            answer => break (answer?, mended.records),
        }
    };
    output.truncate(bytes);
    let errors = records[..count].iter().map(|record| error_of(*record, edition)).collect();
    // SAFETY: the result is UTF-8, as in `put_right_into`.
    Ok(Mended { text: unsafe { String::from_utf8_unchecked(output) }, errors })
}

/// A document put right, in lent memory.
#[derive(Copy, Clone, PartialEq, Eq, Debug)]
pub struct LentMended<'m> {
    text: &'m str,
    records: &'m [BrokenRecord],
    edition: Edition,
}

impl<'m> LentMended<'m> {
    /// The document with its broken strings replaced.
    pub const fn text(&self) -> &'m str {
        self.text
    }

    /// What was wrong, in the order and in places of the document; the context of each is the old token.
    pub fn errors(&self) -> impl ExactSizeIterator<Item = ParseError> + 'm {
        let edition = self.edition;
        self.records.iter().map(move |record| error_of(*record, edition))
    }
}

/// The same in lent memory, each from its front; what is lent beyond keeps its contents. Where either is too short,
/// [`Refusal::ShortOutput`] or [`Refusal::FewErrors`] says how many are needed, and nothing is written. Six times as many bytes as the
/// document has, and as many records, always suffice; where so many bytes do not pass the limit, nothing is then counted first.
pub fn put_right_into<'m>(
    doc: &[u8],
    edition: Edition,
    output: &'m mut [u8],
    records: &'m mut [BrokenRecord],
) -> Result<LentMended<'m>, Refusal> {
    let mended = ffi::put_right_in(doc, edition.number(), output, records);
    let count = Refusal::read(mended.answer)?;
    let written: &'m [u8] = &output[..count];
    debug_assert!(core::str::from_utf8(written).is_ok());
    // SAFETY: what an answered call writes of a document in UTF-8 is UTF-8: `puts_right`, crates/theorems_mending/specs/Mended.antt.
    let text = unsafe { core::str::from_utf8_unchecked(written) };
    Ok(LentMended { text, records: &records[..mended.records], edition })
}
