//! Writing a value as TOML.

use crate::{ffi, Refusal};
#[cfg(feature = "alloc")]
use alloc::{string::String, vec};

/// The shortest text that TOML 1.0 reads as a literal or basic string with a value: the literal string where there is
/// one, else the basic string with the fewest and then the smallest bytes. The value has to be UTF-8 and within the
/// limit; its text may be longer than that.
///
/// ```
/// use galoxumi::{decode, write_value, Encoding};
///
/// assert_eq!(write_value(b"C:\\temp")?, r"'C:\temp'");
/// let text = write_value(b"it's\n")?;
/// assert_eq!(text, r#""it's\n""#);
/// assert_eq!(decode(text.as_bytes(), Encoding::BasicString)?.text, "it's\n");
/// # Ok::<(), galoxumi::Refusal>(())
/// ```
#[cfg(feature = "alloc")]
pub fn write_value(value: &[u8]) -> Result<String, Refusal> {
    // As a literal string a value has two bytes more. Where that is too short, the refusal says how long the text is.
    let mut text = vec![0; value.len().min(crate::LIMIT) + 2];
    let count = match write_value_into(value, &mut text) {
        Err(Refusal::ShortOutput { needed }) => {
            text.resize(needed, 0);
            write_value_into(value, &mut text)?.len()
        }
        answer => answer?.len(),
    };
    text.truncate(count);
    // SAFETY: the text is UTF-8, as in `write_value_into`.
    Ok(unsafe { String::from_utf8_unchecked(text) })
}

/// The same text in lent memory from its front; bytes after it keep their contents. Where the memory is shorter,
/// [`Refusal::ShortOutput`] says how many are needed, and nothing is written.
pub fn write_value_into<'m>(value: &[u8], output: &'m mut [u8]) -> Result<&'m str, Refusal> {
    let count = Refusal::read(ffi::write_value(value, output))?;
    let written: &'m [u8] = &output[..count];
    debug_assert!(core::str::from_utf8(written).is_ok());
    // SAFETY: an answered call writes the encoding of scalar values that TOML's grammar derives: `writes_shortest`,
    // crates/theorems_writing/specs/Shortest.antt.
    Ok(unsafe { core::str::from_utf8_unchecked(written) })
}
