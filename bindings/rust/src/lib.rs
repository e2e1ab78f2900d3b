//! TOML tokens and strings, read by a library whose every function is proved to meet its contract.
//!
//! Slices go in; typed tokens, values, positioned errors and written values come out, in the names that users
//! of toml_parser know; [`toml_parser`] has its shapes too, for a swap. A document that cannot be served is answered by a
//! [`Refusal`], never by a panic. No call looks at more than the bytes that it is given, and none keeps any of them.
//!
//! ```
//! use galoxumi::{lex, TokenKind};
//!
//! let doc = b"flags = \"-O2\\t-g\"\n";
//! let strings: Vec<String> = lex(doc)?
//!     .iter()
//!     .filter_map(|token| token.decode(doc))
//!     .map(|decoded| decoded.map(|d| d.text))
//!     .collect::<Result<_, _>>()?;
//! assert_eq!(strings, ["-O2\t-g"]);
//! assert_eq!(lex(b"")?[0].kind(), TokenKind::Eof);
//! # Ok::<(), galoxumi::Refusal>(())
//! ```
//!
//! The feature `std`, which is on by default, adds one thing: [`TokenWriter`] is a `std::io::Write`. Without it the crate is
//! `no_std`. Without its feature `alloc`, which `std` brings along, the calls that answer in vectors and strings are not there, and
//! those that end in `_into`, [`Lexer`], [`Pieces`], [`TokenWriter`] and [`Places`] do all of it in lent memory or in
//! none.
#![no_std]
#![deny(missing_docs)]

#[cfg(feature = "alloc")]
extern crate alloc;
#[cfg(any(test, feature = "std"))]
extern crate std;

mod broken;
mod decode;
mod error;
mod ffi;
mod figures;
mod lexing;
mod mending;
mod parts;
mod pieces;
mod place;
mod refusal;
mod review;
mod token;
#[cfg(feature = "alloc")]
pub mod toml_parser;
mod value;
mod writing;

pub use broken::{first_broken, first_broken_in, Broken};
#[cfg(feature = "alloc")]
pub use decode::{decode, decode_in, decode_key, Decoded};
pub use decode::{decode_into, decode_key_into, Lent};
pub use error::{ErrorRecord, Expected, ParseError, Words};
pub use figures::{Totals, Untallied, MOST_TALLIED};
#[cfg(feature = "alloc")]
pub use lexing::lex;
pub use lexing::{lex_into, Lexer};
#[cfg(feature = "alloc")]
pub use mending::{put_right, Mended};
pub use mending::{put_right_into, BrokenRecord, LentMended};
pub use parts::{Parts, TokenWriter};
pub use pieces::{key_pieces, pieces, Given, Piece, Pieces};
pub use place::{check_span, position, text, Places, Position};
pub use refusal::{Refusal, Sought};
pub use review::{is_ticked, tick, ticks, untick, Reviewer};
pub use token::{Edition, Encoding, Span, Token, TokenKind};
pub use value::{is_value, is_value_in};
#[cfg(feature = "alloc")]
pub use writing::write_value;
pub use writing::write_value_into;

/// The most bytes that a document, a text to decode or a value to write may have.
pub const LIMIT: usize = 16_777_216;

/// The document as a `str`, where all of it is UTF-8 and within the limit.
pub fn check_utf8(doc: &[u8]) -> Result<&str, Refusal> {
    Refusal::read(ffi::check_utf8(doc))?;
    debug_assert!(core::str::from_utf8(doc).is_ok());
    // SAFETY: the check answers exactly where all of the bytes are UTF-8: `check_means`, crates/text/specs/CheckMeans.antt.
    Ok(unsafe { core::str::from_utf8_unchecked(doc) })
}
