//! Why a call did not answer.

use crate::{ffi, LIMIT};
use core::num::NonZeroUsize;

/// Why a call did not answer. A refused call has written nothing.
#[derive(Copy, Clone, PartialEq, Eq, Debug)]
pub enum Refusal {
    /// 1: not UTF-8; the same two numbers as Rust's own [`core::str::Utf8Error`] tells.
    NotUtf8 {
        /// The length of the longest prefix that is UTF-8.
        valid: usize,
        /// How many bytes after it are the faulty sequence; none where the text ends inside a character.
        error_len: Option<NonZeroUsize>,
    },
    /// 2: more than [`LIMIT`] bytes.
    TooLong,
    /// 3: fewer token records were lent than there are tokens.
    FewTokens {
        /// The tokens, `Eof` counted.
        needed: usize,
    },
    /// 4: the lent output is shorter than what is to be written.
    ShortOutput {
        /// The bytes.
        needed: usize,
    },
    /// 5: fewer error records were lent than there are errors.
    FewErrors {
        /// The errors.
        needed: usize,
    },
    /// 6: a place that is not there.
    OutOfPlace {
        /// What was to be found.
        what: Sought,
        /// The document's length; where a token or a run of tokens is sought by number, the number of tokens.
        length: usize,
    },
    /// 7: a number that is no kind.
    NoKind {
        /// That number.
        number: usize,
    },
    /// 8: a part, or the closing word, after the end.
    AfterEnd,
    /// 9: a number that is no edition of TOML. No call of this crate gives it, since an [`Edition`](crate::Edition) always
    /// is one.
    NoEdition {
        /// That number.
        number: usize,
    },
    /// 10: more brackets are open at once than the depth.
    TooDeep {
        /// The depth.
        depth: usize,
    },
    /// 11: a number that is no reviewer's. No call of this crate gives it, since a [`Reviewer`](crate::Reviewer) always is
    /// one.
    NoReviewer {
        /// That number.
        number: usize,
    },
    /// 12: the table of marks is shorter than the tokens.
    FewMarks {
        /// The tokens.
        needed: usize,
    },
    /// 13: a total would pass 64 bits.
    TotalFull,
}

/// What a call looked for where it gave refusal 6.
#[derive(Copy, Clone, PartialEq, Eq, Debug)]
pub enum Sought {
    /// An offset, which is beyond the document.
    Offset,
    /// A span, which passes the document, starts after its end, or cuts a character.
    Span,
    /// The token at a cursor, whose place is beyond the document, or whose line is past its place plus 1.
    Cursor,
    /// A token by its number, which is not below the number of tokens.
    Token,
    /// A run of tokens, which passes them or starts after its end.
    Run,
}

impl Refusal {
    /// Its number.
    pub const fn number(&self) -> usize {
        match self {
            Self::NotUtf8 { .. } => 1,
            Self::TooLong => 2,
            Self::FewTokens { .. } => 3,
            Self::ShortOutput { .. } => 4,
            Self::FewErrors { .. } => 5,
            Self::OutOfPlace { .. } => 6,
            Self::NoKind { .. } => 7,
            Self::AfterEnd => 8,
            Self::NoEdition { .. } => 9,
            Self::TooDeep { .. } => 10,
            Self::NoReviewer { .. } => 11,
            Self::FewMarks { .. } => 12,
            Self::TotalFull => 13,
        }
    }

    /// The value of an answer, or the refusal.
    pub(crate) fn read(answer: ffi::Answer) -> Result<usize, Self> {
        Self::read_sought(answer, Sought::Offset)
    }

    /// The same of a call that looks for something.
    pub(crate) fn read_sought(answer: ffi::Answer, what: Sought) -> Result<usize, Self> {
        let value = answer.value;
        match answer.refusal {
            0 => Ok(value),
            1 => Err(Self::NotUtf8 { valid: value, error_len: NonZeroUsize::new(answer.length) }),
            2 => Err(Self::TooLong),
            3 => Err(Self::FewTokens { needed: value }),
            4 => Err(Self::ShortOutput { needed: value }),
            5 => Err(Self::FewErrors { needed: value }),
            6 => Err(Self::OutOfPlace { what, length: value }),
            7 => Err(Self::NoKind { number: value }),
            8 => Err(Self::AfterEnd),
            9 => Err(Self::NoEdition { number: value }),
            10 => Err(Self::TooDeep { depth: value }),
            11 => Err(Self::NoReviewer { number: value }),
            12 => Err(Self::FewMarks { needed: value }),
            // 13: an answer has no other number
            _ => Err(Self::TotalFull),
        }
    }
}

impl core::fmt::Display for Refusal {
    fn fmt(&self, f: &mut core::fmt::Formatter<'_>) -> core::fmt::Result {
        write!(f, "refused {}: ", self.number())?;
        match self {
            Self::NotUtf8 { valid, error_len: Some(n) } => {
                write!(f, "{n} bytes from byte {valid} on are not UTF-8")
            }
            Self::NotUtf8 { valid, error_len: None } => {
                write!(f, "the text ends inside the character at byte {valid}")
            }
            Self::TooLong => write!(f, "more than {LIMIT} bytes"),
            Self::FewTokens { needed } => write!(f, "{needed} token records are needed"),
            Self::ShortOutput { needed } => write!(f, "{needed} bytes of output are needed"),
            Self::FewErrors { needed } => write!(f, "{needed} error records are needed"),
            Self::OutOfPlace { what, length } => match what {
                Sought::Offset => write!(f, "the offset is beyond the document's {length} bytes"),
                Sought::Span => {
                    write!(f, "the span passes the document's {length} bytes, starts after its end or cuts a character")
                }
                Sought::Cursor => {
                    write!(
                        f,
                        "the cursor's place is beyond the document's {length} bytes, or its line past its place plus 1"
                    )
                }
                Sought::Token => write!(f, "the token's number is not below {length}, the number of tokens"),
                Sought::Run => write!(f, "the run passes the {length} tokens, or starts after its end"),
            },
            Self::NoKind { number } => write!(f, "{number} is no kind"),
            Self::AfterEnd => write!(f, "a part, or the closing word, after the end"),
            Self::NoEdition { number } => write!(f, "{number} is no edition of TOML"),
            Self::TooDeep { depth } => write!(f, "more than {depth} brackets are open at once"),
            Self::NoReviewer { number } => write!(f, "{number} is no reviewer"),
            Self::FewMarks { needed } => write!(f, "{needed} marks are needed"),
            Self::TotalFull => write!(f, "a total would pass 64 bits"),
        }
    }
}

impl core::error::Error for Refusal {}
