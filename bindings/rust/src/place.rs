//! Spans and their texts; lines and columns.

use crate::{ffi, Refusal, Sought, Span, LIMIT};

/// Whether a span lies within a document, with neither end inside a character.
pub fn check_span(doc: &[u8], span: Span) -> Result<(), Refusal> {
    Refusal::read_sought(ffi::check_span(doc, span.start(), span.end()), Sought::Span).map(|_| ())
}

/// The text of a span: that part of the document, or why the span is refused.
pub fn text(doc: &[u8], span: Span) -> Result<&[u8], Refusal> {
    check_span(doc, span)?;
    let part = ffi::text(doc, span.start(), span.end());
    Ok(&doc[part.start..part.start + part.length])
}

/// A place as a reader of the document names it: line and column, both counted from 1.
#[derive(Copy, Clone, PartialEq, Eq, PartialOrd, Ord, Hash, Debug)]
pub struct Position {
    /// 1 plus the line feeds before the offset.
    pub line: usize,
    /// 1 plus the characters that begin on the line before the offset; a byte order mark at byte 0 is not counted.
    pub column: usize,
}

/// As `line:column`.
impl core::fmt::Display for Position {
    fn fmt(&self, f: &mut core::fmt::Formatter<'_>) -> core::fmt::Result {
        write!(f, "{}:{}", self.line, self.column)
    }
}

/// The line and column of an offset. It counts from the document's start; for many offsets there is [`Places`].
pub fn position(doc: &[u8], offset: usize) -> Result<Position, Refusal> {
    let position = ffi::position(doc, offset);
    Refusal::read(position.answer)?;
    Ok(Position { line: position.line, column: position.column })
}

/// Lines and columns of many offsets of one document. Each is counted on from the one before, where it is not before it:
/// offsets in rising order cost one pass over the document, and not one for each.
///
/// ```
/// use galoxumi::{position, Places};
///
/// let doc = b"a = 1\nb = 2\n";
/// let mut places = Places::new(doc);
/// for offset in [0, 4, 6, 12, 4] {
///     assert_eq!(places.position(offset), position(doc, offset));
/// }
/// ```
#[derive(Copy, Clone, Debug)]
pub struct Places<'i> {
    doc: &'i [u8],
    at: usize,
    position: Position,
}

impl<'i> Places<'i> {
    /// At the start of a document.
    pub const fn new(doc: &'i [u8]) -> Self {
        Self { doc, at: 0, position: Position { line: 1, column: 1 } }
    }

    /// The line and column of an offset, as [`position`] answers them.
    pub fn position(&mut self, offset: usize) -> Result<Position, Refusal> {
        if offset > self.doc.len() || self.doc.len() > LIMIT {
            return position(self.doc, offset);
        }
        if offset < self.at {
            *self = Self::new(self.doc);
        }
        let rest = &self.doc[self.at..];
        let step = position(rest, offset - self.at)?;
        self.position = if step.line > 1 {
            Position { line: self.position.line + step.line - 1, column: step.column }
        } else {
            // The call takes a byte order mark for one that begins a document, and does not count it; here it does only at 0.
            let uncounted = usize::from(self.at > 0 && offset > self.at && rest.starts_with(b"\xEF\xBB\xBF"));
            Position { line: self.position.line, column: self.position.column + step.column - 1 + uncounted }
        };
        self.at = offset;
        Ok(self.position)
    }
}
