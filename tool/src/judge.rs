//! What is wrong with a token: with its encoding, or with the string that it is.

use galoxumi::{check_utf8, Edition, ErrorRecord, Lent, Refusal, Span, Token};

/// What is found of a token.
pub enum Verdict<'m> {
    /// It is no string, and nothing is wrong with it.
    Sound,
    /// It is a string without errors, or with some, which have their places in the document.
    String(Lent<'m>),
    /// It is not UTF-8.
    NotUtf8(Fault),
}

/// Where a token is not UTF-8.
#[derive(Copy, Clone)]
pub struct Fault {
    /// The first faulty sequence.
    pub span: Span,
    /// The document ends inside a character, which is that sequence.
    pub ends: bool,
    /// How many more faulty sequences there are in the token.
    pub more: usize,
}

/// Judges the tokens of a document, read as an edition of TOML.
pub struct Judge<'i> {
    doc: &'i [u8],
    edition: Edition,
    /// The whole of it is UTF-8.
    utf8: bool,
    /// Lent to each decode: so much that it always suffices, of which what is not written does not become memory.
    output: Vec<u8>,
    records: Vec<ErrorRecord>,
}

impl<'i> Judge<'i> {
    pub fn new(doc: &'i [u8], edition: Edition) -> Self {
        Self { doc, edition, utf8: check_utf8(doc).is_ok(), output: Vec::new(), records: Vec::new() }
    }

    /// What is wrong with a token of the document. Tokens end where a character does, so that each faulty sequence lies in
    /// one.
    pub fn judge(&mut self, token: Token) -> Result<Verdict<'_>, Refusal> {
        if let Some(verdict) = self.faults(token.span()) {
            return Ok(verdict);
        }
        self.lend(token.span().len());
        // What stands after the token is no matter of the token's, and need not be UTF-8.
        let doc = &self.doc[..token.span().end()];
        match token.decode_into(doc, self.edition, &mut self.output, &mut self.records) {
            Some(decoded) => decoded.map(Verdict::String),
            None => Ok(Verdict::Sound),
        }
    }

    /// Makes room for what a text of so many bytes can decode to.
    fn lend(&mut self, length: usize) {
        if self.records.len() < length + 2 {
            let room = (length + 2).next_power_of_two();
            self.output = vec![0; room + room / 2];
            self.records = vec![[0; 3]; room];
        }
    }

    fn faults(&self, span: Span) -> Option<Verdict<'static>> {
        if self.utf8 {
            return None;
        }
        let mut faults = Faults { doc: &self.doc[..span.end()], at: span.start() };
        faults.next().map(|first| Verdict::NotUtf8(Fault { more: faults.count(), ..first }))
    }
}

/// The faulty sequences of a document from a place on.
struct Faults<'i> {
    doc: &'i [u8],
    at: usize,
}

impl Iterator for Faults<'_> {
    type Item = Fault;

    fn next(&mut self) -> Option<Fault> {
        let Err(Refusal::NotUtf8 { valid, error_len }) = check_utf8(&self.doc[self.at..]) else {
            return None;
        };
        let start = self.at + valid;
        self.at = error_len.map_or(self.doc.len(), |length| start + length.get());
        Some(Fault { span: Span::new(start, self.at), ends: error_len.is_none(), more: 0 })
    }
}
