//! Reading files, and saying why one could not be read.

use galoxumi::{Refusal, LIMIT};
use std::ffi::OsStr;
use std::fs::File;
use std::io::Read;

/// A document and what it is called.
pub struct Input {
    pub name: String,
    pub doc: Vec<u8>,
}

/// What a file is called in what is written; control characters in a name are shown, so that none disturbs a line.
pub fn name_of(file: &OsStr) -> String {
    if file == "-" {
        "<stdin>".to_string()
    } else {
        crate::shown::text(file.to_string_lossy().as_bytes())
    }
}

/// Reads a file, `-` for standard input, of up to the limit; else why not.
pub fn read(file: &OsStr) -> Result<Input, String> {
    // Of a file that is longer, or never ends, one byte past the limit is enough to know.
    let input = read_most(file, LIMIT + 1)?;
    if input.doc.len() > LIMIT {
        return Err(format!("{}: {}", input.name, Refusal::TooLong));
    }
    Ok(input)
}

/// Reads so many bytes of a file, where it has them.
pub fn read_most(file: &OsStr, most: usize) -> Result<Input, String> {
    let name = name_of(file);
    let mut doc = Vec::new();
    let count = if file == "-" {
        std::io::stdin().lock().take(most as u64).read_to_end(&mut doc)
    } else {
        open(file).and_then(|opened| opened.take(most as u64).read_to_end(&mut doc))
    };
    match count {
        Ok(_) => Ok(Input { name, doc }),
        Err(error) => Err(format!("{name}: {}", reason(&error))),
    }
}

fn open(file: &OsStr) -> std::io::Result<File> {
    let opened = File::open(file)?;
    if opened.metadata()?.is_dir() {
        return Err(std::io::Error::other("is a folder"));
    }
    Ok(opened)
}

fn reason(error: &std::io::Error) -> String {
    match error.kind() {
        std::io::ErrorKind::NotFound => "no such file".to_string(),
        std::io::ErrorKind::PermissionDenied => "may not be read".to_string(),
        _ => error.to_string(),
    }
}

/// A line on standard error.
pub fn complain(what: &str) {
    eprintln!("galoxumi: {what}");
}
