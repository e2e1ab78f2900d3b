//! `galoxumi write`: a value as TOML.

use crate::arguments::Arguments;
use crate::input;
use crate::output::{Output, Stop};
use crate::Status;
use galoxumi::{write_value, Refusal};

pub const HELP: &str = "\
usage: galoxumi write <VALUE

Writes standard input, to its last byte, as the shortest literal or basic string that TOML 1.0 reads as that value, and a
line feed after it. A line feed at the end of the input is a part of the value: printf %s \"$FLAG\" | galoxumi write.

Exit status: 0 written; 1 the input is not UTF-8; 2 it could not be read, or is longer than 16,777,216 bytes.
";

pub fn run(arguments: &Arguments, output: &mut Output) -> Result<Status, Stop> {
    if !arguments.files.is_empty() {
        return Ok(crate::misused("the value comes from standard input", HELP));
    }
    let value = match input::read("-".as_ref()) {
        Ok(input) => input.doc,
        Err(why) => {
            input::complain(&why);
            return Ok(Status::Failed);
        }
    };
    match write_value(&value) {
        Ok(text) => output.line(&text).map(|()| Status::Sound),
        Err(refusal @ Refusal::NotUtf8 { .. }) => {
            input::complain(&format!("<stdin>: {refusal}"));
            Ok(Status::Unsound)
        }
        Err(refusal) => Err(refusal.into()),
    }
}
