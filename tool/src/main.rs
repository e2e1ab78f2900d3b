//! `galoxumi`: what is wrong with the strings and the encoding of TOML files, for people. All reading of TOML is done by the
//! proved library; this program reads files and lays out what the library says.
//!
//! Each command is a module with its help and a function `run`, and a row of `COMMANDS`.

mod advice;
mod arguments;
mod check;
mod diagnostic;
mod excerpt;
mod figures;
mod finding;
mod input;
mod json;
mod judge;
mod mend;
mod output;
mod shown;
mod strings;
mod tokens;
mod values;
mod width;
mod width_table;
mod write;

use arguments::{Arguments, Wrong};
use output::{Output, Stop};
use std::process::ExitCode;

/// How a run went, the worst last: all is sound; something is not; something could not be read, judged or written.
#[derive(Copy, Clone, PartialEq, Eq, PartialOrd, Ord)]
pub enum Status {
    Sound = 0,
    Unsound = 1,
    Failed = 2,
}

/// A command: its name, its help, the options that it takes, and what it does.
struct Command {
    name: &'static str,
    help: &'static str,
    options: &'static [&'static str],
    run: fn(&Arguments, &mut Output) -> Result<Status, Stop>,
}

const COMMANDS: &[Command] = &[
    Command { name: "check", help: check::HELP, options: &["--edition", "--json", "--first"], run: check::run },
    Command { name: "figures", help: figures::HELP, options: &["--json"], run: figures::run },
    Command { name: "mend", help: mend::HELP, options: &["--edition", "--json", "--output", "--in-place"], run: mend::run },
    Command { name: "strings", help: strings::HELP, options: &["--edition", "--json"], run: strings::run },
    Command { name: "tokens", help: tokens::HELP, options: &["--json"], run: tokens::run },
    Command { name: "values", help: values::HELP, options: &["--edition", "--json"], run: values::run },
    Command { name: "write", help: write::HELP, options: &[], run: write::run },
];

const HELP: &str = "\
usage: galoxumi COMMAND [OPTIONS] [FILE..]

Reads the strings of TOML files by a library whose every function is proved to meet its contract. It judges strings and
encoding, and never says that a file is valid TOML: structure, numbers and dates stay with the parser.

commands:
  check FILE..   says what is wrong with each broken string, and where a file is not UTF-8
  figures FILE.. counts tokens of each kind and errors of each number, of each file and in all
  mend FILE      writes the file with each broken string replaced by a sound one, and lists them
  strings FILE   lists each string with its place, kind and value, control characters shown
  tokens FILE    lists each token with its place, kind and text
  values FILE    says which array or inline table is no value, and which bracket is lost
  write          writes standard input as the shortest TOML string with that value

galoxumi COMMAND --help says more. FILE - is standard input.

Exit status: 0 all is sound; 1 a string or the encoding is not; 2 a file could not be read or is longer than 16,777,216
bytes, the output could not be written, or the command line is wrong.
";

fn main() -> ExitCode {
    let mut output = Output::new();
    let ended = run(&mut output).and_then(|status| output.end().map(|()| status));
    let status = ended.unwrap_or_else(|stop| {
        match stop {
            // A reader that has seen enough closes the pipe, and wants no message.
            Stop::Closed => {}
            Stop::Failed(error) => input::complain(&format!("the output could not be written: {error}")),
            Stop::Refused(refusal) => input::complain(&refusal.to_string()),
        }
        Status::Failed
    });
    ExitCode::from(status as u8)
}

fn run(output: &mut Output) -> Result<Status, Stop> {
    let mut words = std::env::args_os().skip(1);
    let first = words.next().map(|word| word.to_string_lossy().into_owned());
    match first.as_deref() {
        Some("--help" | "-h" | "help") => output.text(HELP).map(|()| Status::Sound),
        Some("--version" | "-V") => {
            output.text(concat!("galoxumi ", env!("CARGO_PKG_VERSION"), "\n")).map(|()| Status::Sound)
        }
        Some(name) => match COMMANDS.iter().find(|command| command.name == name) {
            Some(command) => obey(command, words, output),
            None => Ok(misused(&format!("no command {name}"), HELP)),
        },
        None => Ok(misused("no command", HELP)),
    }
}

fn obey(command: &Command, words: impl Iterator<Item = std::ffi::OsString>, output: &mut Output) -> Result<Status, Stop> {
    match Arguments::read(words, command.options) {
        Ok(arguments) => (command.run)(&arguments, output),
        Err(Wrong::Help) => output.text(command.help).map(|()| Status::Sound),
        Err(Wrong::Said(what)) => Ok(misused(&what, command.help)),
    }
}

/// Says what is wrong with the command line, and how it is called.
fn misused(what: &str, help: &str) -> Status {
    input::complain(what);
    eprintln!("{}", help.lines().next().unwrap_or_default());
    Status::Failed
}
