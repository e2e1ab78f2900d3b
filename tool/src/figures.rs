//! `galoxumi figures`: how many tokens of each kind and errors of each number files have, each and in all.

use crate::arguments::Arguments;
use crate::check::{counted, unread};
use crate::input::{self, Input};
use crate::json::Object;
use crate::output::{Output, Stop};
use crate::Status;
use galoxumi::{Refusal, TokenKind, Totals, Untallied, MOST_TALLIED};

pub const HELP: &str = "\
usage: galoxumi figures [--json] FILE..

Counts the tokens of each kind, and the errors of each number over all strings read as TOML 1.0, of each file and of all
together. A file of more than 65,536 bytes is counted as refused with 2, and one that is not UTF-8 as refused with 1;
they add to nothing else. A file that cannot be read adds nothing. FILE - is standard input.

  --json   writes an object a line; galoxumi(1) has their fields

Exit status: 0 counted; 1 a file has an error or is refused; 2 a file could not be read, or a total would pass 64 bits.
";

pub fn run(arguments: &Arguments, output: &mut Output) -> Result<Status, Stop> {
    if arguments.files.is_empty() {
        return Ok(crate::misused("no FILE", HELP));
    }
    let (mut all, mut files, mut worst) = (Totals::default(), 0, Status::Sound);
    for file in &arguments.files {
        let status = match input::read_most(file, MOST_TALLIED + 1) {
            Ok(input) => {
                files += 1;
                add(&input, &mut all, arguments.json, output)?
            }
            Err(why) => unread(&input::name_of(file), &why, arguments.json, output)?,
        };
        worst = worst.max(status);
    }
    let refused = [("1".to_string(), all.not_utf8()), ("2".to_string(), all.too_long())];
    output.line(&if arguments.json {
        object(Object::new().number("files", files), &all).object("refused", counts(&refused)).end()
    } else {
        let refused = listed(&refused);
        let also = if refused.is_empty() { refused } else { format!("; refused: {refused}") };
        format!("{} in all: {}{also}", counted(files, "file"), told(&all))
    })?;
    Ok(worst)
}

/// The figures of a file, which are added to those of all.
fn add(input: &Input, all: &mut Totals, json: bool, output: &mut Output) -> Result<Status, Stop> {
    let mut own = Totals::default();
    let named = Object::new().string("file", &input.name);
    let (line, status) = match own.add(&input.doc) {
        Ok(()) if json => (object(named, &own).end(), sound(&own)),
        Ok(()) => (format!("{}: {}", input.name, told(&own)), sound(&own)),
        Err(why) if json => (named.number("refusal", number(why)).end(), Status::Unsound),
        Err(why) => (format!("{}: refused {}", input.name, number(why)), Status::Unsound),
    };
    // A total that would pass 64 bits stops the run; a file that is refused is counted among the others.
    if let Err(Untallied::TotalFull) = all.add(&input.doc) {
        return Err(Refusal::TotalFull.into());
    }
    output.line(&line)?;
    Ok(status)
}

/// The number of a refusal.
fn number(why: Untallied) -> usize {
    match why {
        Untallied::NotUtf8 { .. } => 1,
        Untallied::TooLong => 2,
        Untallied::TotalFull => 13,
    }
}

fn sound(totals: &Totals) -> Status {
    if errors(totals).iter().all(|(_, count)| *count == 0) {
        Status::Sound
    } else {
        Status::Unsound
    }
}

fn tokens(totals: &Totals) -> Vec<(String, u64)> {
    TokenKind::ALL.iter().map(|kind| (kind.name().to_string(), totals.tokens(*kind))).collect()
}

fn errors(totals: &Totals) -> Vec<(String, u64)> {
    (1..=15).map(|number| (number.to_string(), totals.errors(number))).collect()
}

/// Both sums, and what they are made of.
fn told(totals: &Totals) -> String {
    let part = |figures: Vec<(String, u64)>, what| {
        let sum: u64 = figures.iter().map(|(_, count)| count).sum();
        let (plural, list) = (if sum == 1 { "" } else { "s" }, listed(&figures));
        format!("{sum} {what}{plural}{}{list}", if list.is_empty() { "" } else { ": " })
    };
    format!("{}; {}", part(tokens(totals), "token"), part(errors(totals), "error"))
}

/// The figures that are not 0.
fn listed(figures: &[(String, u64)]) -> String {
    let some = figures.iter().filter(|(_, count)| *count > 0);
    some.map(|(name, count)| format!("{name} {count}")).collect::<Vec<_>>().join(", ")
}

fn object(object: Object, totals: &Totals) -> Object {
    object.object("tokens", counts(&tokens(totals))).object("errors", counts(&errors(totals)))
}

fn counts(figures: &[(String, u64)]) -> Object {
    let some = figures.iter().filter(|(_, count)| *count > 0);
    some.fold(Object::new(), |object, (name, count)| object.number(name, *count as usize))
}
