//! Prints the value of every string of a TOML document on standard input, or what is wrong with it.

use galoxumi::{lex, Expected, Places};
use std::io::Read;

fn main() -> Result<(), Box<dyn std::error::Error>> {
    let mut doc = Vec::new();
    std::io::stdin().read_to_end(&mut doc)?;
    let mut places = Places::new(&doc);
    for token in lex(&doc)? {
        let Some(decoded) = token.decode(&doc) else {
            continue;
        };
        match decoded?.value() {
            Ok(value) => println!("{}: {value:?}", places.position(token.span().start())?),
            Err(errors) => {
                for error in errors {
                    let at = places.position(error.unexpected().start())?;
                    let expected: Vec<Expected> = error.expected().collect();
                    println!("{at}: {}, expected {expected:?}", error.description());
                }
            }
        }
    }
    Ok(())
}
