//! Prints for a deck file what the program `verify` prints:
//!
//!     cargo run --offline --example print -- DECK
use std::process::ExitCode;

fn main() -> ExitCode {
    let Some(path) = std::env::args_os().nth(1) else {
        eprintln!("usage: print DECK");
        return ExitCode::FAILURE;
    };
    match std::fs::read(&path) {
        Ok(deck) => {
            print!("{}", style_deck::report(&deck));
            ExitCode::SUCCESS
        }
        Err(error) => {
            eprintln!("{}: {error}", path.to_string_lossy());
            ExitCode::FAILURE
        }
    }
}
