//! Reads a description in the format of crates/examples/data from standard input and writes its card.
//! What no card can carry is said on standard error, with the number of the line; then the status is 1 and nothing is written.

use reference::examples::card;
use std::io::{read_to_string, stdin, stdout, Write};
use std::process::ExitCode;

fn main() -> std::io::Result<ExitCode> {
    match card(&read_to_string(stdin())?) {
        Ok(card) => {
            stdout().write_all(&card)?;
            Ok(ExitCode::SUCCESS)
        }
        Err(fault) => {
            eprintln!("{fault}");
            Ok(ExitCode::FAILURE)
        }
    }
}
