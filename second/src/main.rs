//! The program `second`: hands its words, input and output to the commands and
//! turns the outcome into an exit status.

use std::io;
use std::process::ExitCode;

/// Exit status 0 if all went well, 1 if sheets differed, 2 after an error line.
fn main() -> ExitCode {
    let words: Vec<String> = std::env::args_os()
        .skip(1)
        .map(|word| word.to_string_lossy().into_owned())
        .collect();
    match second::commands::run(&words, &mut io::stdin(), &mut io::stdout()) {
        Ok(true) => ExitCode::SUCCESS,
        Ok(false) => ExitCode::from(1),
        Err(message) => {
            eprintln!("second: {message}");
            ExitCode::from(2)
        }
    }
}
