//! Standard output, where a failed write counts, and standard error, where it does not.

use std::fs::File;
use std::io::{self, Write};
use std::os::fd::AsFd;

/// Puts the bytes on standard output, or says why it can't.
pub fn print(bytes: &[u8]) -> Result<(), String> {
    // The library's own handle would take an output that can't be written for a written one.
    let output = io::stdout().as_fd().try_clone_to_owned().map(File::from);
    output
        .and_then(|mut output| output.write_all(bytes))
        .map_err(|error| format!("standard output can't be written: {error}"))
}

/// Puts a line on standard error, if that can be written.
pub fn tell(line: &[u8]) {
    let _ = io::stderr().write_all(&[line, b"\n"].concat());
}

/// Puts a message of `./sheet` on standard error, if that can be written.
pub fn message(what: &str) {
    tell(format!("sheet: {what}").as_bytes());
}

/// Puts a message about a file on standard error, if that can be written.
pub fn message_about(name: &[u8], what: &str) {
    tell(&[b"sheet: ", name, b": ", what.as_bytes()].concat());
}
