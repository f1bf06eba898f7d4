//! The program behind `./sheet`: has a proved program proved and built, hands it
//! the plans that are asked for, and says its answers. The first word of its
//! command line is the repository's folder, the others are those of `./sheet`.

mod arguments;
mod commands;
mod digits;
mod head;
mod input;
mod labels;
mod output;
mod outside;
mod program;
mod proving;
mod reach;
mod refusal;
mod sections;
mod sheet;
mod source;
mod text;
mod tree;
mod word_sheet;
mod words;

use std::path::PathBuf;
use std::process::ExitCode;

/// Exit status 0 for clear or never, 1 for a breach or may reach, 2 for refused, 3 for trouble of
/// its own.
fn main() -> ExitCode {
    let mut words = std::env::args_os().skip(1);
    let root = PathBuf::from(words.next().unwrap_or_default());
    ExitCode::from(commands::run(&root, words) as u8)
}
