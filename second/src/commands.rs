//! The commands of the program: their words, what they read and what they print.

use std::io::{self, BufWriter, Read, Write};

use crate::answer::answer;
use crate::drawing::Drawing;
use crate::fuzz::fuzz;
use crate::reach::reach;
use crate::records;
use crate::sheet::sheet;
use crate::solving::AMPLE_ROUNDS;
use crate::vectors::vectors;
use crate::words;

const USAGE: &str =
    "use: second sheet [ALLOWANCE] | reach [ALLOWANCE] | words [ALLOWANCE] | batch | records COUNT SEED | vectors | fuzz COUNT SEED PROGRAM [WORD ..]";

/// Runs the command that the words name. False means that sheets differed; an
/// error is one line for the user, and nothing but a failed write or a failed
/// start of the other program comes after output has begun.
pub fn run(
    words: &[String],
    input: &mut impl Read,
    output: &mut impl Write,
) -> Result<bool, String> {
    let words: Vec<&str> = words.iter().map(String::as_str).collect();
    let mut output = BufWriter::new(output);
    let same = match words[..] {
        ["sheet", ref allowance @ ..] if allowance.len() < 2 => {
            print_sheet(sheet, rounds(allowance)?, input, &mut output)?
        }
        ["reach", ref allowance @ ..] if allowance.len() < 2 => {
            print_sheet(reach, rounds(allowance)?, input, &mut output)?
        }
        ["words", ref allowance @ ..] if allowance.len() < 2 => {
            print_sheet(words::words, rounds(allowance)?, input, &mut output)?
        }
        ["batch"] => print_batch(input, &mut output)?,
        ["records", count, seed] => {
            let (count, seed) = (number(count, u64::MAX)?, number(seed, u64::MAX)?);
            print_records(count, seed, &mut output)?
        }
        ["vectors"] => print_vectors(&mut output)?,
        ["fuzz", count, seed, ref command @ ..] if !command.is_empty() => {
            let (count, seed) = (number(count, u64::MAX)?, number(seed, u64::MAX)?);
            print_fuzz(count, seed, command, &mut output)?
        }
        _ => return Err(USAGE.to_string()),
    };
    output.flush().map_err(cannot_write)?;
    Ok(same)
}

/// Prints the sheet, of one kind or another, of the text on the input.
fn print_sheet<Sheet: AsRef<[u8]>>(
    kind: fn(&[u8], u16) -> Sheet,
    allowance: u16,
    input: &mut impl Read,
    output: &mut impl Write,
) -> Result<bool, String> {
    let sheet = kind(&read_all(input)?, allowance);
    output.write_all(sheet.as_ref()).map_err(cannot_write)?;
    Ok(true)
}

/// Prints the answers to all records on the input, if every record is good.
fn print_batch(input: &mut impl Read, output: &mut impl Write) -> Result<bool, String> {
    for record in records::parse(&read_all(input)?)? {
        output.write_all(&answer(&record)).map_err(cannot_write)?;
    }
    Ok(true)
}

/// Prints so many random records of a seed.
fn print_records(count: u64, seed: u64, output: &mut impl Write) -> Result<bool, String> {
    let mut drawing = Drawing::new(seed);
    for _ in 0..count {
        if let Some(record) = drawing.next() {
            records::write(&record, output).map_err(cannot_write)?;
        }
    }
    Ok(true)
}

/// Prints the records that are stored beside the product's batch program.
fn print_vectors(output: &mut impl Write) -> Result<bool, String> {
    for record in vectors() {
        records::write(&record, output).map_err(cannot_write)?;
    }
    Ok(true)
}

/// Prints how a program's sheets compare; true if all are the same.
fn print_fuzz(
    count: u64,
    seed: u64,
    command: &[&str],
    output: &mut impl Write,
) -> Result<bool, String> {
    let tally = fuzz(count, seed, command, output)?;
    writeln!(output, "{} same, {} different", tally.same, tally.different).map_err(cannot_write)?;
    Ok(tally.different == 0)
}

/// The allowance of rounds that a word gives, the ample one without a word.
fn rounds(words: &[&str]) -> Result<u16, String> {
    match words.first() {
        None => Ok(AMPLE_ROUNDS),
        Some(word) => Ok(number(word, u64::from(u16::MAX))? as u16),
    }
}

/// The number that a word of decimal digits gives, if it is not over the most.
fn number(word: &str, most: u64) -> Result<u64, String> {
    let digits = word.bytes().all(|character| character.is_ascii_digit());
    word.parse()
        .ok()
        .filter(|number| digits && *number <= most)
        .ok_or(format!("{word:?} is not a number from 0 to {most}"))
}

/// All bytes of the input.
fn read_all(input: &mut impl Read) -> Result<Vec<u8>, String> {
    let mut bytes = Vec::new();
    input
        .read_to_end(&mut bytes)
        .map_err(|error| format!("cannot read: {error}"))?;
    Ok(bytes)
}

/// The error line after a failed write.
fn cannot_write(error: io::Error) -> String {
    format!("cannot write: {error}")
}
