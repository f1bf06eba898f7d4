//! Records: a text with its allowance, and the form in which a batch of them
//! is handed to a program.

use std::io::{self, Write};

use crate::frames::digit;

/// The longest text a record carries, in bytes.
pub const LONGEST_RECORD_TEXT: usize = 65_536;

const HEADER_LENGTH: usize = 17;

/// A text to be answered under an allowance of rounds.
#[derive(Clone, Debug, PartialEq, Eq)]
pub struct Record {
    pub text: Vec<u8>,
    pub allowance: u16,
}

/// Writes a record: its header line, then the text's bytes as they are.
pub fn write(record: &Record, output: &mut impl Write) -> io::Result<()> {
    writeln!(output, "{:08x}{:08x}", record.text.len(), record.allowance)?;
    output.write_all(&record.text)
}

/// All records of a batch, or a line that says which record is bad and why.
pub fn parse(batch: &[u8]) -> Result<Vec<Record>, String> {
    let mut records = Vec::new();
    let mut rest = batch;
    while !rest.is_empty() {
        let (record, after) =
            parse_first(rest).map_err(|why| format!("record {}: {why}", records.len() + 1))?;
        records.push(record);
        rest = after;
    }
    Ok(records)
}

/// The first record and the bytes after it, or what is wrong with it.
fn parse_first(bytes: &[u8]) -> Result<(Record, &[u8]), &'static str> {
    let (header, rest) = bytes
        .split_at_checked(HEADER_LENGTH)
        .ok_or("the header is cut short")?;
    if header[16] != b'\n' {
        return Err("the header has no line feed after 16 digits");
    }
    let not_digits = "the header has another character than 0-9 a-f";
    let length = number(&header[..8]).ok_or(not_digits)?;
    let allowance = number(&header[8..16]).ok_or(not_digits)?;
    let length = usize::try_from(length)
        .ok()
        .filter(|length| *length <= LONGEST_RECORD_TEXT)
        .ok_or("the length is over 65,536")?;
    let allowance = u16::try_from(allowance).map_err(|_| "the allowance is over 65,535")?;
    let (text, rest) = rest
        .split_at_checked(length)
        .ok_or("the text is cut short")?;
    let text = text.to_vec();
    Ok((Record { text, allowance }, rest))
}

/// The number that eight lower-case hexadecimal digits give.
fn number(digits: &[u8]) -> Option<u32> {
    digits.iter().try_fold(0, |value, character| {
        Some(value * 16 + u32::from(digit(*character)?))
    })
}
