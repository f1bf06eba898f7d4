//! Fuzzing: another program's answers to random records, each a sheet, its reach
//! sheet and its word sheet, compared with the answers that this one gives.

use std::io::{self, Read, Write};
use std::process::{Child, ChildStdin, ChildStdout, Command, Stdio};
use std::thread;

use crate::answer::{answer, LONGEST_ANSWER};
use crate::drawing::Drawing;
use crate::reach;
use crate::records::{self, Record};
use crate::sheet;

/// How many records one run of the program gets.
const RECORDS_PER_RUN: u64 = 2_000;
/// How many differences are shown whole.
const SHOWN_DIFFERENCES: u64 = 5;

/// How many records got the same answer from both programs, and how many not.
#[derive(Clone, Copy, Debug, Default, PartialEq, Eq)]
pub struct Tally {
    pub same: u64,
    pub different: u64,
}

/// Runs a command, a program and the words for it, over so many records of a
/// seed and shows the first differences; the error is a line for the user.
pub fn fuzz(
    count: u64,
    seed: u64,
    command: &[&str],
    output: &mut impl Write,
) -> Result<Tally, String> {
    let mut drawing = Drawing::new(seed);
    let mut tally = Tally::default();
    while tally.same + tally.different < count {
        let wanted = RECORDS_PER_RUN.min(count - tally.same - tally.different);
        let records: Vec<Record> = drawing.by_ref().take(wanted as usize).collect();
        let printed = ask(command, &records)
            .map_err(|error| format!("cannot run {}: {error}", command.join(" ")))?;
        for (record, got) in records.iter().zip(split_answers(&printed, records.len())) {
            let expected = answer(record);
            if got == expected {
                tally.same += 1;
                continue;
            }
            tally.different += 1;
            if tally.different <= SHOWN_DIFFERENCES {
                let number = tally.same + tally.different;
                show(number, record, &expected, got, output)
                    .map_err(|error| format!("cannot write: {error}"))?;
            }
        }
    }
    Ok(tally)
}

/// What a command prints when it is fed the records. It may end early, and what
/// it prints past the length of the longest possible answers is cut off. How it
/// ends is not judged, only what it prints.
fn ask(command: &[&str], records: &[Record]) -> io::Result<Vec<u8>> {
    let (program, words) = command
        .split_first()
        .ok_or(io::Error::other("no program is named"))?;
    let mut child = Command::new(program)
        .args(words)
        .stdin(Stdio::piped())
        .stdout(Stdio::piped())
        .spawn()?;
    let printed = match (child.stdin.take(), child.stdout.take()) {
        (Some(input), Some(output)) => exchange(&mut child, input, output, records),
        _ => Err(io::Error::other("no pipes to the program")),
    };
    child.wait()?;
    printed
}

/// Feeds the records from a thread of its own while the answers are read, so that
/// neither side waits for the other for ever.
fn exchange(
    child: &mut Child,
    input: ChildStdin,
    output: ChildStdout,
    records: &[Record],
) -> io::Result<Vec<u8>> {
    let limit = records.len() * LONGEST_ANSWER + 1;
    let mut printed = Vec::new();
    thread::scope(|scope| {
        scope.spawn(move || feed(input, records));
        let result = output.take(limit as u64).read_to_end(&mut printed);
        if result.is_err() || printed.len() == limit {
            child.kill()?;
        }
        result
    })?;
    Ok(printed)
}

/// Writes the records until all are written or the program takes no more; a
/// program that ends early shows in what it prints.
fn feed(input: ChildStdin, records: &[Record]) {
    let mut input = io::BufWriter::new(input);
    for record in records {
        if records::write(record, &mut input).is_err() {
            return;
        }
    }
}

/// What was printed cut into as many answers as asked for; the last has all that
/// is left. The answers together are all that was printed, so a sheet that
/// differs, is missing or is doubled makes at least one of them differ.
fn split_answers(printed: &[u8], count: usize) -> Vec<&[u8]> {
    let mut answers = Vec::new();
    let mut rest = printed;
    for _ in 1..count {
        let (answer, after) = rest.split_at(first_answer_length(rest));
        answers.push(answer);
        rest = after;
    }
    answers.push(rest);
    answers
}

/// The length of the first answer: a sheet, the reach sheet behind it and the word
/// sheet behind both, which is the next line whatever it says.
fn first_answer_length(printed: &[u8]) -> usize {
    let sheet = length_to(&sheet::LAST_LINES, printed);
    let both = sheet + length_to(&reach::LAST_LINES, &printed[sheet..]);
    both + lines(&printed[both..]).next().map_or(0, <[u8]>::len)
}

/// The lines of what was printed, each with its line feed if it has one.
fn lines(printed: &[u8]) -> impl Iterator<Item = &[u8]> {
    printed.split_inclusive(|byte| *byte == b'\n')
}

/// The length up to the end of the first line that is one of the phrases, or of
/// all if none is.
fn length_to(phrases: &[&str], printed: &[u8]) -> usize {
    let mut length = 0;
    for line in lines(printed) {
        length += line.len();
        let last = phrases
            .iter()
            .any(|phrase| line.strip_suffix(b"\n") == Some(phrase.as_bytes()));
        if last {
            break;
        }
    }
    length
}

/// Shows one difference whole.
fn show(
    number: u64,
    record: &Record,
    expected: &[u8],
    got: &[u8],
    output: &mut impl Write,
) -> io::Result<()> {
    let (length, allowance) = (record.text.len(), record.allowance);
    writeln!(output, "record {number} differs")?;
    writeln!(output, "text, {length} bytes, allowance {allowance}:")?;
    writeln!(output, "{}", readable(&record.text))?;
    writeln!(output, "expected sheets:\n{}", readable(expected))?;
    writeln!(output, "got sheets:\n{}", readable(got))
}

/// The bytes as text: line feeds as they are, other odd bytes as escapes.
fn readable(bytes: &[u8]) -> String {
    let lines: Vec<String> = bytes
        .split(|byte| *byte == b'\n')
        .map(|line| line.escape_ascii().to_string())
        .collect();
    lines.join("\n")
}
