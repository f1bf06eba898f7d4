//! The vectors that are stored beside the product's batch program are those
//! that this program makes, and they reach every refusal and every last line,
//! every level, handle and channel of reach sheets, labels of every length, and
//! the longest reach sheet and word sheet.

use std::collections::BTreeSet;
use std::fs;
use std::path::PathBuf;

use second::answer::answer;
use second::judging::first_breach;
use second::labels::{shown, Kind, Thing};
use second::outcome::outcome;
use second::reach::{reach, LONGEST_REACH};
use second::records;
use second::sheet::sheet;
use second::vectors::vectors;
use second::words::{words_of, LONGEST_WORDS};

/// The bytes of a file of the product's batch program.
fn stored(name: &str) -> Vec<u8> {
    let root = PathBuf::from(env!("CARGO_MANIFEST_DIR"));
    let path = root.join("../crates/batch").join(name);
    fs::read(&path).unwrap_or_else(|error| panic!("{}: {error}", path.display()))
}

#[test]
fn stored_records_and_answers_are_the_ones_made_here() {
    let mut made = Vec::new();
    let mut answers = Vec::new();
    for record in vectors() {
        records::write(&record, &mut made).expect("a vector takes all bytes");
        answers.extend(answer(&record));
    }
    assert!(made == stored("stdin"), "crates/batch/stdin is another");
    assert!(
        answers == stored("stdout"),
        "crates/batch/stdout is another"
    );
}

#[test]
fn vectors_reach_every_refusal_and_every_last_line() {
    let sheets = vectors()
        .into_iter()
        .map(|record| sheet(&record.text, record.allowance));
    let mut refusals = BTreeSet::new();
    let mut phrases = BTreeSet::new();
    for sheet in sheets {
        if let Some(refusal) = sheet.strip_prefix("3f") {
            refusals.insert(u8::from_str_radix(&refusal[..2], 16).expect("two digits"));
        }
        phrases.extend(sheet.lines().last().map(str::to_string));
    }
    assert_eq!(refusals, (1..=14).chain(16..=18).collect());
    assert_eq!(phrases.len(), 3);
}

#[test]
fn vectors_reach_every_level_handle_and_channel() {
    let mut lines = BTreeSet::new();
    let mut lengths = BTreeSet::new();
    for record in vectors() {
        let reach = reach(&record.text, record.allowance);
        lengths.insert(reach.len());
        lines.extend(reach.lines().map(str::to_string));
    }
    for level in 0..8 {
        for handle in 0..32 {
            let line = format!("23{level:02x}{handle:02x}");
            assert!(lines.iter().any(|other| other.starts_with(&line)), "{line}");
        }
    }
    for channel in 0..32 {
        let ending = format!("{channel:02x}");
        let mut frames = lines.iter().filter(|line| line.starts_with("23"));
        assert!(frames.any(|line| line.ends_with(&ending)), "{ending}");
    }
    assert_eq!(lengths.last(), Some(&LONGEST_REACH));
}

/// Every length of a label is shown whole or cut, for every thing that a breach
/// names, cut labels end at every place that a character leaves, and the longest
/// word sheet is among the answers.
#[test]
fn vectors_show_labels_of_every_length() {
    let mut longest = 0;
    let mut lengths = BTreeSet::new();
    let mut cuts = BTreeSet::new();
    for record in vectors() {
        let outcome = outcome(&record.text, record.allowance);
        longest = longest.max(words_of(&outcome).len());
        let Ok(solved) = outcome else {
            continue;
        };
        let Some(breach) = first_breach(&solved.head, &solved.solution) else {
            continue;
        };
        let named = [
            (Kind::Level, breach.high),
            (Kind::Level, breach.low),
            (Kind::Channel, breach.channel),
            (Kind::Channel, breach.object),
        ];
        for (place, (kind, number)) in named.into_iter().enumerate() {
            if let Some(label) = solved.labels.get(&Thing { kind, number }) {
                lengths.insert((place, label.len()));
                cuts.extend((label.len() > 24).then_some((place, shown(label).len())));
            }
        }
    }
    for place in 0..4 {
        assert!((1..=60).all(|length| lengths.contains(&(place, length))));
        assert!((21..=24).all(|length| cuts.contains(&(place, length))));
    }
    assert_eq!(longest, LONGEST_WORDS);
}
