//! The word sheet: one line that says the verdict in the labels of the plan.

use crate::judging::{first_breach, Breach};
use crate::labels::{shown, Kind, Labels, Thing};
use crate::outcome::{outcome, Outcome};
use crate::sheet::REFUSED;

/// The length in bytes that no word sheet exceeds.
pub const LONGEST_WORDS: usize = 114;

const CLEAR: &str = "clear";

/// The word sheet of a text under an allowance of rounds.
pub fn words(text: &[u8], allowance: u16) -> Vec<u8> {
    words_of(&outcome(text, allowance))
}

/// The word sheet of an outcome; every refusal has the same.
pub fn words_of(outcome: &Outcome) -> Vec<u8> {
    let mut line = match outcome {
        Err(_) => REFUSED.into(),
        Ok(solved) => match first_breach(&solved.head, &solved.solution) {
            None => CLEAR.into(),
            Some(breach) => breach_in_words(&breach, &solved.labels),
        },
    };
    line.push(b'\n');
    line
}

/// Who sends to whom on which channel, and the handle that is sent.
fn breach_in_words(breach: &Breach, labels: &Labels) -> Vec<u8> {
    let level = |number| in_words("level", Kind::Level, number, labels);
    let channel = |number| in_words("channel", Kind::Channel, number, labels);
    [
        b"breach ".to_vec(),
        level(breach.high),
        b" to ".to_vec(),
        level(breach.low),
        b" on ".to_vec(),
        channel(breach.channel),
        b": ".to_vec(),
        channel(breach.object),
    ]
    .concat()
}

/// The shown part of a thing's label, or the word for its kind and its decimal
/// number where it has none.
fn in_words(word: &str, kind: Kind, number: u8, labels: &Labels) -> Vec<u8> {
    match labels.get(&Thing { kind, number }) {
        Some(label) => shown(label).to_vec(),
        None => format!("{word} {number}").into_bytes(),
    }
}
