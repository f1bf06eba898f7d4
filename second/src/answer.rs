//! The answer to a record: its sheet and, directly behind it, its reach sheet and
//! then its word sheet.

use crate::outcome::outcome;
use crate::reach::{reach_of, LONGEST_REACH};
use crate::records::Record;
use crate::sheet::{sheet_of, LONGEST_SHEET};
use crate::words::{words_of, LONGEST_WORDS};

/// The length in bytes that no answer exceeds.
pub const LONGEST_ANSWER: usize = LONGEST_SHEET + LONGEST_REACH + LONGEST_WORDS;

/// The answer to a record; its text is solved once for all three sheets.
pub fn answer(record: &Record) -> Vec<u8> {
    let outcome = outcome(&record.text, record.allowance);
    [
        sheet_of(&outcome).into_bytes(),
        reach_of(&outcome).into_bytes(),
        words_of(&outcome),
    ]
    .concat()
}
