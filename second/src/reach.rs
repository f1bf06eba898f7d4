//! The reach sheet: which handles each level may receive, and the smallest
//! channel on which it may receive each of them.

use std::collections::BTreeMap;

use crate::frames::encode;
use crate::outcome::{outcome, Outcome, Solved};
use crate::plan::Set;
use crate::sheet::{refused, REFUSED};
use crate::solving::Place;

/// The length in bytes that no reach sheet exceeds.
pub const LONGEST_REACH: usize = 2_319;

/// The fixed phrases, one of which is the last line of every reach sheet.
pub const LAST_LINES: [&str; 2] = [COMPLETE, REFUSED];

const COMPLETE: &str = "reach complete";

/// The reach sheet of a text under an allowance of rounds.
pub fn reach(text: &[u8], allowance: u16) -> String {
    reach_of(&outcome(text, allowance))
}

/// The reach sheet of an outcome; a refusal looks as it does on the sheet.
pub fn reach_of(outcome: &Outcome) -> String {
    match outcome {
        Ok(solved) => answered(solved),
        Err(refusal) => refused(refusal),
    }
}

/// The reach sheet of a plan that is answered.
fn answered(solved: &Solved) -> String {
    let mut sheet = String::new();
    for level in solved.head.levels() {
        for (handle, channels) in received(solved, level) {
            let smallest = channels.first().copied();
            sheet.extend(smallest.map(|channel| encode(&[0x23, level, handle, channel])));
        }
    }
    sheet + COMPLETE + "\n"
}

/// Every handle that a level may receive, with all channels on which it may.
fn received(solved: &Solved, level: u8) -> BTreeMap<u8, Set> {
    let mut handles: BTreeMap<u8, Set> = BTreeMap::new();
    for channel in 0..solved.head.channels {
        for handle in solved.solution.set(Place::In { level, channel }) {
            handles.entry(*handle).or_default().insert(channel);
        }
    }
    handles
}
