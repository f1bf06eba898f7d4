//! The answer sheet: its lines, for answered and for refused plans.

use crate::frames::encode;
use crate::judging::first_breach;
use crate::outcome::{outcome, Outcome, Solved};
use crate::plan::Set;
use crate::reading::Refusal;
use crate::solving::Place;

/// The length in bytes that no sheet exceeds.
pub const LONGEST_SHEET: usize = 8_128;

/// The fixed phrases, one of which is the last line of every sheet.
pub const LAST_LINES: [&str; 3] = [CLEAR, BREACH, REFUSED];

const CLEAR: &str = "flow clear";
const BREACH: &str = "flow breach";
/// The phrase of a refusal, on the reach sheet and the word sheet too.
pub const REFUSED: &str = "refused";

/// The sheet of a text under an allowance of rounds.
pub fn sheet(text: &[u8], allowance: u16) -> String {
    sheet_of(&outcome(text, allowance))
}

/// The sheet of an outcome.
pub fn sheet_of(outcome: &Outcome) -> String {
    match outcome {
        Ok(solved) => answered(solved),
        Err(refusal) => refused(refusal),
    }
}

/// The sheet of a plan that is answered.
fn answered(solved: &Solved) -> String {
    let [high, low] = solved.count.to_be_bytes();
    let mut sheet = encode(&[0x2f, high, low]);
    for (place, set) in solved.solution.sets() {
        sheet += &set_line(*place, set);
    }
    let phrase = match first_breach(&solved.head, &solved.solution) {
        None => {
            sheet += &encode(&[0x30, 0x01]);
            CLEAR
        }
        Some(breach) => {
            let named = [breach.high, breach.low, breach.channel, breach.object];
            sheet += &encode(&[&[0x30, 0x00], named.as_slice()].concat());
            BREACH
        }
    };
    sheet + phrase + "\n"
}

/// The sheet of a refused plan, and its reach sheet.
pub fn refused(refusal: &Refusal) -> String {
    let [high, low] = refusal.line.to_be_bytes();
    encode(&[0x3f, refusal.number, high, low]) + REFUSED + "\n"
}

/// The line of a set; channel c counts 2 to the c.
fn set_line(place: Place, set: &Set) -> String {
    let mut frame = match place {
        Place::Binder(binder) => vec![0x20, binder],
        Place::In { level, channel } => vec![0x21, level, channel],
        Place::Out { level, channel } => vec![0x22, level, channel],
    };
    let number: u32 = set.iter().map(|channel| 1 << channel).sum();
    frame.extend(number.to_be_bytes());
    encode(&frame)
}
