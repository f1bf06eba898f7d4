//! Drawing: the endless stream of random records that a seed gives, about half
//! of them good plans and half of them damaged ones.

use crate::chance::Chance;
use crate::damaging::damage_frames;
use crate::damaging_labels::damage_labels;
use crate::damaging_offers::damage_offers;
use crate::damaging_text::{change_length, damage_bytes, damage_lines};
use crate::frames::encode;
use crate::making::{make_plan, Frames};
use crate::reading::read;
use crate::records::Record;
use crate::solving::{solve, AMPLE_ROUNDS};

/// The stream of a seed's records.
pub struct Drawing {
    chance: Chance,
}

impl Drawing {
    /// The stream that always is the same for the same seed.
    pub fn new(seed: u64) -> Self {
        Drawing {
            chance: Chance::new(seed),
        }
    }
}

impl Iterator for Drawing {
    type Item = Record;

    /// The next record; there always is one.
    fn next(&mut self) -> Option<Record> {
        let frames = make_plan(&mut self.chance);
        let text = if self.chance.percent(44) {
            write_lines(&frames).concat()
        } else {
            damaged(frames, &mut self.chance)
        };
        let allowance = draw_allowance(&text, &mut self.chance);
        Some(Record { text, allowance })
    }
}

/// The lines of a plan's frames, each with its line feed.
fn write_lines(frames: &Frames) -> Vec<Vec<u8>> {
    frames
        .iter()
        .map(|frame| encode(frame).into_bytes())
        .collect()
}

/// The text of a good plan after damage to its frames, lines, bytes or length,
/// at times to two of these, or to its offers or its labels.
fn damaged(mut frames: Frames, chance: &mut Chance) -> Vec<u8> {
    let kind = chance.below(34);
    if kind < 10 {
        damage_frames(&mut frames, chance);
    }
    if (20..26).contains(&kind) {
        damage_offers(&mut frames, chance);
    }
    if kind >= 26 {
        damage_labels(&mut frames, chance);
    }
    let mut lines = write_lines(&frames);
    if (9..14).contains(&kind) {
        damage_lines(&mut lines, chance);
    }
    let mut text = lines.concat();
    if (13..19).contains(&kind) {
        damage_bytes(&mut text, chance);
    }
    if kind == 19 {
        change_length(&mut text, chance);
    }
    text
}

/// An allowance for a text: mostly ample, at times near the round count or 0.
fn draw_allowance(text: &[u8], chance: &mut Chance) -> u16 {
    let choice = chance.below(20);
    let count = || {
        let plan = read(text).ok()?;
        solve(&plan, AMPLE_ROUNDS).map(|(_, count)| count)
    };
    match choice {
        0..=1 => count().unwrap_or(1),
        2 => count().unwrap_or(1) - 1,
        3 => count().unwrap_or(1) + 1,
        4 => chance.below(usize::from(count().unwrap_or(9))) as u16,
        5 => 0,
        6..=7 => u16::MAX,
        _ => AMPLE_ROUNDS,
    }
}
