//! The reach sheet: which level may receive which handle, and on which channel
//! first; and what is asked of it.

use std::collections::BTreeMap;

use crate::head::{Head, Kind};
use crate::sheet::{has_sets, parts, refusal, Refusal, CHANNELS, REFUSED};

/// Which handle is asked after, and at which level or, as `OUTSIDE`, in the whole relay; without
/// one, at every level.
#[derive(Debug, PartialEq, Eq)]
pub struct Question {
    pub handle: u8,
    pub level: Option<u8>,
}

impl Question {
    /// Whether a plan with this head has what is asked after, or what it has instead.
    pub fn asks_of(&self, head: &Head) -> Result<(), String> {
        if !head.has(Kind::Channel, self.handle) {
            return Err(head.lacks(Kind::Channel, self.handle));
        }
        match self.level {
            Some(level) if !head.has(Kind::Level, level) => Err(head.lacks(Kind::Level, level)),
            _ => Ok(()),
        }
    }
}

/// A well-formed reach sheet.
#[derive(Debug, PartialEq, Eq)]
pub enum Reach {
    Complete(Received),
    Refused(Refusal),
}

/// The smallest channel on which a level may receive a handle, by level and handle; where none is
/// there, the level never receives the handle.
#[derive(Debug, Default, PartialEq, Eq)]
pub struct Received {
    channels: BTreeMap<(u8, u8), u8>,
}

impl Received {
    /// The smallest channel on which a level may receive a handle, if there is one.
    pub fn channel(&self, level: u8, handle: u8) -> Option<u8> {
        self.channels.get(&(level, handle)).copied()
    }

    /// Whether a plan with this head has each level, handle and channel that is named.
    pub fn fits(&self, head: &Head) -> bool {
        self.channels.iter().all(|((level, handle), channel)| {
            head.has(Kind::Level, *level)
                && head.has(Kind::Channel, *handle)
                && head.has(Kind::Channel, *channel)
        })
    }
}

/// The reach sheet that a program's output is, if it is one: every line well formed, by level and
/// then by handle, and none twice.
pub fn parse(output: &[u8]) -> Option<Reach> {
    let (frames, phrase) = parts(output)?;
    match phrase {
        REFUSED => refusal(&frames).map(Reach::Refused),
        b"reach complete" => received(&frames).map(Reach::Complete),
        _ => None,
    }
}

/// What the lines before the phrase say, if they ascend.
fn received(frames: &[Vec<u8>]) -> Option<Received> {
    let mut received = Received::default();
    let mut last = None;
    for frame in frames {
        let [0x23, level, handle, channel] = frame[..] else {
            return None;
        };
        let key = (level, handle);
        if !has_sets(level, channel) || handle >= CHANNELS || last >= Some(key) {
            return None;
        }
        last = Some(key);
        received.channels.insert(key, channel);
    }
    Some(received)
}

#[cfg(test)]
mod tests {
    use super::*;
    use crate::sheet::OUTSIDE;

    fn parsed(lines: &[&str]) -> Option<Reach> {
        parse((lines.join("\n") + "\n").as_bytes())
    }

    fn received(lines: &[&str]) -> Received {
        match parsed(lines) {
            Some(Reach::Complete(received)) => received,
            _ => panic!("no reach sheet"),
        }
    }

    #[test]
    fn each_part_of_a_reach_sheet_is_found() {
        let received = received(&["23000311", "23031d10", "23071f1e", "reach complete"]);
        assert_eq!(received.channel(0, 3), Some(17));
        assert_eq!(received.channel(3, 29), Some(16));
        assert_eq!(received.channel(OUTSIDE, 31), Some(30));
        assert_eq!(received.channel(3, 0), None);
        assert_eq!(received.channel(0, 29), None);
        assert_eq!(received.channel(OUTSIDE, 3), None);
        let none = parsed(&["reach complete"]);
        assert_eq!(none, Some(Reach::Complete(Received::default())));
        let number = 16;
        let line = 0x0104;
        assert_eq!(
            parsed(&["3f100104", "refused"]),
            Some(Reach::Refused(Refusal { number, line }))
        );
    }

    #[test]
    fn what_is_no_reach_sheet_is_none() {
        for lines in [
            &[""][..],
            &["refused"],
            &["23000100"],
            &["23000100", "Reach complete"],
            &["23000100", "reach complete "],
            &["23000100", "reach complete", ""],
            &["23000100", "reach complete", "reach complete"],
            &["23000100", "refused"],
            &["3f020002", "reach complete"],
            &["3f020002", "3f020002", "refused"],
            &["3f0200", "refused"],
            &["230001", "reach complete"],
            &["2300010000", "reach complete"],
            &["2300010", "reach complete"],
            &["23000A00", "reach complete"],
            &["22000100", "reach complete"],
            &["23080100", "reach complete"],
            &["23002000", "reach complete"],
            &["23000120", "reach complete"],
            &["23010100", "23000200", "reach complete"],
            &["23000200", "23000100", "reach complete"],
            &["23000100", "23000100", "reach complete"],
            &["23000100", "23000101", "reach complete"],
            &["2f0001", "3001", "flow clear"],
        ] {
            assert_eq!(parsed(lines), None, "{lines:?}");
        }
        assert_eq!(parse(b"23000100\nreach complete"), None);
        assert_eq!(parse(b""), None);
    }

    #[test]
    fn a_question_asks_of_what_a_plan_has() {
        let asked = |handle, level, channels, highest_level| {
            Question { handle, level }.asks_of(&Head {
                channels,
                binders: 0,
                highest_level,
                free_names: 0,
            })
        };
        assert_eq!(asked(4, Some(2), 5, 2), Ok(()));
        assert_eq!(asked(4, None, 5, 2), Ok(()));
        assert_eq!(asked(4, Some(OUTSIDE), 5, 2), Ok(()));
        for (handle, level, channels, highest_level, told) in [
            (5, None, 5, 2, "no channel 5: its channels are 0 to 4"),
            (5, Some(3), 5, 2, "no channel 5: its channels are 0 to 4"),
            (4, Some(3), 5, 2, "no level 3: its levels are 0 to 2"),
            (1, None, 1, 0, "no channel 1: its only channel is 0"),
            (0, Some(6), 1, 0, "no level 6: its only level is 0"),
        ] {
            assert_eq!(
                asked(handle, level, channels, highest_level),
                Err(format!("the plan has {told}"))
            );
        }
    }

    #[test]
    fn a_sheet_fits_a_plan_that_has_all_it_names() {
        let received = received(&["23020400", "23070503", "reach complete"]);
        let fits = |channels, highest_level| {
            received.fits(&Head {
                channels,
                binders: 0,
                highest_level,
                free_names: 0,
            })
        };
        assert!(fits(6, 2));
        assert!(!fits(5, 2));
        assert!(!fits(6, 1));
        let channel = super::received(&[vec![0x23, 0, 0, 5]]).unwrap();
        let head = Head {
            channels: 5,
            binders: 0,
            highest_level: 0,
            free_names: 0,
        };
        assert!(!channel.fits(&head));
    }
}
