//! Judging: whether a solution is discreet, and the breach that is named if not.

use crate::plan::Head;
use crate::solving::{Place, Solution};

/// An object that a higher level sends and a lower one receives on a channel.
#[derive(Clone, Copy, Debug, PartialEq, Eq)]
pub struct Breach {
    pub high: u8,
    pub low: u8,
    pub channel: u8,
    pub object: u8,
}

/// The breach with the smallest high level, then the smallest low level,
/// channel and object in turn; nothing where the solution is discreet.
pub fn first_breach(head: &Head, solution: &Solution) -> Option<Breach> {
    for high in 0..=head.highest_level {
        for low in 0..high {
            for channel in 0..head.channels {
                let level = high;
                let sent = solution.set(Place::Out { level, channel });
                let level = low;
                let received = solution.set(Place::In { level, channel });
                if let Some(&object) = sent.intersection(received).next() {
                    return Some(Breach {
                        high,
                        low,
                        channel,
                        object,
                    });
                }
            }
        }
    }
    None
}
