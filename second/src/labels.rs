//! Labels: the things that may have one, the bytes that may stand in one, and
//! the beginning of one that is shown.

use std::collections::BTreeMap;

use crate::characters::first_character;
use crate::plan::{Head, OUTERMOST};

/// The most bytes of a label; the fewest are 1.
pub const LONGEST_LABEL: usize = 60;
/// The most bytes of a label that are shown.
pub const LONGEST_SHOWN: usize = 24;

/// A kind of things, in the order and by the numbers of the label frames.
#[derive(Clone, Copy, Debug, PartialEq, Eq, PartialOrd, Ord)]
pub enum Kind {
    Channel,
    Binder,
    Level,
}

/// A thing of a plan that may have a label; ordered as the label frames are.
#[derive(Clone, Copy, Debug, PartialEq, Eq, PartialOrd, Ord)]
pub struct Thing {
    pub kind: Kind,
    pub number: u8,
}

/// The bytes of each label under the thing that has it.
pub type Labels = BTreeMap<Thing, Vec<u8>>;

/// The thing that the kind and the number of a label frame name in a plan with
/// the given head, or nothing where it has no such thing.
pub fn thing(kind: u8, number: u8, head: &Head) -> Option<Thing> {
    let kind = match kind {
        0x00 if number < head.channels => Kind::Channel,
        0x01 if number < head.binders => Kind::Binder,
        0x02 if number <= head.highest_level || number == OUTERMOST => Kind::Level,
        _ => return None,
    };
    Some(Thing { kind, number })
}

/// Whether bytes are well formed characters, none of them a control character
/// below 20 hex or 7f.
pub fn may_stand_in_a_label(bytes: &[u8]) -> bool {
    let mut rest = bytes;
    while let [first, ..] = *rest {
        match first_character(rest) {
            Some(length) if first >= 0x20 && first != 0x7f => rest = &rest[length..],
            _ => return false,
        }
    }
    true
}

/// The part of a label that is shown: its longest beginning of whole characters
/// that has at most 24 bytes.
pub fn shown(label: &[u8]) -> &[u8] {
    let mut length = 0;
    while let Some(character) = first_character(&label[length..]) {
        if length + character > LONGEST_SHOWN {
            break;
        }
        length += character;
    }
    &label[..length]
}
