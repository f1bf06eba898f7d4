//! Frames: the bytes of one line, told apart by first byte and length, and the
//! line that carries given bytes. The numbers in a frame are not judged here.

use crate::labels::LONGEST_LABEL;
use crate::plan::{Head, Set};

/// A node's frame, its numbers as they stand in the line.
#[derive(Clone, Copy, Debug, PartialEq, Eq)]
pub enum NodeFrame {
    Nil,
    Silent,
    Send { x: u8, y: u8 },
    Receive { x: u8, y: u8, binder: u8 },
    Sum,
    Parallel,
    Restriction { x: u8, channel: u8 },
    Match { x: u8, y: u8 },
    Replication,
    Bracket { level: u8 },
}

/// A frame that may stand after the offers: a label, or the root, which ends the
/// labels.
#[derive(Clone, Debug, PartialEq, Eq)]
pub enum LabelOrRoot {
    Label {
        kind: u8,
        number: u8,
        label: Vec<u8>,
    },
    Root(NodeFrame),
}

/// A frame that may stand after the free names: an offer, or a frame that ends
/// the offers.
#[derive(Clone, Debug, PartialEq, Eq)]
pub enum OfferOrAfter {
    Offer { channel: u8, offered: Set },
    After(LabelOrRoot),
}

/// The edition and the head's numbers, or refusal number 3 or 4.
pub fn head_frame(bytes: &[u8]) -> Result<(u8, Head), u8> {
    match *bytes {
        [0x01, edition, channels, binders, highest_level, free_names] => Ok((
            edition,
            Head {
                channels,
                binders,
                highest_level,
                free_names,
            },
        )),
        [0x01, ..] => Err(4),
        _ => Err(3),
    }
}

/// A free name and its channel, or refusal number 3 or 4.
pub fn free_name_frame(bytes: &[u8]) -> Result<(u8, u8), u8> {
    match *bytes {
        [0x02, name, channel] => Ok((name, channel)),
        [0x02, ..] => Err(4),
        _ => Err(3),
    }
}

/// An offer, a label or the root's frame, or refusal number 3 or 4.
pub fn offer_or_after_frame(bytes: &[u8]) -> Result<OfferOrAfter, u8> {
    match *bytes {
        [0x03, channel, first, second, third, fourth] => Ok(OfferOrAfter::Offer {
            channel,
            offered: set([first, second, third, fourth]),
        }),
        [0x03, ..] => Err(4),
        _ => label_or_root_frame(bytes).map(OfferOrAfter::After),
    }
}

/// A label or the root's frame, or refusal number 3 or 4.
pub fn label_or_root_frame(bytes: &[u8]) -> Result<LabelOrRoot, u8> {
    match *bytes {
        [0x04, kind, number, ref label @ ..] if (1..=LONGEST_LABEL).contains(&label.len()) => {
            Ok(LabelOrRoot::Label {
                kind,
                number,
                label: label.to_vec(),
            })
        }
        [0x04, ..] => Err(4),
        _ => node_frame(bytes).map(LabelOrRoot::Root),
    }
}

/// The set that four bytes carry, high byte first; channel c counts 2 to the c.
fn set(bytes: [u8; 4]) -> Set {
    let number = u32::from_be_bytes(bytes);
    (0..32)
        .filter(|channel| number >> channel & 1 == 1)
        .collect()
}

/// A node's frame, or refusal number 3 or 4.
pub fn node_frame(bytes: &[u8]) -> Result<NodeFrame, u8> {
    match *bytes {
        [0x10] => Ok(NodeFrame::Nil),
        [0x11] => Ok(NodeFrame::Silent),
        [0x12, x, y] => Ok(NodeFrame::Send { x, y }),
        [0x13, x, y, binder] => Ok(NodeFrame::Receive { x, y, binder }),
        [0x14] => Ok(NodeFrame::Sum),
        [0x15] => Ok(NodeFrame::Parallel),
        [0x16, x, channel] => Ok(NodeFrame::Restriction { x, channel }),
        [0x17, x, y] => Ok(NodeFrame::Match { x, y }),
        [0x18] => Ok(NodeFrame::Replication),
        [0x19, level] => Ok(NodeFrame::Bracket { level }),
        [0x10..=0x19, ..] => Err(4),
        _ => Err(3),
    }
}

/// The bytes a line carries, or nothing where the line is refused with 2. The
/// line is given with its line feed, if it has one.
pub fn decode(line: &[u8]) -> Option<Vec<u8>> {
    let digits = line.strip_suffix(b"\n")?;
    if digits.is_empty() || digits.len() % 2 != 0 {
        return None;
    }
    digits
        .chunks(2)
        .map(|pair| Some(digit(pair[0])? * 16 + digit(pair[1])?))
        .collect()
}

/// The value of a lower-case hexadecimal digit.
pub fn digit(character: u8) -> Option<u8> {
    match character {
        b'0'..=b'9' => Some(character - b'0'),
        b'a'..=b'f' => Some(character - b'a' + 10),
        _ => None,
    }
}

/// The line that carries a frame, with its line feed.
pub fn encode(frame: &[u8]) -> String {
    let mut line: String = frame.iter().map(|byte| format!("{byte:02x}")).collect();
    line.push('\n');
    line
}
