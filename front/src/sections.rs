//! The sections of a plan's text: which of its frames are free names, offers,
//! labels and nodes.

use crate::digits::bytes_of;
use crate::head::Head;

/// The first byte of an offer.
pub const OFFER: u8 = 0x03;

/// The first byte of a label.
pub const LABEL: u8 = 0x04;

/// The bytes of a line.
pub type Frame = Vec<u8>;

/// The head of a plan's text and the frames of each section behind it. Of a frame no more is known
/// than its first byte, and that only of offers and labels.
#[derive(Debug, PartialEq, Eq)]
pub struct Sections {
    pub head: Head,
    pub free_names: Vec<Frame>,
    pub offers: Vec<Frame>,
    pub labels: Vec<Frame>,
    pub nodes: Vec<Frame>,
}

impl Sections {
    /// The sections of a plan's text, which may end behind any line that is no free name; nothing
    /// for a text that is none.
    pub fn of(text: &[u8]) -> Option<Sections> {
        let lines = text.strip_suffix(b"\n")?.split(|byte| *byte == b'\n');
        let frames: Vec<Frame> = lines.map(bytes_of).collect::<Option<_>>()?;
        let head = Head::of(text)?;
        let count = usize::from(head.free_names);
        let (free_names, behind) = frames.get(1..)?.split_at_checked(count)?;
        let (offers, behind) = led_by(OFFER, behind);
        let (labels, nodes) = led_by(LABEL, behind);
        Some(Sections {
            head,
            free_names: free_names.to_vec(),
            offers: offers.to_vec(),
            labels: labels.to_vec(),
            nodes: nodes.to_vec(),
        })
    }
}

/// The frames up to the first that begins with another byte, and the others.
fn led_by(byte: u8, frames: &[Frame]) -> (&[Frame], &[Frame]) {
    let others = |frame: &Frame| frame.first() != Some(&byte);
    let end = frames.iter().position(others).unwrap_or(frames.len());
    frames.split_at(end)
}

#[cfg(test)]
mod tests {
    use super::*;

    /// How many free names, offers, labels and nodes the lines have.
    fn counts(lines: &[&str]) -> Option<[usize; 4]> {
        let sections = Sections::of((lines.join("\n") + "\n").as_bytes())?;
        let Sections {
            free_names,
            offers,
            labels,
            nodes,
            ..
        } = sections;
        Some([free_names, offers, labels, nodes].map(|frames| frames.len()))
    }

    #[test]
    fn each_section_has_its_frames() {
        let text = "010102000101\n020501\n030100000001\n04000041\n04020142\n1900\n10\n";
        let sections = Sections::of(text.as_bytes()).unwrap();
        assert_eq!(sections.head.highest_level, 1);
        assert_eq!(sections.free_names, [[2, 5, 1]]);
        assert_eq!(sections.offers, [[3, 1, 0, 0, 0, 1]]);
        assert_eq!(sections.labels, [[4, 0, 0, 0x41], [4, 2, 1, 0x42]]);
        assert_eq!(sections.nodes, [vec![0x19, 0], vec![0x10]]);
    }

    #[test]
    fn any_section_may_be_missing() {
        for (lines, wanted) in [
            (&["010101000000"][..], [0, 0, 0, 0]),
            (&["010101000000", "10"], [0, 0, 0, 1]),
            (&["010101000000", "0400"], [0, 0, 1, 0]),
            (&["010101000000", "03", "10"], [0, 1, 0, 1]),
            (&["010101000001", "04", "04", "10"], [1, 0, 1, 1]),
            // What stands in another section than its own is there.
            (&["010101000000", "04", "03", "04", "10"], [0, 0, 1, 3]),
            (&["010101000000", "11", "04", "10"], [0, 0, 0, 3]),
        ] {
            assert_eq!(counts(lines), Some(wanted), "{lines:?}");
        }
    }

    #[test]
    fn what_is_no_plans_text_has_no_sections() {
        for lines in [
            &[""][..],
            &["10"],
            &["010101000001"],
            &["010101000002", "020000"],
            &["010101000000", "1G"],
            &["010101000000", "040"],
        ] {
            assert_eq!(counts(lines), None, "{lines:?}");
        }
        assert_eq!(Sections::of(b"010101000000\n10"), None);
        assert_eq!(Sections::of(b""), None);
    }
}
