//! A plan's labels: what they name, how much of one is shown, and what can be
//! wrong with one.

use std::collections::BTreeMap;

use crate::head::{Head, Kind};
use crate::sections::{Frame, Sections};

/// The most bytes of a label; the fewest are 1.
pub const LONGEST: usize = 60;

/// The most bytes of a label that are shown.
const LONGEST_SHOWN: usize = 24;

/// The labels of a plan, by kind and number.
#[derive(Debug, Default, PartialEq, Eq)]
pub struct Labels {
    texts: BTreeMap<(Kind, u8), String>,
}

/// What can be wrong with a label's frame, in the order in which it is asked.
#[derive(Debug, PartialEq, Eq)]
pub enum Fault {
    /// So many bytes stand behind the kind and the number.
    Length(usize),
    /// No kind has this number.
    Kind(u8),
    /// The plan has no thing of that kind and number, but which it has is said here.
    Number(String),
    /// The label before it is of the same thing or of a later one.
    Order,
    /// From this byte of the label on, counted from 1, it is not well-formed UTF-8.
    Malformed(usize),
    /// At this byte of the label, counted from 1, stands this control character.
    Control(usize, u8),
    /// So many lines before it stands a label of the same kind with the same bytes.
    Repeated(usize, Kind),
}

impl Fault {
    /// The number of the refusal for this fault.
    pub fn refusal(&self) -> u8 {
        match self {
            Fault::Length(_) => 4,
            Fault::Kind(_) | Fault::Number(..) => 7,
            Fault::Order => 8,
            Fault::Malformed(_) | Fault::Control(..) => 17,
            Fault::Repeated(..) => 18,
        }
    }
}

impl Labels {
    /// The labels of a plan that the proved program has taken; nothing for a text that is no plan.
    pub fn of(plan: &[u8]) -> Option<Labels> {
        let sections = Sections::of(plan)?;
        Labels::read(&sections.labels, &sections.head)
    }

    /// The fault of a text's last label, where the text ends with it and the labels before it have
    /// none.
    pub fn last_fault(text: &[u8]) -> Option<Fault> {
        let sections = Sections::of(text).filter(|sections| sections.nodes.is_empty())?;
        let (last, before) = sections.labels.split_last()?;
        let mut labels = Labels::read(before, &sections.head)?;
        labels.add(last, &sections.head).err()
    }

    /// What a thing is called: the part of its label that is shown, or its kind and number.
    pub fn name(&self, kind: Kind, number: u8) -> String {
        match self.texts.get(&(kind, number)) {
            Some(text) => shown(text).to_owned(),
            None => format!("{} {number}", kind.word()),
        }
    }

    /// The labels of frames of labels, if none has a fault.
    fn read(frames: &[Frame], head: &Head) -> Option<Labels> {
        let mut labels = Labels::default();
        for frame in frames {
            labels.add(frame, head).ok()?;
        }
        Some(labels)
    }

    /// Adds the label of a frame, or says what is wrong with it.
    fn add(&mut self, frame: &[u8], head: &Head) -> Result<(), Fault> {
        let [_, kind, number, bytes @ ..] = frame else {
            return Err(Fault::Length(0));
        };
        if !(1..=LONGEST).contains(&bytes.len()) {
            return Err(Fault::Length(bytes.len()));
        }
        let kind = kind_of(*kind).ok_or(Fault::Kind(*kind))?;
        if !head.has(kind, *number) {
            return Err(Fault::Number(head.lacks(kind, *number)));
        }
        let thing = (kind, *number);
        let before = self.texts.keys().next_back();
        if before.is_some_and(|before| *before >= thing) {
            return Err(Fault::Order);
        }
        let text = text_of(bytes)?;
        // The labels ascend, so that from the last to the first they are line by line.
        let mut backwards = self.texts.iter().rev().zip(1..);
        let same =
            |((other, _), earlier): (&(Kind, u8), &String)| *other == kind && earlier == text;
        if let Some((_, lines)) = backwards.find(|(label, _)| same(*label)) {
            return Err(Fault::Repeated(lines, kind));
        }
        self.texts.insert(thing, text.to_owned());
        Ok(())
    }
}

/// The kind that has a number among labels, if one has.
fn kind_of(number: u8) -> Option<Kind> {
    match number {
        0x00 => Some(Kind::Channel),
        0x01 => Some(Kind::Binder),
        0x02 => Some(Kind::Level),
        _ => None,
    }
}

/// The text that bytes give, or the first fault in them: what is shown of a plan is well-formed
/// UTF-8 without control characters.
pub fn text_of(bytes: &[u8]) -> Result<&str, Fault> {
    let text = str::from_utf8(bytes);
    let formed = text.map_or_else(|error| error.valid_up_to(), str::len);
    match bytes[..formed].iter().position(u8::is_ascii_control) {
        Some(place) => Err(Fault::Control(place + 1, bytes[place])),
        None => text.map_err(|_| Fault::Malformed(formed + 1)),
    }
}

/// The part of a label that is shown: its longest beginning of whole characters that is not too
/// long.
fn shown(text: &str) -> &str {
    let mut ends = (0..=LONGEST_SHOWN).rev();
    let end = ends.find(|end| text.is_char_boundary(*end));
    &text[..end.unwrap_or(0)]
}

#[cfg(test)]
mod tests {
    use super::*;
    use crate::digits::digits_of;
    use crate::sections::LABEL;

    /// A text of 10 channels, 3 binders and levels 0 to 4 that ends with these labels.
    fn text(labels: &[(u8, u8, &[u8])]) -> Vec<u8> {
        let mut text = b"01010a030400\n".to_vec();
        for (kind, number, bytes) in labels {
            let frame = [&[LABEL, *kind, *number], *bytes].concat();
            text.extend(frame.into_iter().flat_map(digits_of));
            text.push(b'\n');
        }
        text
    }

    #[test]
    fn a_label_names_the_thing_of_its_kind_and_number() {
        let labels = Labels::of(&text(&[
            (0, 2, "કામ".as_bytes()),
            (1, 1, "काम".as_bytes()),
            (2, 1, "રમેશ દવે".as_bytes()),
            (2, 7, b"\""),
        ]))
        .unwrap();
        for (kind, number, name) in [
            (Kind::Channel, 2, "કામ"),
            (Kind::Binder, 1, "काम"),
            (Kind::Level, 1, "રમેશ દવે"),
            (Kind::Level, 7, "\""),
            (Kind::Channel, 1, "channel 1"),
            (Kind::Channel, 7, "channel 7"),
            (Kind::Channel, 10, "channel 10"),
            (Kind::Level, 2, "level 2"),
            (Kind::Level, 0, "level 0"),
        ] {
            assert_eq!(labels.name(kind, number), name);
        }
        assert_eq!(Labels::of(&text(&[])), Some(Labels::default()));
        assert_eq!(Labels::of(b""), None);
    }

    #[test]
    fn whole_characters_are_shown_as_far_as_24_bytes() {
        let letters = "abcdefghijklmnopqrstuvwxyz";
        for (text, wanted) in [
            ("a", 1),
            (&letters[..23], 23),
            (&letters[..24], 24),
            (&letters[..25], 24),
            (letters, 24),
            ("મીના શાહ", 22),
            // Characters of two, three and four bytes that end at the 24th, and behind it.
            (&[&letters[..22], "\u{80}y"].concat(), 24),
            (&[&letters[..23], "\u{7ff}y"].concat(), 23),
            (&[&letters[..21], "મy"].concat(), 24),
            (&[&letters[..22], "મy"].concat(), 22),
            (&[&letters[..23], "મy"].concat(), 23),
            (&[&letters[..20], "\u{10000}y"].concat(), 24),
            (&[&letters[..21], "\u{10ffff}y"].concat(), 21),
            (&[&letters[..22], "\u{10ffff}y"].concat(), 22),
            (&[&letters[..23], "\u{10ffff}"].concat(), 23),
            ("મમમમમમમમ", 24),
            ("મમમમમમમમમ", 24),
            ("xમમમમમમમમ", 22),
            // What a shorter character behind it would fill stays empty.
            ("xમમમમમમમમyz", 22),
        ] {
            assert_eq!(shown(text), &text[..wanted], "{text}");
        }
    }

    #[test]
    fn a_name_is_the_shown_part_and_no_other() {
        let long = "abcdefghijklmnopqrstuvમીના";
        let labels = Labels::of(&text(&[(0, 9, long.as_bytes())])).unwrap();
        assert_eq!(labels.name(Kind::Channel, 9), "abcdefghijklmnopqrstuv");
    }

    #[test]
    fn the_first_fault_of_the_last_label_is_found() {
        let longest = "a".repeat(60);
        let longer = "a".repeat(61);
        let fault = |labels: &[(u8, u8, &[u8])]| Labels::last_fault(&text(labels));
        let lacking = |what: &str| Some(Fault::Number(format!("the plan has no {what}")));
        for (labels, wanted) in [
            (&[(0, 0, longest.as_bytes())][..], None),
            (&[(2, 7, b"~")], None),
            (&[(2, 4, b" ")], None),
            (&[(1, 2, b"x"), (2, 0, b"x")], None),
            (&[(0, 9, b"x"), (1, 0, b"x")], None),
            (&[(0, 1, b"ab"), (0, 2, b"a")], None),
            (&[(0, 1, b"ab"), (0, 2, b"Ab")], None),
            (
                &[
                    (0, 1, b"abcdefghijklmnopqrstuvwxy"),
                    (0, 2, b"abcdefghijklmnopqrstuvwxz"),
                ],
                None,
            ),
            (&[(0, 0, b"")], Some(Fault::Length(0))),
            (&[(9, 9, b"")], Some(Fault::Length(0))),
            (&[(3, 0, longer.as_bytes())], Some(Fault::Length(61))),
            (&[(3, 0, b"\xff")], Some(Fault::Kind(3))),
            (&[(2, 1, b"x"), (255, 0, b"x")], Some(Fault::Kind(255))),
            (
                &[(0, 10, b"x")],
                lacking("channel 10: its channels are 0 to 9"),
            ),
            (&[(1, 3, b"x")], lacking("binder 3: its binders are 0 to 2")),
            (&[(1, 7, b"x")], lacking("binder 7: its binders are 0 to 2")),
            (&[(2, 5, b"x")], lacking("level 5: its levels are 0 to 4")),
            (&[(2, 6, b"\n")], lacking("level 6: its levels are 0 to 4")),
            (
                &[(2, 4, b"y"), (0, 10, b"y")],
                lacking("channel 10: its channels are 0 to 9"),
            ),
            (&[(0, 4, b"y"), (0, 4, b"y")], Some(Fault::Order)),
            (&[(0, 4, b"y"), (0, 3, b"\n")], Some(Fault::Order)),
            (&[(1, 0, b"y"), (0, 9, b"z")], Some(Fault::Order)),
            (&[(2, 0, b"y"), (1, 2, b"z")], Some(Fault::Order)),
            (&[(0, 0, b"\x00")], Some(Fault::Control(1, 0))),
            (&[(0, 0, b"ab\x1f")], Some(Fault::Control(3, 0x1f))),
            (&[(0, 0, b"a\x7f\n")], Some(Fault::Control(2, 0x7f))),
            (&[(0, 0, b"\ta\xff")], Some(Fault::Control(1, 9))),
            (&[(0, 0, b"a\xff\t")], Some(Fault::Malformed(2))),
            (&[(0, 0, b"ab\xe0\xaa")], Some(Fault::Malformed(3))),
            (&[(0, 0, b"\xe0\xaa\n")], Some(Fault::Malformed(1))),
            (&[(0, 1, b"ab"), (0, 2, b"\xff")], Some(Fault::Malformed(1))),
            (
                &[(0, 1, b"a"), (0, 2, b"a")],
                Some(Fault::Repeated(1, Kind::Channel)),
            ),
            (
                &[(1, 0, b"b"), (2, 0, b"a"), (2, 1, b"b"), (2, 7, b"a")],
                Some(Fault::Repeated(2, Kind::Level)),
            ),
            (
                &[(0, 0, b"b"), (1, 0, b"b"), (1, 1, b"a"), (1, 2, b"b")],
                Some(Fault::Repeated(2, Kind::Binder)),
            ),
        ] {
            assert_eq!(fault(labels), wanted, "{labels:?}");
            assert_eq!(Labels::of(&text(labels)).is_some(), wanted.is_none());
        }
    }

    #[test]
    fn only_what_ends_with_a_label_has_a_last_fault() {
        let faulty = text(&[(0, 0, b"\xff")]);
        assert!(Labels::last_fault(&faulty).is_some());
        for behind in [
            "10\n",
            "030000000001\n",
            "04000161\n",
            "040001ff\n",
            "0400",
            "\n",
        ] {
            let longer = [&faulty, behind.as_bytes()].concat();
            assert_eq!(Labels::last_fault(&longer), None, "{behind:?}");
        }
        for text in [
            &b""[..],
            b"0400ff\n",
            b"01010a030400\n",
            b"01010a030400\n03\n",
            b"01010a030401\n0400ff\n",
            b"01010a030400\n10\n0400ff\n",
            b"01010a030400\n1G\n0400ff\n",
        ] {
            assert_eq!(Labels::last_fault(text), None, "{text:?}");
        }
    }

    #[test]
    fn text_is_what_rfc_3629_says() {
        // The edges of its table of byte ranges, and what lies just beyond them.
        for bytes in [
            &b" "[..],
            b"~",
            b"\xc2\x80",
            b"\xdf\xbf",
            b"\xe0\xa0\x80",
            b"\xe0\xbf\xbf",
            b"\xe1\x80\x80",
            b"\xec\xbf\xbf",
            b"\xed\x80\x80",
            b"\xed\x9f\xbf",
            b"\xee\x80\x80",
            b"\xef\xbf\xbf",
            b"\xf0\x90\x80\x80",
            b"\xf0\xbf\xbf\xbf",
            b"\xf1\x80\x80\x80",
            b"\xf3\xbf\xbf\xbf",
            b"\xf4\x80\x80\x80",
            b"\xf4\x8f\xbf\xbf",
        ] {
            assert!(text_of(bytes).is_ok(), "{bytes:02x?}");
        }
        for bytes in [
            &b"\x80"[..],
            b"\xbf",
            b"\xc0\x80",
            b"\xc1\xbf",
            b"\xc2\x7e",
            b"\xc2\xc0",
            b"\xc2",
            b"\xe0\x9f\xbf",
            b"\xe0\xc0\x80",
            b"\xe1\x80\xc0",
            b"\xe1\x80",
            b"\xed\xa0\x80",
            b"\xed\xbf\xbf",
            b"\xf0\x8f\xbf\xbf",
            b"\xf0\xc0\x80\x80",
            b"\xf3\x80\x80",
            b"\xf4\x90\x80\x80",
            b"\xf5\x80\x80\x80",
            b"\xff",
        ] {
            assert_eq!(text_of(bytes), Err(Fault::Malformed(1)), "{bytes:02x?}");
        }
        for byte in 0..=0x7f {
            let wanted = if byte < 0x20 || byte == 0x7f {
                Some(Fault::Control(1, byte))
            } else {
                None
            };
            assert_eq!(text_of(&[byte]).err(), wanted, "{byte:02x}");
        }
    }
}
