//! Refusals in words: where the fault stands in the text as it was written, and what it is.

use crate::digits::{bytes_of, digit};
use crate::labels::{Fault, Labels, LONGEST};
use crate::sections::{Frame, LABEL, OFFER};
use crate::sheet::Refusal;
use crate::text::{Line, Text};

/// Where a refusal points.
#[derive(Debug, PartialEq, Eq)]
pub enum Place {
    Text,
    Line(usize),
    End,
}

/// A refusal as people are told it.
#[derive(Debug, PartialEq, Eq)]
pub struct Account {
    pub number: u8,
    pub place: Place,
    pub reason: String,
}

/// The account of a refusal, or nothing where no text, or not this one, is refused so: a wrong
/// sheet must not be told as if it were a right one.
pub fn account(refusal: &Refusal, text: &Text) -> Option<Account> {
    let number = refusal.number;
    let line = usize::from(refusal.line);
    let (place, reason) = match number {
        0 => return None,
        1 | 14 if line == 0 => (Place::Text, reason(number, &[]).to_owned()),
        1 | 14 => return None,
        12 if text.next_line() == Some(line) => (Place::End, reason(number, &[]).to_owned()),
        12 => return None,
        _ => {
            let there = text.line(line)?;
            let frame = frame(&there).unwrap_or_default();
            let reason = match (number, &frame[..]) {
                (2, _) => faults(&there)?,
                (4 | 7 | 8, [LABEL, ..]) | (17 | 18, _) => of_label(number, line, text)?,
                (16, frame) if !offers_nothing(frame) => return None,
                (_, frame) => reason(number, frame).to_owned(),
            };
            (Place::Line(there.number), reason)
        }
    };
    Some(Account {
        number,
        place,
        reason,
    })
}

/// The reason that stands for a refusal's number at a frame, unless the line or a label has reasons
/// of its own.
fn reason(number: u8, frame: &[u8]) -> &'static str {
    match number {
        1 => "the text is empty or longer than 16,384 bytes",
        3 => match frame {
            [OFFER, ..] => {
                "an offer isn't allowed at this point: offers stand behind the free names, before \
                 the labels and the tree"
            }
            [LABEL, ..] => {
                "a label isn't allowed at this point: labels stand behind the offers, before the \
                 tree"
            }
            _ => "the line's first byte isn't allowed at this point",
        },
        4 => "the line has the wrong number of bytes for its first one",
        5 => "the edition is another than 01",
        6 => "the number of channels, binders, levels or free names is outside its limits",
        7 => {
            "a name is over 63, or a channel, an offered handle, a binder or a level is higher \
             than the head allows"
        }
        8 => "the free names, or the channels of the offers, are not strictly ascending",
        9 => "a name is used that has no meaning there",
        10 => "this is the 257th node",
        11 => "this node stands at depth 33",
        12 => "the text ends before the tree is closed",
        13 => "there is more text after the tree has closed",
        14 => "more rounds are needed than were allowed",
        16 => "an offer has no handle",
        _ => "for a reason that this program does not know",
    }
}

/// Whether a frame is an offer without a handle.
fn offers_nothing(frame: &[u8]) -> bool {
    matches!(frame, [OFFER, _, 0, 0, 0, 0])
}

/// The frame of a line, if it is a line of digits.
fn frame(line: &Line) -> Option<Frame> {
    let characters = line.characters.iter();
    let digits: Vec<u8> = characters.map(|character| character.byte).collect();
    line.ended.then(|| bytes_of(&digits)).flatten()
}

/// Why the label on a line of the plan's text is refused with a number; nothing where its first
/// fault has another, or where it has none.
fn of_label(number: u8, line: usize, text: &Text) -> Option<String> {
    let fault = Labels::last_fault(&text.up_to(line))?;
    if fault.refusal() != number {
        return None;
    }
    Some(match fault {
        Fault::Length(0) => format!("a label has 1 to {LONGEST} bytes, and this one has none"),
        Fault::Length(bytes) => {
            format!("a label has 1 to {LONGEST} bytes, and this one has {bytes}")
        }
        Fault::Kind(kind) => format!(
            "a label is of kind 00 (channel), 01 (binder) or 02 (level), and this one of {kind:02x}"
        ),
        Fault::Number(lacking) => lacking,
        Fault::Order => {
            "the labels are not strictly ascending, by kind and then by number".to_owned()
        }
        Fault::Malformed(byte) => {
            format!("the label is not well-formed UTF-8 from its byte {byte} on")
        }
        Fault::Control(byte, code) => {
            format!("the label has a control character (code {code:02x}, byte {byte})")
        }
        Fault::Repeated(lines, kind) => {
            let earlier = text.line(line.checked_sub(lines)?)?.number;
            let kind = kind.word();
            format!("the same label stands at line {earlier} already, for another {kind}")
        }
    })
}

/// What makes a line no line of digits, all of it, or nothing.
fn faults(line: &Line) -> Option<String> {
    let mut faults = Vec::new();
    let bad = |byte| digit(byte).is_none();
    if let Some(character) = line.characters.iter().find(|character| bad(character.byte)) {
        faults.push(format!(
            "has a character other than 0-9 a-f ({}, place {})",
            shown(character.byte),
            character.place
        ));
    }
    if !line.characters.len().is_multiple_of(2) {
        faults.push("has an odd number of characters".to_owned());
    }
    if line.characters.is_empty() {
        faults.push("is empty".to_owned());
    }
    if !line.ended {
        faults.push("lacks its line feed".to_owned());
    }
    let last = faults.pop()?;
    if faults.is_empty() {
        Some(format!("the line {last}"))
    } else {
        Some(format!("the line {} and {last}", faults.join(", ")))
    }
}

/// A character as it can be shown in a line: itself, or its code in hexadecimal.
fn shown(byte: u8) -> String {
    match byte {
        b' '..=b'~' => format!("'{}'", char::from(byte)),
        _ => format!("code {byte:02x}"),
    }
}

#[cfg(test)]
mod tests {
    use super::*;

    fn told(number: u8, line: u16, text: &str) -> Option<(Place, String)> {
        let text = Text::new(text.as_bytes().to_vec(), None);
        let account = account(&Refusal { number, line }, &text)?;
        Some((account.place, account.reason))
    }

    #[test]
    fn every_fault_of_a_line_is_told() {
        for (text, reason) in [
            ("10", "the line lacks its line feed"),
            ("\n", "the line is empty"),
            ("101\n", "the line has an odd number of characters"),
            (
                "10x0\n",
                "the line has a character other than 0-9 a-f ('x', place 3)",
            ),
            (
                "10\r",
                "the line has a character other than 0-9 a-f (code 0d, place 3), \
                 has an odd number of characters and lacks its line feed",
            ),
            (
                "1\x1f\n",
                "the line has a character other than 0-9 a-f (code 1f, place 2)",
            ),
            (
                " 1\n",
                "the line has a character other than 0-9 a-f (' ', place 1)",
            ),
            (
                "1~\n",
                "the line has a character other than 0-9 a-f ('~', place 2)",
            ),
            (
                "1\x7f\n",
                "the line has a character other than 0-9 a-f (code 7f, place 2)",
            ),
        ] {
            assert_eq!(
                told(2, 1, text),
                Some((Place::Line(1), reason.to_owned())),
                "{text:?}"
            );
        }
        assert_eq!(told(2, 1, "10\n"), None);
    }

    #[test]
    fn a_source_is_told_its_own_line_and_place() {
        let (place, reason) = told(2, 2, "# x\n10\n#\n 1 g # end\n").unwrap();
        assert_eq!(place, Place::Line(4));
        assert!(reason.ends_with("('g', place 4)"), "{reason}");
        assert_eq!(told(9, 2, "#\n10\n#\n11\n").unwrap().0, Place::Line(4));
        assert_eq!(told(9, 3, "#\n10\n#\n11\n"), None);
    }

    #[test]
    fn the_refusals_of_an_offer_speak_of_it() {
        let plan = "010103000000\n030100000002\n030200000000\n10\n";
        let (place, reason) = told(16, 3, plan).unwrap();
        assert_eq!(place, Place::Line(3));
        assert_eq!(reason, "an offer has no handle");
        let source = "# x\n010120000000\n\n 03 1F 0000 0000 # none\n10";
        assert_eq!(told(16, 2, source).unwrap().0, Place::Line(4));
        for (number, what) in [
            (3, "offers stand behind the free names"),
            (7, "an offered handle"),
            (8, "the channels of the offers"),
        ] {
            let (place, reason) = told(number, 3, plan).unwrap();
            assert_eq!(place, Place::Line(3));
            assert!(reason.contains(what), "{reason}");
        }
        let (_, reason) = told(3, 4, plan).unwrap();
        assert_eq!(reason, "the line's first byte isn't allowed at this point");
    }

    /// A plan of 10 channels, 3 binders and levels 0 to 4: labels for channels 2 and 9, binder 1 and
    /// level 2, and on line 6 this one.
    fn with_label(last: &str) -> String {
        format!("01010a030400\n0400026d\n0400096e\n0401016d\n0402026f\n{last}\n10\n")
    }

    #[test]
    fn the_refusals_of_a_label_say_what_is_wrong_with_it() {
        for (number, label, reason) in [
            (4, "04", "a label has 1 to 60 bytes, and this one has none"),
            (
                4,
                "0402",
                "a label has 1 to 60 bytes, and this one has none",
            ),
            (
                4,
                "040203",
                "a label has 1 to 60 bytes, and this one has none",
            ),
            (
                4,
                &["040203", &"61".repeat(61)].concat(),
                "a label has 1 to 60 bytes, and this one has 61",
            ),
            (
                7,
                "041a006d",
                "a label is of kind 00 (channel), 01 (binder) or 02 (level), and this one of 1a",
            ),
            (
                7,
                "04000a6d",
                "the plan has no channel 10: its channels are 0 to 9",
            ),
            (
                7,
                "0401036d",
                "the plan has no binder 3: its binders are 0 to 2",
            ),
            (
                7,
                "0402056d",
                "the plan has no level 5: its levels are 0 to 4",
            ),
            (
                8,
                "0402026d",
                "the labels are not strictly ascending, by kind and then by number",
            ),
            (
                8,
                "0400016f",
                "the labels are not strictly ascending, by kind and then by number",
            ),
            (
                17,
                "0402036161ff",
                "the label is not well-formed UTF-8 from its byte 3 on",
            ),
            (
                17,
                "0402076d1b6d",
                "the label has a control character (code 1b, byte 2)",
            ),
            (
                18,
                "0402076f",
                "the same label stands at line 5 already, for another level",
            ),
        ] {
            let plan = with_label(label);
            assert_eq!(
                told(number, 6, &plan),
                Some((Place::Line(6), reason.to_owned())),
                "{label}"
            );
            // No other refusal of a label is this one's, nor this one another line's.
            for other in [4, 7, 8, 17, 18] {
                for line in 1..=8 {
                    let believed = told(other, line, &plan).is_some();
                    let own = (other, line) == (number, 6);
                    let of_others = other < 16 && [1, 7].contains(&line);
                    assert_eq!(believed, own || of_others, "{label}: {other} at {line}");
                }
            }
        }
        for label in ["0402036d", "040207c3a9"] {
            for number in [4, 7, 8, 17, 18] {
                assert_eq!(told(number, 6, &with_label(label)), None, "{label}");
            }
        }
        let (place, reason) = told(3, 6, &with_label("0402036d")).unwrap();
        assert_eq!(place, Place::Line(6));
        assert!(
            reason.contains("labels stand behind the offers"),
            "{reason}"
        );
    }

    #[test]
    fn a_label_that_stands_already_is_shown_where_it_was_written() {
        let source = "# labels\n01 01 0a 03 04 00\n\n04 00 02 \"m\" # works\n\n04 00 03 \"n\"\n\
                      # again\n04 00 09 6D\n04 01 00 \"o\"\n10\n";
        let (place, reason) = told(18, 4, source).unwrap();
        assert_eq!(place, Place::Line(8));
        assert_eq!(
            reason,
            "the same label stands at line 4 already, for another channel"
        );
        let source = "# one\n01 01 0a 03 04 00\n04 00 02 \"m\tn\"\n10\n";
        let (place, reason) = told(17, 2, source).unwrap();
        assert_eq!(place, Place::Line(3));
        assert_eq!(
            reason,
            "the label has a control character (code 09, byte 2)"
        );
    }

    #[test]
    fn a_place_behind_quotes_is_that_of_the_line_as_it_was_written() {
        for (line, place) in [
            ("04 02 01 \"મીના\" x # \"", "('x', place 17)"),
            ("04 02 01 \"મીના", "('\"', place 10)"),
            ("04 02 01 \"A\" # \" ", "none"),
            ("04 02 0 \"A\"", "('\"', place 9)"),
        ] {
            let source = format!("# x\n010101000100\n{line}\n10\n");
            match told(2, 2, &source) {
                Some((_, reason)) => assert!(reason.contains(place), "{line}: {reason}"),
                None => assert_eq!(place, "none", "{line}"),
            }
        }
    }

    #[test]
    fn some_refusals_have_no_line() {
        assert_eq!(told(1, 0, "").unwrap().0, Place::Text);
        assert_eq!(told(14, 0, "10\n").unwrap().0, Place::Text);
        assert_eq!(told(12, 2, "010101000000\n").unwrap().0, Place::End);
        let unknown = "for a reason that this program does not know";
        assert_eq!(told(99, 1, "10\n").unwrap().1, unknown);
    }

    #[test]
    fn a_refusal_that_no_such_text_has_is_not_told() {
        for (number, line, text) in [
            (0, 0, "10\n"),
            (0, 1, "10\n"),
            (1, 1, "10\n"),
            (14, 1, "10\n"),
            (2, 0, "1x\n"),
            (9, 0, "10\n"),
            (13, 0, "10\n"),
            (99, 0, "10\n"),
            (9, 2, "10\n"),
            (12, 0, "010101000000\n"),
            (12, 1, "010101000000\n"),
            (12, 3, "010101000000\n"),
            (12, 1, ""),
            // A last line that lacks its line feed is refused 2, and never 12.
            (12, 2, "010101000000\n11"),
            (12, 3, "010101000000\n11"),
            // In a source the lines count that its plan has.
            (12, 4, "# x\n010101000000\n11\n"),
            // Only an offer without a handle is refused 16.
            (16, 0, "010101000000\n030000000000\n"),
            (16, 1, "010101000000\n030000000000\n"),
            (16, 3, "010101000000\n030000000000\n"),
            (16, 2, "010101000000\n030000000001\n"),
            (16, 2, "010101000000\n030001000000\n"),
            (16, 2, "010101000000\n020000000000\n"),
            (16, 2, "010101000000\n0300000000\n"),
            (16, 2, "010101000000\n03000000000000\n"),
            (16, 2, "010101000000\n03000000000\n"),
            (16, 2, "010101000000\n03000000000g\n"),
            (16, 2, "010101000000\n030000000000"),
            (16, 2, "010101000000\n\n"),
            (16, 3, "# x\n010101000000\n030000000000\n"),
        ] {
            assert_eq!(
                told(number, line, text),
                None,
                "{number} at {line}: {text:?}"
            );
        }
        let source = "# x\n010101000000\n11";
        assert_eq!(told(12, 3, source).unwrap().0, Place::End);
    }
}
