//! Texts as people write them: a plan's text, taken as it stands, or a source,
//! a plan's text with remarks; and which line of the one is which of the other.

use std::borrow::Cow;

use crate::source;

const BYTE_ORDER_MARK: &[u8] = b"\xef\xbb\xbf";

/// The two forms in which a plan is written.
#[derive(Clone, Copy, Debug, PartialEq, Eq)]
pub enum Form {
    Plan,
    Source,
}

impl Form {
    /// The form that a text's first bytes tell: a remark or a byte order mark begins a source.
    fn of(written: &[u8]) -> Form {
        if written.starts_with(b"#") || written.starts_with(BYTE_ORDER_MARK) {
            Form::Source
        } else {
            Form::Plan
        }
    }
}

/// A text as it was written, with its form.
pub struct Text {
    written: Vec<u8>,
    form: Form,
}

/// A line of the plan's text, with its number, from 1, in the text as it was written.
#[derive(Debug, PartialEq, Eq)]
pub struct Line {
    pub number: usize,
    pub characters: Vec<Character>,
    pub ended: bool,
}

/// A byte of the plan's text, with the place of its character, from 1, in the line as it was written.
#[derive(Clone, Copy, Debug, PartialEq, Eq)]
pub struct Character {
    pub byte: u8,
    pub place: usize,
}

impl Text {
    /// The text in the form that is asked for, or else in the one that its first bytes tell.
    pub fn new(written: Vec<u8>, form: Option<Form>) -> Text {
        let form = form.unwrap_or_else(|| Form::of(&written));
        Text { written, form }
    }

    /// Whether the text is a source.
    pub fn is_source(&self) -> bool {
        self.form == Form::Source
    }

    /// The plan's text, for the proved program to judge.
    pub fn plan(&self) -> Cow<'_, [u8]> {
        match self.form {
            Form::Plan => Cow::Borrowed(&self.written),
            Form::Source => Cow::Owned(self.lines().flat_map(Line::bytes).collect()),
        }
    }

    /// The line of the plan's text with this number, from 1, if there is one.
    pub fn line(&self, number: usize) -> Option<Line> {
        self.lines().nth(number.checked_sub(1)?)
    }

    /// The plan's text up to the line with this number, and with it.
    pub fn up_to(&self, number: usize) -> Vec<u8> {
        self.lines().take(number).flat_map(Line::bytes).collect()
    }

    /// The number of the line that would come next; nothing where a line is still unended or there
    /// is none at all.
    pub fn next_line(&self) -> Option<usize> {
        let (last, next) = self.lines().zip(2..).last()?;
        last.ended.then_some(next)
    }

    /// The lines of the plan's text.
    fn lines(&self) -> impl Iterator<Item = Line> + '_ {
        let written = match self.form {
            Form::Plan => &self.written,
            Form::Source => self
                .written
                .strip_prefix(BYTE_ORDER_MARK)
                .unwrap_or(&self.written),
        };
        let numbered = written.split_inclusive(|byte| *byte == b'\n').zip(1..);
        numbered.filter_map(|(line, number)| match self.form {
            Form::Plan => Some(as_it_stands(line, number)),
            Form::Source => given_by(line, number),
        })
    }
}

impl Line {
    /// The line's bytes, with its line feed if it has one.
    fn bytes(self) -> impl Iterator<Item = u8> {
        let feed = self.ended.then_some(b'\n');
        let characters = self.characters.into_iter();
        characters.map(|character| character.byte).chain(feed)
    }
}

/// The bytes of a line, each with the place of its character, from 1. What belongs to no character
/// counts byte by byte.
fn placed(line: &[u8]) -> Vec<Character> {
    let mut placed = Vec::with_capacity(line.len());
    let mut place = 0;
    for chunk in line.utf8_chunks() {
        let characters = chunk.valid().chars().map(char::len_utf8);
        let others = chunk.invalid().iter().map(|_| 1);
        for length in characters.chain(others) {
            place += 1;
            let bytes = &line[placed.len()..][..length];
            placed.extend(bytes.iter().map(|&byte| Character { byte, place }));
        }
    }
    placed
}

/// A line of a plan's text, which may be the last and lack its line feed.
fn as_it_stands(line: &[u8], number: usize) -> Line {
    let characters = line.strip_suffix(b"\n");
    Line {
        number,
        characters: placed(characters.unwrap_or(line)),
        ended: characters.is_some(),
    }
}

/// The line of the plan's text that a source's line gives, if it gives one.
fn given_by(line: &[u8], number: usize) -> Option<Line> {
    let line = line.strip_suffix(b"\n").unwrap_or(line);
    let line = line.strip_suffix(b"\r").unwrap_or(line);
    let characters = source::given(&placed(line))?;
    Some(Line {
        number,
        characters,
        ended: true,
    })
}

#[cfg(test)]
mod tests {
    use super::*;

    fn plan_of(written: &[u8], form: Option<Form>) -> Vec<u8> {
        Text::new(written.to_vec(), form).plan().into_owned()
    }

    #[test]
    fn first_bytes_tell_a_source() {
        for (written, source) in [
            (&b"# 10\n"[..], true),
            (b"\xef\xbb\xbf10\n", true),
            (b" # 10\n", false),
            (b"10 # end\n", false),
            (b"\xef\xbb10\n", false),
            (b"", false),
        ] {
            assert_eq!(Text::new(written.to_vec(), None).is_source(), source);
        }
        assert!(Text::new(b"10\n".to_vec(), Some(Form::Source)).is_source());
        assert!(!Text::new(b"# 10\n".to_vec(), Some(Form::Plan)).is_source());
    }

    #[test]
    fn a_plan_is_taken_as_it_stands() {
        let written = b"0A \r\n\n# x\n10";
        assert_eq!(plan_of(written, None), written);
        let text = Text::new(written.to_vec(), None);
        let last = text.line(4).unwrap();
        assert_eq!((last.number, last.ended), (4, false));
        assert_eq!(
            text.line(2).unwrap(),
            Line {
                number: 2,
                characters: Vec::new(),
                ended: true
            }
        );
        assert_eq!(text.line(5), None);
        assert_eq!(text.line(0), None);
    }

    #[test]
    fn a_source_loses_its_remarks_and_no_other_character() {
        for (written, plan) in [
            (
                &b"# all\r\n01 0A\tFf # x\r\n\r\n \t\n10"[..],
                &b"010aff\n10\n"[..],
            ),
            (b"\xef\xbb\xbf10\n", b"10\n"),
            (b"10\r # x\n", b"10\r\n"),
            (b"10\r\r\n", b"10\r\n"),
            (b"\xef\xbb\xbf\xef\xbb\xbf10\n", b"\xef\xbb\xbf10\n"),
            (b"1G\n", b"1G\n"),
            (b"# nothing", b""),
            (b"\"10\"\r\n\"\"\r\n\"1\n0\"\n", b"3130\n\n\"1\n0\"\n"),
        ] {
            assert_eq!(plan_of(written, Some(Form::Source)), plan);
        }
    }

    #[test]
    fn each_byte_of_a_source_is_kept_dropped_or_lowered() {
        // Within a line, what takes the place of the byte, and what it leaves of the rest.
        for byte in 0..=u8::MAX {
            let wanted = match byte {
                b'\n' => b"1\n0\n".to_vec(),
                b'#' => b"1\n".to_vec(),
                b' ' | b'\t' => b"10\n".to_vec(),
                b'A' => b"1a0\n".to_vec(),
                b'B' => b"1b0\n".to_vec(),
                b'C' => b"1c0\n".to_vec(),
                b'D' => b"1d0\n".to_vec(),
                b'E' => b"1e0\n".to_vec(),
                b'F' => b"1f0\n".to_vec(),
                _ => vec![b'1', byte, b'0', b'\n'],
            };
            let written = [b'1', byte, b'0', b'\n'];
            assert_eq!(plan_of(&written, Some(Form::Source)), wanted, "{byte:02x}");
        }
        // Alone on a line, and at a line's end: there a carriage return goes as well.
        for byte in 0..=u8::MAX {
            let kept = match byte {
                b'\n' | b'\r' | b'#' | b' ' | b'\t' => None,
                b'A'..=b'F' => Some(byte + 0x20),
                _ => Some(byte),
            };
            let alone: Vec<u8> = kept.into_iter().flat_map(|byte| [byte, b'\n']).collect();
            let ending: Vec<u8> = [b'1'].into_iter().chain(kept).chain([b'\n']).collect();
            let source = Some(Form::Source);
            assert_eq!(plan_of(&[byte, b'\n'], source), alone, "{byte:02x}");
            assert_eq!(plan_of(&[b'1', byte, b'\n'], source), ending, "{byte:02x}");
            assert_eq!(plan_of(&[b'1', byte], source), ending, "{byte:02x}");
        }
    }

    #[test]
    fn a_line_comes_next_where_the_last_is_ended() {
        for (written, form, next) in [
            (&b""[..], Form::Plan, None),
            (b"\n", Form::Plan, Some(2)),
            (b"11\n10\n", Form::Plan, Some(3)),
            (b"11\n10", Form::Plan, None),
            (b"#\n11\n\n10", Form::Source, Some(3)),
            (b"#\n", Form::Source, None),
        ] {
            let text = Text::new(written.to_vec(), Some(form));
            assert_eq!(text.next_line(), next, "{written:?}");
        }
    }

    #[test]
    fn a_line_of_a_source_is_found_where_it_was_written() {
        let text = Text::new(b"#\n\n 1 0 # end\n#\n 1 x\n".to_vec(), None);
        assert_eq!(text.line(1).unwrap().number, 3);
        let line = text.line(2).unwrap();
        assert_eq!(line.number, 5);
        assert_eq!(
            line.characters[1],
            Character {
                byte: b'x',
                place: 4
            }
        );
        assert_eq!(text.line(3), None);
    }

    #[test]
    fn a_place_counts_characters() {
        let places = |line: &[u8]| {
            let placed = placed(line).into_iter();
            Vec::from_iter(placed.map(|character| character.place))
        };
        assert_eq!(places(b"1x"), [1, 2]);
        assert_eq!(
            places("é મx\u{10ffff}y".as_bytes()),
            [1, 1, 2, 3, 3, 3, 4, 5, 5, 5, 5, 6]
        );
        assert_eq!(places(b"\xffx\xe0\xaax\x80\x80"), [1, 2, 3, 4, 5, 6, 7]);
        for line in ["é મx", "", "\u{10ffff}"] {
            let bytes = placed(line.as_bytes()).into_iter();
            assert_eq!(Vec::from_iter(bytes.map(|c| c.byte)), line.as_bytes());
        }
    }

    #[test]
    fn a_text_is_cut_behind_a_line() {
        let text = Text::new(b"#\n01\n\n \"a\"\n1\n".to_vec(), None);
        assert_eq!(text.up_to(0), b"");
        assert_eq!(text.up_to(2), b"01\n61\n");
        assert_eq!(text.up_to(9), b"01\n61\n1\n");
        let text = Text::new(b"01\n61".to_vec(), None);
        assert_eq!(text.up_to(1), b"01\n");
        assert_eq!(text.up_to(2), b"01\n61");
    }
}
