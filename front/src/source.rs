//! A line of a source, and what it gives to the plan's text: no remark, no
//! blanks, digits in lower case, and quoted text in digits.

use crate::digits::digits_of;
use crate::text::Character;

/// What a source's line gives to the plan's text; nothing where it has no more than blanks and a
/// remark. Text between quotes gives the digits of its bytes, each digit with the byte's place. A
/// quote stays as it stands, which no plan allows, where it is not closed on the line, and where it
/// would part a byte's two digits.
pub fn given(line: &[Character]) -> Option<Vec<Character>> {
    let mut given = Vec::new();
    let mut nothing = true;
    let mut rest = line;
    while let [first, behind @ ..] = rest {
        rest = behind;
        match first.byte {
            b'#' => break,
            b' ' | b'\t' => continue,
            b'"' if given.len().is_multiple_of(2) => match quoted(behind) {
                Some((text, after)) => {
                    given.extend(text.iter().flat_map(in_digits));
                    rest = after;
                }
                None => given.push(*first),
            },
            byte => given.push(Character {
                byte: lower_digit(byte),
                ..*first
            }),
        }
        nothing = false;
    }
    (!nothing).then_some(given)
}

/// The text up to the next quote, and what stands behind that, if there is a quote.
fn quoted(behind: &[Character]) -> Option<(&[Character], &[Character])> {
    let end = behind.iter().position(|character| character.byte == b'"')?;
    Some((&behind[..end], &behind[end + 1..]))
}

/// The two digits of a byte, in its place.
fn in_digits(character: &Character) -> [Character; 2] {
    digits_of(character.byte).map(|byte| Character { byte, ..*character })
}

/// A digit A to F as a plan's text has it, and any other byte as it is.
fn lower_digit(byte: u8) -> u8 {
    match byte {
        b'A'..=b'F' => byte.to_ascii_lowercase(),
        _ => byte,
    }
}

#[cfg(test)]
mod tests {
    use super::*;

    fn placed(line: &[u8]) -> Vec<Character> {
        let numbered = line.iter().zip(1..);
        numbered
            .map(|(&byte, place)| Character { byte, place })
            .collect()
    }

    fn bytes(line: &[u8]) -> Option<Vec<u8>> {
        let given = given(&placed(line))?.into_iter();
        Some(given.map(|character| character.byte).collect())
    }

    #[test]
    fn text_between_quotes_gives_its_bytes_in_digits() {
        for (line, wanted) in [
            (r#"04 02 01 "A b""#, "0402014120 62"),
            (r#"04 02 01 "મ""#, "040201 e0aaae"),
            ("\"\u{10ffff}\"", "f48fbfbf"),
            // Blanks, tabs and a # stand for themselves in quotes, and A to F for letters.
            ("04\t0000 \" \t# #A\" 4F # x", "040000 20 09 23 20 23 41 4f"),
            // No sign stands for another in quotes.
            (r#"04 00 00 "\n\x41""#, "040000 5c6e5c783431"),
            // Several texts on a line, and digits between them.
            (r#""a""b" 22 "c""#, "61622263"),
            // What stands behind a remark's # is none.
            (r#"0400 00"a" # "b" "c"#, "04000061"),
            (r#"10 # "a""#, "10"),
        ] {
            let wanted: Vec<u8> = wanted.bytes().filter(|byte| *byte != b' ').collect();
            assert_eq!(bytes(line.as_bytes()), Some(wanted), "{line}");
        }
        assert_eq!(bytes(b"\"\xff\r\xe0\""), Some(b"ff0de0".to_vec()));
    }

    #[test]
    fn a_quote_that_is_not_closed_stays() {
        for (line, wanted) in [
            (r#"04 02 01 "ab"#, r#"040201"ab"#),
            (r#"04 02 01 ab""#, r#"040201ab""#),
            (r#"04 02 01 "A # b"#, r#"040201"a"#),
            (r#"""#, r#"""#),
            (r#""a" " b"#, r#"61"b"#),
        ] {
            assert_eq!(bytes(line.as_bytes()), Some(wanted.into()), "{line}");
        }
    }

    #[test]
    fn quotes_part_no_byte() {
        for (line, wanted) in [
            (r#"04 02 0 "ab""#, r#"04020"ab""#),
            (r#"04 02 0 "ab" 1"#, r#"04020"ab"1"#),
            (r#"0 "a # b""#, r#"0"a"#),
        ] {
            assert_eq!(bytes(line.as_bytes()), Some(wanted.into()), "{line}");
        }
    }

    #[test]
    fn quotes_around_nothing_are_something() {
        assert_eq!(bytes(br#""""#), Some(Vec::new()));
        assert_eq!(bytes(br#" "" # x"#), Some(Vec::new()));
        assert_eq!(bytes(br#"04 00 00 """#), Some(b"040000".to_vec()));
        for line in ["", " \t ", "#", " # \"a\""] {
            assert_eq!(bytes(line.as_bytes()), None, "{line:?}");
        }
    }

    #[test]
    fn what_is_given_keeps_its_place() {
        let given = given(&placed(b"0 1 \"a\" F")).unwrap();
        let places: Vec<usize> = given.iter().map(|character| character.place).collect();
        assert_eq!(places, [1, 3, 6, 6, 9]);
    }
}
