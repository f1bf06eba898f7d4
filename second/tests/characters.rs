//! Which bytes are a character: every string of up to three bytes and those of
//! four bytes at the ends of the ranges, compared with the standard library.

use second::characters::first_character;
use second::labels::may_stand_in_a_label;

/// Checks one string of bytes: whether it may stand in a label, and the length of
/// the character it begins with.
fn check(bytes: &[u8]) {
    let text = std::str::from_utf8(bytes);
    let may = |text: &str| {
        text.chars()
            .all(|character| character >= ' ' && character != '\u{7f}')
    };
    assert_eq!(
        may_stand_in_a_label(bytes),
        text.is_ok_and(may),
        "{bytes:02x?}"
    );
    let first = (1..=bytes.len().min(4)).find(|length| {
        let beginning = std::str::from_utf8(&bytes[..*length]);
        beginning.is_ok_and(|text| text.chars().count() == 1)
    });
    assert_eq!(first_character(bytes), first, "{bytes:02x?}");
}

#[test]
fn every_string_of_up_to_three_bytes() {
    check(&[]);
    for first in 0..=255 {
        check(&[first]);
        for second in 0..=255 {
            check(&[first, second]);
            for third in 0..=255 {
                check(&[first, second, third]);
            }
        }
    }
}

#[test]
fn strings_of_four_and_five_bytes_at_the_ends_of_the_ranges() {
    let ends = [
        0x00, 0x1f, 0x20, 0x41, 0x7e, 0x7f, 0x80, 0x8f, 0x90, 0x9f, 0xa0, 0xbf, 0xc0, 0xc1, 0xc2,
        0xdf, 0xe0, 0xed, 0xef, 0xf0, 0xf4, 0xf5, 0xff,
    ];
    for first in 0..=255 {
        for second in 0..=255 {
            for third in ends {
                for fourth in ends {
                    check(&[first, second, third, fourth]);
                }
            }
        }
    }
    for first in ends {
        for second in ends {
            for third in ends {
                for fourth in ends {
                    for fifth in ends {
                        check(&[first, second, third, fourth, fifth]);
                    }
                }
            }
        }
    }
}

/// Every character that there is, alone and behind another.
#[test]
fn every_character() {
    for character in '\0'..=char::MAX {
        let text = format!("a{character}");
        check(&text.as_bytes()[1..]);
        check(text.as_bytes());
    }
}
