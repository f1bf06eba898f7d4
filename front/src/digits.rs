//! Lower-case hexadecimal digits, as plans and sheets are written.

/// The bytes that a line of lower-case hexadecimal digits gives.
pub fn bytes_of(line: &[u8]) -> Option<Vec<u8>> {
    if !line.len().is_multiple_of(2) {
        return None;
    }
    let pairs = line.chunks(2);
    pairs
        .map(|pair| Some(16 * digit(pair[0])? + digit(pair[1])?))
        .collect()
}

/// The two lower-case hexadecimal digits that give a byte.
pub fn digits_of(byte: u8) -> [u8; 2] {
    const DIGITS: &[u8; 16] = b"0123456789abcdef";
    [byte >> 4, byte & 0x0f].map(|value| DIGITS[usize::from(value)])
}

/// The value of a lower-case hexadecimal digit.
pub fn digit(character: u8) -> Option<u8> {
    match character {
        b'0'..=b'9' => Some(character - b'0'),
        b'a'..=b'f' => Some(character - b'a' + 10),
        _ => None,
    }
}

#[cfg(test)]
mod tests {
    use super::*;

    #[test]
    fn two_digits_are_a_byte_and_nothing_else_is() {
        assert_eq!(bytes_of(b"09afc0"), Some(vec![0x09, 0xaf, 0xc0]));
        assert_eq!(bytes_of(b""), Some(Vec::new()));
        for line in ["0", "0a1", "0A", "0g", "0/", "0:", "0`", " 0"] {
            assert_eq!(bytes_of(line.as_bytes()), None, "{line}");
        }
    }

    #[test]
    fn each_byte_is_given_by_its_digits() {
        assert_eq!(digits_of(0x0a), *b"0a");
        assert_eq!(digits_of(0xf9), *b"f9");
        for byte in 0..=u8::MAX {
            assert_eq!(bytes_of(&digits_of(byte)), Some(vec![byte]));
        }
    }
}
