//! Damaging a plan's text: its lines, its bytes and its length.

use crate::chance::Chance;
use crate::reading::LONGEST_TEXT;
use crate::records::LONGEST_RECORD_TEXT;

/// Damages the lines of a text in one way; each line is given with its line
/// feed, and there is at least one.
pub fn damage_lines(lines: &mut Vec<Vec<u8>>, chance: &mut Chance) {
    let place = chance.below(lines.len());
    let other = chance.below(lines.len());
    match chance.below(12) {
        0 => {
            lines.remove(place);
        }
        1 => lines.insert(place, lines[place].clone()),
        2 => lines.swap(place, other),
        3 => {
            let moved = lines.remove(place);
            lines.insert(other, moved);
        }
        4 => lines.insert(place, b"\n".to_vec()),
        5 => lines[place].make_ascii_uppercase(),
        6 => {
            lines[place].remove(0);
        }
        7 => lines.truncate(place),
        8 => {
            let ending: [&[u8]; 10] = [
                b"10\n",
                b"11\n",
                b"10",
                b"\n",
                b"1",
                b" ",
                b"zz\n",
                b"020000\n",
                b"030000000001\n",
                b"04000061\n",
            ];
            lines.push(chance.one_of(&ending).to_vec());
        }
        9 => {
            let end = lines[place].len() - 1;
            lines[place].insert(end, chance.one_of(b"\r 0fF"));
        }
        10 => {
            let from = chance.below(place + 1);
            let repeated = lines[from..=place].to_vec();
            lines.splice(place..place, repeated);
        }
        _ => lines.insert(place, chance.one_of(&[b"0A\n", b"1F\n", b"1g\n"]).to_vec()),
    }
}

/// Damages the bytes of a text in one way.
pub fn damage_bytes(text: &mut Vec<u8>, chance: &mut Chance) {
    if text.is_empty() {
        text.push(chance.byte());
        return;
    }
    let place = chance.below(text.len());
    match chance.below(10) {
        0..=1 => text[place] = chance.one_of(b"0123456789abcdef"),
        2 => text[place] = chance.one_of(b"\n\r gAF/:`\0\x7f\xff"),
        3 => text[place] = chance.byte(),
        4 => {
            text.remove(place);
        }
        5 => text.insert(place, text[place]),
        6 => text.insert(place, chance.one_of(b"0123456789abcdef\nG")),
        7 => text.truncate(place),
        8 => {
            text.pop();
        }
        _ => {
            let other = chance.below(text.len());
            text.swap(place, other);
        }
    }
}

/// Gives a text another length, empty or at and past the limits, by putting
/// more of the same or something else after it or before it.
pub fn change_length(text: &mut Vec<u8>, chance: &mut Chance) {
    let length = match chance.below(12) {
        0..=2 => 0,
        3..=7 => chance.one_of(&[LONGEST_TEXT - 1, LONGEST_TEXT, LONGEST_TEXT + 1]),
        8 => chance.between(1, 3),
        9 => chance.between(1, LONGEST_TEXT),
        10 => chance.between(LONGEST_TEXT + 1, LONGEST_RECORD_TEXT),
        _ => LONGEST_RECORD_TEXT - chance.below(2),
    };
    let padding: Vec<u8> = match chance.below(5) {
        0 => text.clone(),
        1 => b"11\n".to_vec(),
        2 => b"15\n10\n".to_vec(),
        3 => b"0".to_vec(),
        _ => (0..64).map(|_| chance.byte()).collect(),
    };
    let missing = length.saturating_sub(text.len());
    let padding = padding.into_iter().cycle().take(missing);
    let place = if chance.percent(80) { text.len() } else { 0 };
    text.splice(place..place, padding);
    text.truncate(length);
}
