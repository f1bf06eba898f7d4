//! The word sheet: known ones, what is shown of a label, refusals, and that every
//! word sheet follows from the sheet and the labels of the same record.

use std::collections::BTreeMap;

use second::answer::{answer, LONGEST_ANSWER};
use second::drawing::Drawing;
use second::frames::decode;
use second::labels::shown;
use second::reach::reach;
use second::sheet::sheet;
use second::solving::AMPLE_ROUNDS;
use second::vectors::{text, vectors};
use second::vectors_of_words::all_labels;
use second::words::{words, LONGEST_WORDS};

/// Checks the word sheet that a text gets under an ample allowance.
#[track_caller]
fn expect_words(text: &[u8], line: &str) {
    let sheet = words(text, AMPLE_ROUNDS);
    assert_eq!(String::from_utf8_lossy(&sheet), format!("{line}\n"));
}

/// The plan in which level 1 sends handle 1 to level 0 on channel 0, with labels.
fn breaching(labels: &str) -> Vec<u8> {
    text(&format!(
        "010102010102 020000 020101 {labels} 15 1901 120001 10 1900 13000200 10"
    ))
}

/// The word of a label's line.
fn label(kind: u8, number: u8, label: &str) -> String {
    let digits: String = label.bytes().map(|byte| format!("{byte:02x}")).collect();
    format!("04{kind:02x}{number:02x}{digits} ")
}

#[test]
fn clear_plans() {
    expect_words(&text("010101000000 10"), "clear");
    expect_words(&text("010101000000 04000061 04020062 10"), "clear");
    expect_words(
        &text("010102010102 020000 020101 04020061 15 1900 120001 10 1901 13000200 10"),
        "clear",
    );
}

#[test]
fn a_breach_without_labels() {
    expect_words(
        &breaching(""),
        "breach level 1 to level 0 on channel 0: channel 1",
    );
    expect_words(
        &text("010120010602 02001f 02010a 15 1906 120001 10 1905 13000200 10"),
        "breach level 6 to level 5 on channel 31: channel 10",
    );
}

#[test]
fn a_breach_with_each_label() {
    let (channel, handle) = (label(0, 0, "дорога"), label(0, 1, "पता"));
    let (low, high) = (label(2, 0, "诊所"), label(2, 1, "🏛"));
    expect_words(
        &breaching(&channel),
        "breach level 1 to level 0 on дорога: channel 1",
    );
    expect_words(
        &breaching(&handle),
        "breach level 1 to level 0 on channel 0: पता",
    );
    expect_words(
        &breaching(&low),
        "breach level 1 to 诊所 on channel 0: channel 1",
    );
    expect_words(
        &breaching(&high),
        "breach 🏛 to level 0 on channel 0: channel 1",
    );
    expect_words(
        &breaching(&(channel + &handle + &low + &high)),
        "breach 🏛 to 诊所 on дорога: पता",
    );
}

#[test]
fn labels_that_are_not_named() {
    expect_words(
        &breaching(&(label(1, 0, "binder") + &label(2, 7, "outside"))),
        "breach level 1 to level 0 on channel 0: channel 1",
    );
}

#[test]
fn a_channel_that_is_its_own_handle() {
    let plan = |labels: &str| {
        text(&format!(
            "010101010101 020000 {labels} 15 1901 120000 10 1900 13000100 10"
        ))
    };
    expect_words(
        &plan(""),
        "breach level 1 to level 0 on channel 0: channel 0",
    );
    expect_words(
        &plan(&label(0, 0, "both")),
        "breach level 1 to level 0 on both: both",
    );
}

/// A label stands on the sheet as it is, whatever it reads like.
#[test]
fn labels_that_read_like_something_else() {
    let labels = label(0, 0, "channel 1") + &label(2, 0, " on : ") + &label(2, 1, "level 0");
    expect_words(
        &breaching(&labels),
        "breach level 0 to  on :  on channel 1: channel 1",
    );
}

#[test]
fn refusals() {
    for text in [
        &b""[..],
        b"010101000000\n10",
        &text("010101000000 10 10"),
        &text("010101000000"),
        &text("010101000000 030000000000 10"),
        &breaching("04000080"),
        &breaching("04000061 04000161"),
    ] {
        expect_words(text, "refused");
    }
    assert_eq!(words(&breaching(""), 3), b"refused\n");
    assert_eq!(
        words(&breaching(""), 4),
        words(&breaching(""), AMPLE_ROUNDS)
    );
    assert_eq!(words(&text("010101000000 10"), 0), b"refused\n");
}

/// Letters and then characters of one width: as many of them as fit.
#[test]
fn what_is_shown_of_labels_of_every_length() {
    for character in ["w", "ж", "પ", "💧"] {
        for letters in 0..=60 {
            for count in 0..=60 / character.len() {
                let label = "a".repeat(letters) + &character.repeat(count);
                let fitting = 24_usize.saturating_sub(letters) / character.len();
                let expected = "a".repeat(letters.min(24)) + &character.repeat(count.min(fitting));
                assert_eq!(shown(label.as_bytes()), expected.as_bytes(), "{label}");
            }
        }
    }
}

/// What comes behind the first character that does not fit is not shown, though it
/// would fit.
#[test]
fn nothing_is_shown_behind_the_cut() {
    for (label, expected) in [
        ("aaaaaaaaaaaaaaaaaaaaaaaжa", "aaaaaaaaaaaaaaaaaaaaaaa"),
        ("aaaaaaaaaaaaaaaaaaaaaaપa", "aaaaaaaaaaaaaaaaaaaaaa"),
        ("aaaaaaaaaaaaaaaaaaaaa💧a", "aaaaaaaaaaaaaaaaaaaaa"),
        ("aaaaaaaaaaaaaaaaaaaaaa💧жa", "aaaaaaaaaaaaaaaaaaaaaa"),
        (
            "aaaaaaaaaaaaaaaaaaaaaaae\u{301}",
            "aaaaaaaaaaaaaaaaaaaaaaae",
        ),
        (
            "👩\u{200d}👩\u{200d}👧\u{200d}👦",
            "👩\u{200d}👩\u{200d}👧\u{200d}",
        ),
    ] {
        assert_eq!(shown(label.as_bytes()), expected.as_bytes(), "{label}");
    }
}

#[test]
fn the_longest_word_sheet() {
    let shown = "पानी💧पा";
    let line = format!("breach 06{shown} to 05{shown} on 31{shown}: 30{shown}");
    expect_words(&all_labels(), &line);
    assert_eq!(line.len() + 1, LONGEST_WORDS);
}

/// The word sheet that follows from the lines of a sheet and the label lines of a
/// text, with the library's own characters.
fn from_sheet(sheet: &str, text: &[u8]) -> String {
    if sheet.starts_with("3f") {
        return "refused\n".to_string();
    }
    let Some(breach) = sheet.lines().find_map(|line| line.strip_prefix("3000")) else {
        return "clear\n".to_string();
    };
    let labels: BTreeMap<(u8, u8), String> = text
        .split_inclusive(|byte| *byte == b'\n')
        .filter_map(decode)
        .filter(|frame| frame[0] == 0x04)
        .map(|frame| {
            let label = String::from_utf8(frame[3..].to_vec()).expect("well formed");
            ((frame[1], frame[2]), label)
        })
        .collect();
    let name = |kind: u8, digits: &str| {
        let number = u8::from_str_radix(digits, 16).expect("digits");
        let Some(label) = labels.get(&(kind, number)) else {
            let word = if kind == 2 { "level" } else { "channel" };
            return format!("{word} {number}");
        };
        let mut label = label.clone();
        while label.len() > 24 {
            label.pop();
        }
        label
    };
    let (high, low) = (name(2, &breach[..2]), name(2, &breach[2..4]));
    let (channel, object) = (name(0, &breach[4..6]), name(0, &breach[6..]));
    format!("breach {high} to {low} on {channel}: {object}\n")
}

#[test]
fn word_sheets_follow_from_the_sheets_and_the_labels() {
    let mut beginnings: BTreeMap<String, u32> = BTreeMap::new();
    for record in Drawing::new(3).take(5_000).chain(vectors()) {
        let [sheet, reach] =
            [sheet, reach].map(|kind| kind(&record.text, record.allowance).into_bytes());
        let words = words(&record.text, record.allowance);
        let expected = from_sheet(&String::from_utf8_lossy(&sheet), &record.text);
        assert_eq!(String::from_utf8_lossy(&words), expected);
        let answer = answer(&record);
        assert!(words.len() <= LONGEST_WORDS && answer.len() <= LONGEST_ANSWER);
        assert_eq!(answer, [sheet, reach, words].concat());
        let first = expected.split_whitespace().next().expect("a word");
        *beginnings.entry(first.to_string()).or_default() += 1;
    }
    assert_eq!(beginnings.len(), 3);
    assert!(
        beginnings.values().all(|count| *count > 1_000),
        "{beginnings:?}"
    );
}
