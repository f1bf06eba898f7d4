//! The vectors about what is shown of labels: plans with a breach whose labels are
//! of every length and of every width of character, in many scripts.

use crate::labels::{LONGEST_LABEL, LONGEST_SHOWN};
use crate::vectors::text;
use crate::vectors_of_labels::{breaching, NAMED};

/// A character of each width from 1 to 4 bytes.
const CHARACTERS: [&str; 4] = ["w", "ж", "પ", "💧"];

/// The plans with a breach that show their labels, or as much as is shown of them.
pub fn shown_labels() -> Vec<Vec<u8>> {
    some_named()
        .into_iter()
        .chain(lengths())
        .chain(widths_at_the_cut())
        .chain(scripts())
        .map(|labels| breaching(&labels))
        .collect()
}

/// The plan with the most and the longest labels: 72 of 60 bytes, in a plan with a
/// breach from level 6 to level 5 on channel 31 of handle 30.
pub fn all_labels() -> Vec<u8> {
    let things = [(0, 32), (1, 32), (2, 8)];
    let labels = things.into_iter().flat_map(|(kind, count)| {
        (0..count).map(move |number| {
            let label = format!("{number:02}{}पानa", "पानी💧".repeat(3));
            line([kind, number], label.as_bytes())
        })
    });
    let labels: String = labels.collect();
    text(&format!(
        "010120200602 02001f 02011e {labels} 15 1906 120001 10 1905 13000200 10"
    ))
}

/// Labels for each choice of the four things that the breach names.
fn some_named() -> Vec<String> {
    let choices = 0..16;
    let chosen = |choice: usize| {
        let things = (0..4).filter(move |place| choice >> place & 1 == 1);
        things
            .map(|place| line(NAMED[place], CHARACTERS[place].as_bytes()))
            .collect()
    };
    choices.map(chosen).collect()
}

/// Labels of every length from 1 to 61 bytes, four at a time, one of each width of
/// character with as many letters before as the length asks for; each thing gets
/// the widths in turn.
fn lengths() -> Vec<String> {
    let label = |length: usize, place: usize| {
        let width = 1 + (length + place) % 4;
        let letter = ["a", "b", "c", "d"][place];
        letter.repeat(length % width) + &CHARACTERS[width - 1].repeat(length / width)
    };
    let all = (1..=LONGEST_LABEL + 1).map(|length| {
        let labels = [0, 1, 2, 3].map(|place| label(length, place));
        all_named(labels.each_ref().map(String::as_str))
    });
    all.collect()
}

/// Labels of 20 to 24 letters and then a character of 2, 3 or 4 bytes, with
/// nothing, a letter or another such character after it, four at a time.
fn widths_at_the_cut() -> Vec<String> {
    let mut labels = Vec::new();
    for letters in LONGEST_SHOWN - 4..=LONGEST_SHOWN {
        for character in &CHARACTERS[1..] {
            for after in ["", "z", character] {
                labels.push("a".repeat(letters) + character + after);
            }
        }
    }
    let four = |start: usize| {
        let chosen = [0, 1, 2, 3].map(|place| labels[(start + place) % labels.len()].as_str());
        all_named(chosen)
    };
    (0..labels.len()).step_by(4).map(four).collect()
}

/// Labels that people might give, and some that are alike in what is shown.
fn scripts() -> Vec<String> {
    vec![
        all_named([
            "पीने के पानी की शिकायतें",
            "घर का संपर्क नंबर",
            "स्वास्थ्य केंद्र",
            "जिला कार्यालय",
        ]),
        all_named(["પાણી પુરવઠા વિભાગ", "ઘરનો સંપર્ક", "આરોગ્ય કેન્દ્ર", "જિલ્લા કચેરી"]),
        all_named([
            "Водоснабжение района",
            "Номер семьи",
            "Медпункт",
            "Районная управа, второй этаж",
        ]),
        all_named(["طلبات المياه", "رقم الأسرة", "المركز الصحي", "مكتب المحافظة"]),
        all_named([
            "北村给水站的留言",
            "住户电话",
            "卫生所",
            "区办事处第二办公室",
        ]),
        all_named(["💧💧💧💧💧💧💧", "👩‍👩‍👧‍👦👩‍👩‍👧‍👦", "🏥🇮🇳🇮🇳🇮🇳", "🏛️🏛️🏛️🏛️"]),
        all_named([
            "Dépôt d'été à Besançon",
            "Ménage nº 5",
            "Santé",
            "Préfecture déléguée à côté",
        ]),
        all_named([
            "water",
            "household",
            "clinic",
            "the district office, upper floor",
        ]),
        // Letters with marks of their own, one of them past the cut.
        all_named([
            "aaaaaaaaaaaaaaaaaaaaaaae\u{301}",
            "aaaaaaaaaaaaaaaaaaaaaae\u{301}",
            "aaaaaaaaaaaaaaaaaaaaae\u{301}",
            "e\u{301}e\u{301}e\u{301}e\u{301}e\u{301}e\u{301}e\u{301}e\u{301}e\u{301}",
        ]),
        // The same 24 bytes, alone and with more behind them.
        all_named([
            "abcdefghijklmnopqrstuvwx",
            "abcdefghijklmnopqrstuvwxy",
            "abcdefghijklmnopqrstuvwxyz",
            "abcdefghijklmnopqrstuvwxyy",
        ]),
        all_named(["पानीपानी", "पानीपानीपानी", "पानीपानीक", "पानीपानीख"]),
        // The same longest label twice in its kind.
        all_named([&"ж".repeat(30), &"ж".repeat(30), "a", "b"]),
        all_named([&"ж".repeat(30), "a", &"ж".repeat(30), "a"]),
    ]
}

/// The words of one label for each thing that the breach names.
fn all_named(labels: [&str; 4]) -> String {
    NAMED
        .iter()
        .zip(labels)
        .map(|(thing, label)| line(*thing, label.as_bytes()))
        .collect()
}

/// The word of a label's line, with a space after it.
fn line([kind, number]: [u8; 2], label: &[u8]) -> String {
    let digits: String = label.iter().map(|byte| format!("{byte:02x}")).collect();
    format!("04{kind:02x}{number:02x}{digits} ")
}
