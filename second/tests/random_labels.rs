//! The labels of the random records: good ones of every kind, length and script,
//! shown whole and cut, and damaged ones with every fault.

use std::collections::BTreeMap;

use second::drawing::Drawing;
use second::frames::decode;
use second::judging::first_breach;
use second::labels::{may_stand_in_a_label, shown, thing, Kind, Thing};
use second::outcome::{outcome, Solved};
use second::plan::{Head, OUTERMOST};
use second::reading::{read, Refusal};

/// How often each of the things happens that a function tells of a record's text.
fn count<const NAMES: usize>(
    records: usize,
    tell: fn(&[u8]) -> [(&'static str, bool); NAMES],
) -> BTreeMap<&'static str, u32> {
    let mut counts = BTreeMap::new();
    for record in Drawing::new(1).take(records) {
        for (name, met) in tell(&record.text) {
            *counts.entry(name).or_default() += u32::from(met);
        }
    }
    counts
}

/// What the labels of a good plan are like, one by one and together.
fn kinds_of_labels(text: &[u8]) -> [(&'static str, bool); 24] {
    let labels = read(text).map(|plan| plan.labels).unwrap_or_default();
    let good = read(text).is_ok();
    let of = |kind| labels.keys().any(|thing| thing.kind == kind);
    let length = |length| labels.values().any(|label| label.len() == length);
    let has = |first: char, last: char| {
        let mut characters = labels.values().flat_map(|label| {
            String::from_utf8_lossy(label)
                .chars()
                .collect::<Vec<char>>()
        });
        characters.any(|character| (first..=last).contains(&character))
    };
    let pairs: Vec<[(&Thing, &Vec<u8>); 2]> = labels
        .iter()
        .flat_map(|one| labels.iter().map(move |other| [one, other]))
        .filter(|[one, other]| one.0 < other.0)
        .collect();
    let same_bytes = |[one, other]: &[(&Thing, &Vec<u8>); 2]| one.1 == other.1;
    let shown_alike = |[one, other]: &[(&Thing, &Vec<u8>); 2]| {
        one.0.kind == other.0.kind && shown(one.1) == shown(other.1)
    };
    let outermost = Thing {
        kind: Kind::Level,
        number: OUTERMOST,
    };
    [
        ("none", good && labels.is_empty()),
        ("one", labels.len() == 1),
        ("over ten", labels.len() > 10),
        ("channel", of(Kind::Channel)),
        ("binder", of(Kind::Binder)),
        ("level", of(Kind::Level)),
        ("level 07", labels.contains_key(&outermost)),
        ("1 byte", length(1)),
        ("23 bytes", length(23)),
        ("24 bytes", length(24)),
        ("25 bytes", length(25)),
        ("59 bytes", length(59)),
        ("60 bytes", length(60)),
        ("Devanagari", has('\u{900}', '\u{97f}')),
        ("Gujarati", has('\u{a80}', '\u{aff}')),
        ("Cyrillic", has('\u{400}', '\u{4ff}')),
        ("Arabic", has('\u{600}', '\u{6ff}')),
        ("Han", has('\u{4e00}', '\u{9fff}')),
        ("emoji", has('\u{1f300}', '\u{1faff}')),
        ("Latin with marks", has('\u{c0}', '\u{17f}')),
        ("ASCII", has('A', 'z')),
        ("the last character", has(char::MAX, char::MAX)),
        ("same bytes in two kinds", pairs.iter().any(same_bytes)),
        ("shown alike in one kind", pairs.iter().any(shown_alike)),
    ]
}

#[test]
fn good_records_have_labels_of_every_kind() {
    let kinds = count(10_000, kinds_of_labels);
    assert!(kinds.values().all(|count| *count > 100), "{kinds:?}");
}

/// The labels of what a breach names, if the plan is taken and has one.
fn named_labels(text: &[u8]) -> Vec<Option<Vec<u8>>> {
    let breach_of = |solved: &Solved| first_breach(&solved.head, &solved.solution);
    let Ok(solved) = outcome(text, u16::MAX) else {
        return Vec::new();
    };
    let Some(breach) = breach_of(&solved) else {
        return Vec::new();
    };
    let label = |kind, number| solved.labels.get(&Thing { kind, number }).cloned();
    vec![
        label(Kind::Level, breach.high),
        label(Kind::Level, breach.low),
        label(Kind::Channel, breach.channel),
        label(Kind::Channel, breach.object),
    ]
}

/// How the labels of what a breach names show in the word sheet.
fn kinds_of_word_sheets(text: &[u8]) -> [(&'static str, bool); 9] {
    let named = named_labels(text);
    let has = |place: usize| named.get(place).is_some_and(Option::is_some);
    let cut_to = |length: usize| {
        let mut labels = named.iter().flatten();
        labels.any(|label| label.len() > 24 && shown(label).len() == length)
    };
    [
        ("breach", !named.is_empty()),
        ("high", has(0)),
        ("low", has(1)),
        ("channel", has(2)),
        ("object", has(3)),
        ("all four", (0..4).all(has)),
        ("cut to 24", cut_to(24)),
        ("cut to 23", cut_to(23)),
        ("cut to 22 or 21", cut_to(22) || cut_to(21)),
    ]
}

#[test]
fn good_records_show_labels_in_every_place() {
    let kinds = count(20_000, kinds_of_word_sheets);
    assert!(kinds.values().all(|count| *count > 100), "{kinds:?}");
}

/// The frames of a text's lines, and nothing in the place of a line that has none.
fn frames(text: &[u8]) -> Vec<Vec<u8>> {
    let lines = text.split_inclusive(|byte| *byte == b'\n');
    lines.map(|line| decode(line).unwrap_or_default()).collect()
}

/// The head of a text whose first line is a head.
fn head_of(frames: &[Vec<u8>]) -> Head {
    Head {
        channels: frames[0][2],
        binders: frames[0][3],
        highest_level: frames[0][4],
        free_names: frames[0][5],
    }
}

/// What is wrong with the line at which a text is refused, if it is a label or
/// stands right after one.
fn faults_of_labels(text: &[u8]) -> Option<String> {
    let Refusal { number, line } = read(text).err().filter(|refusal| refusal.line > 1)?;
    let frames = frames(text);
    let place = usize::from(line) - 1;
    let before = &frames[place - 1];
    let label = match frames.get(place) {
        Some(frame) if frame.first() == Some(&0x04) => frame,
        _ if before.first() == Some(&0x04) => return Some(format!("{number} after")),
        _ => return None,
    };
    let behind = match before[0] {
        0x01 | 0x02 => "names",
        0x03 => "an offer",
        0x04 => "a label",
        _ => "a node",
    };
    match number {
        3 => return Some(format!("3 behind {behind}")),
        4 => return Some(format!("4 of {} bytes", label.len())),
        7 | 8 | 17 | 18 => {}
        _ => return Some(format!("{number} else")),
    }
    let head = head_of(&frames);
    let (kind, level) = (label[1], label[2]);
    let in_order = before[0] != 0x04 || before[1..3] < label[1..3];
    let earlier = frames[..place]
        .iter()
        .filter(|frame| frame.len() > 3 && frame[0] == 0x04 && frame[1] == kind);
    let faults = [
        ("no kind", kind > 2),
        ("channel C", kind == 0 && label[2] == head.channels),
        ("binder B", kind == 1 && label[2] == head.binders),
        (
            "level over k",
            kind == 2 && level == head.highest_level + 1 && level < 7,
        ),
        ("level 8", kind == 2 && level == 8),
        ("number 255", label[2] == 255),
        ("lower kind", !in_order && before[1] > kind),
        (
            "lower number",
            !in_order && before[1] == kind && before[2] > level,
        ),
        ("equal", !in_order && before[1..3] == label[1..3]),
        ("bytes", !may_stand_in_a_label(&label[3..])),
        (
            "repeated",
            earlier.into_iter().any(|frame| frame[3..] == label[3..]),
        ),
    ];
    assert_eq!(thing(kind, level, &head).is_none(), number == 7);
    let names: Vec<&str> = faults
        .into_iter()
        .filter_map(|(name, met)| met.then_some(name))
        .collect();
    Some(format!("{number} {}", names.join(", ")))
}

#[test]
fn damaged_records_have_labels_with_every_fault() {
    let mut faults: BTreeMap<String, u32> = BTreeMap::new();
    for record in Drawing::new(1).take(20_000) {
        if let Some(fault) = faults_of_labels(&record.text) {
            *faults.entry(fault).or_default() += 1;
        }
    }
    for fault in [
        "3 behind names",
        "3 behind a node",
        "3 after",
        "4 of 1 bytes",
        "4 of 2 bytes",
        "4 of 3 bytes",
        "4 of 64 bytes",
        "7 no kind",
        "7 no kind, bytes",
        "7 channel C",
        "7 channel C, lower kind",
        "7 binder B, lower kind",
        "7 level over k, lower number",
        "7 channel C, bytes",
        "7 channel C, repeated",
        "7 binder B",
        "7 level over k",
        "7 level 8",
        "7 level over k, repeated",
        "7 number 255",
        "8 lower kind",
        "8 lower number",
        "8 equal",
        "8 lower kind, bytes",
        "8 lower number, bytes",
        "8 equal, bytes",
        "8 equal, repeated",
        "12 after",
        "17 bytes",
        "18 repeated",
    ] {
        let count = faults.get(fault).copied().unwrap_or(0);
        assert!(count >= 5, "{fault}: {count} of {faults:#?}");
    }
    assert!(faults["17 bytes"] > 300 && faults["18 repeated"] > 200);
}

/// Which bytes at the start of a faulty place are refused with 17.
fn faults_of_bytes(text: &[u8]) -> [(&'static str, bool); 9] {
    let label = match read(text) {
        Err(Refusal { number: 17, line }) => frames(text)[usize::from(line) - 1][3..].to_vec(),
        _ => Vec::new(),
    };
    let fault = match std::str::from_utf8(&label) {
        Ok(_) => &label[..0],
        Err(error) => &label[error.valid_up_to()..],
    };
    let has = |byte| label.contains(&byte);
    let control = label.iter().any(|byte| *byte < 0x20);
    [
        ("control", control),
        ("7f", has(0x7f)),
        ("lone", matches!(fault, [0x80..=0xbf, ..])),
        ("overlong of 2", matches!(fault, [0xc0 | 0xc1, ..])),
        (
            "overlong of 3 or 4",
            matches!(fault, [0xe0, 0x80..=0x9f, ..] | [0xf0, 0x80..=0x8f, ..]),
        ),
        ("surrogate", matches!(fault, [0xed, 0xa0..=0xbf, ..])),
        (
            "past the last",
            matches!(fault, [0xf4, 0x90..=0xbf, ..] | [0xf5..=0xff, ..]),
        ),
        (
            "cut at the end",
            matches!(
                fault,
                [0xc2..=0xf4] | [0xe0..=0xf4, _] | [0xf0..=0xf4, _, _]
            ),
        ),
        (
            "cut by a letter",
            matches!(fault, [0xc2..=0xf4, 0x20..=0x7e, ..]),
        ),
    ]
}

#[test]
fn damaged_records_have_every_kind_of_ill_formed_bytes() {
    let kinds = count(20_000, faults_of_bytes);
    assert!(kinds.values().all(|count| *count > 20), "{kinds:?}");
}
