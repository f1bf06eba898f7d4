//! The random records: repeatable, of every kind, and never too much for the
//! program. Their labels have their own file.

use std::collections::{BTreeMap, BTreeSet};

use second::chance::Chance;
use second::drawing::Drawing;
use second::frames::{decode, encode};
use second::making::make_plan;
use second::places::first_node;
use second::reading::read;
use second::records::{parse, write, Record};
use second::sheet::{sheet, LAST_LINES, LONGEST_SHEET};

#[test]
fn the_same_seed_gives_the_same_records() {
    let draw = |seed| Drawing::new(seed).take(300).collect::<Vec<Record>>();
    assert_eq!(draw(1), draw(1));
    assert_ne!(draw(1), draw(2));
}

#[test]
fn made_plans_are_good() {
    let mut chance = Chance::new(1);
    let mut largest = 0;
    for _ in 0..5_000 {
        let frames = make_plan(&mut chance);
        let text: String = frames.iter().map(|frame| encode(frame)).collect();
        assert!(read(text.as_bytes()).is_ok(), "{text}");
        largest = largest.max(frames.len() - first_node(&frames));
    }
    assert_eq!(largest, 256);
}

#[test]
fn records_reach_every_refusal_and_every_last_line() {
    let mut refusals: BTreeMap<u8, u32> = BTreeMap::new();
    let mut last_lines = BTreeSet::new();
    for record in Drawing::new(1).take(10_000) {
        let sheet = sheet(&record.text, record.allowance);
        assert!(sheet.len() <= LONGEST_SHEET);
        if let Some(frame) = sheet.strip_prefix("3f") {
            let number = u8::from_str_radix(&frame[..2], 16).expect("a number");
            *refusals.entry(number).or_default() += 1;
        }
        last_lines.insert(sheet.lines().last().expect("a last line").to_string());
    }
    let numbers: Vec<u8> = refusals.keys().copied().collect();
    assert_eq!(numbers, (1..=14).chain(16..=18).collect::<Vec<u8>>());
    assert!(refusals.values().all(|count| *count > 80), "{refusals:?}");
    assert_eq!(last_lines, LAST_LINES.map(str::to_string).into());
}

/// What a good plan's offers are like: how many there are, and whether some set
/// has several channels, has the last channel or stands on the last channel, and
/// whether some channel has a free name or has none.
fn kinds_of_offers(text: &[u8]) -> Vec<&'static str> {
    let Ok(plan) = read(text) else {
        return Vec::new();
    };
    let last = plan.head.channels - 1;
    let lines = text.split_inclusive(|byte| *byte == b'\n');
    let named: BTreeSet<u8> = lines
        .filter_map(decode)
        .filter(|frame| frame[0] == 0x02)
        .map(|frame| frame[2])
        .collect();
    let offers = &plan.offers;
    [
        ("none", offers.is_empty()),
        ("one", offers.len() == 1),
        ("several", offers.len() > 1),
        ("all", offers.len() == usize::from(last) + 1),
        ("on the last", offers.contains_key(&last)),
        (
            "of the last",
            offers.values().any(|set| set.contains(&last)),
        ),
        ("of one", offers.values().any(|set| set.len() == 1)),
        ("of several", offers.values().any(|set| set.len() > 1)),
        (
            "named",
            offers.keys().any(|channel| named.contains(channel)),
        ),
        (
            "nameless",
            !offers.keys().all(|channel| named.contains(channel)),
        ),
        ("of 32", last == 31 && !offers.is_empty()),
    ]
    .into_iter()
    .filter_map(|(kind, met)| met.then_some(kind))
    .collect()
}

#[test]
fn good_records_have_offers_of_every_kind() {
    let mut kinds: BTreeMap<&str, u32> = BTreeMap::new();
    for record in Drawing::new(1).take(10_000) {
        for kind in kinds_of_offers(&record.text) {
            *kinds.entry(kind).or_default() += 1;
        }
    }
    assert_eq!(kinds.len(), 11);
    assert!(kinds.values().all(|count| *count > 100), "{kinds:?}");
}

/// What is wrong with the line at which a text is refused, if it is an offer or
/// stands right after one.
fn faults_of_offers(text: &[u8]) -> Option<String> {
    let refusal = read(text).err().filter(|refusal| refusal.line > 1)?;
    let lines = text.split_inclusive(|byte| *byte == b'\n');
    let frames: Vec<Vec<u8>> = lines.map(|line| decode(line).unwrap_or_default()).collect();
    let place = usize::from(refusal.line) - 1;
    let before = &frames[place - 1];
    let offer = match frames.get(place) {
        Some(frame) if frame.first() == Some(&0x03) => frame,
        _ if before.first() == Some(&0x03) => return Some(format!("{} after", refusal.number)),
        _ => return None,
    };
    let channels = frames[0][2];
    if !matches!(refusal.number, 7 | 8 | 16) {
        let at = match before[0] {
            0x01 | 0x02 => "first",
            0x03 => "second",
            _ => "node",
        };
        return Some(format!("{} {at} of {} bytes", refusal.number, offer.len()));
    }
    let set = u32::from_be_bytes([offer[2], offer[3], offer[4], offer[5]]);
    let faults = [
        ("channel C", offer[1] == channels),
        ("channel 255", offer[1] == 255),
        ("channel over C", (channels + 1..255).contains(&offer[1])),
        ("bit C", channels < 32 && set >> channels == 1),
        ("bits over C", channels < 32 && set >> channels > 1),
        ("descending", before[0] == 0x03 && offer[1] < before[1]),
        ("equal", before[0] == 0x03 && offer[1] == before[1]),
        ("empty", set == 0),
    ];
    let names: Vec<&str> = faults
        .into_iter()
        .filter_map(|(name, met)| met.then_some(name))
        .collect();
    Some(format!("{} {}", refusal.number, names.join(", ")))
}

#[test]
fn damaged_records_have_offers_with_every_fault() {
    let mut faults: BTreeMap<String, u32> = BTreeMap::new();
    for record in Drawing::new(1).take(20_000) {
        if let Some(fault) = faults_of_offers(&record.text) {
            *faults.entry(fault).or_default() += 1;
        }
    }
    for fault in [
        "3 first of 6 bytes",
        "3 node of 6 bytes",
        "3 after",
        "4 first of 5 bytes",
        "4 first of 7 bytes",
        "4 second of 5 bytes",
        "4 second of 7 bytes",
        "7 bit C",
        "7 bit C, descending",
        "7 bit C, equal",
        "7 bits over C",
        "7 bits over C, descending",
        "7 bits over C, equal",
        "7 channel 255",
        "7 channel 255, empty",
        "7 channel C",
        "7 channel C, empty",
        "7 channel over C",
        "7 channel over C, empty",
        "8 descending",
        "8 descending, empty",
        "8 equal",
        "8 equal, empty",
        "12 after",
        "16 empty",
    ] {
        let count = faults.get(fault).copied().unwrap_or(0);
        assert!(count >= 15, "{fault}: {count} of {faults:#?}");
    }
}

#[test]
fn about_half_of_the_records_are_damaged() {
    let good = Drawing::new(1)
        .take(10_000)
        .filter(|record| read(&record.text).is_ok())
        .count();
    assert!((4_500..=6_500).contains(&good), "{good}");
}

#[test]
fn records_reach_odd_lengths_endings_and_allowances() {
    let records: Vec<Record> = Drawing::new(1).take(10_000).collect();
    for length in [0, 16_384, 16_385, 65_536] {
        assert!(records.iter().any(|record| record.text.len() == length));
    }
    assert!(records.iter().any(|record| !record.text.ends_with(b"\n")));
    for allowance in [0, 1, 17_409, 65_535] {
        assert!(records.iter().any(|record| record.allowance == allowance));
    }
}

#[test]
fn records_are_parsed_as_they_were_written() {
    let records: Vec<Record> = Drawing::new(5).take(1_000).collect();
    let mut batch = Vec::new();
    for record in &records {
        write(record, &mut batch).expect("written");
    }
    assert_eq!(parse(&batch), Ok(records));
}
