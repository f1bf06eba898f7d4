//! Labels: how they are read and refused, the order in which a label line's
//! faults are judged, and that they change neither the sheet nor the reach sheet.

mod common;

use common::{expect, text};
use second::chance::Chance;
use second::frames::encode;
use second::labels::{Kind, Labels, Thing};
use second::making::{make_plan, Frames};
use second::reach::reach;
use second::reading::read;
use second::sheet::sheet;
use second::solving::AMPLE_ROUNDS;
use second::vectors::bush;
use second::vectors_of_words::all_labels;
use second::words::words;

/// The words of a plan with C 2, B 1 and k 1 that has the given labels; the first
/// of them is line 2.
fn with_labels(labels: &str) -> String {
    format!("010102010100 {labels} 10")
}

/// Checks that a text is refused with the given first line, on all sheets.
#[track_caller]
fn refused(words_of_text: &str, line: &str) {
    let text = text(words_of_text);
    expect(&text, &[line, "refused"]);
    assert_eq!(reach(&text, AMPLE_ROUNDS), format!("{line}\nrefused\n"));
    assert_eq!(words(&text, AMPLE_ROUNDS), b"refused\n");
}

/// Checks that the plan with the given labels is refused with the given first line.
#[track_caller]
fn labels_refused(labels: &str, line: &str) {
    refused(&with_labels(labels), line);
}

/// Checks that the plan with the given labels is taken.
#[track_caller]
fn labels_taken(labels: &str) {
    taken(&with_labels(labels));
}

/// Checks that a plan of nil alone is taken, whatever its labels.
#[track_caller]
fn taken(words_of_text: &str) {
    expect(&text(words_of_text), &["2f0001", "3001", "flow clear"]);
}

#[test]
fn labels_are_read_with_their_things() {
    let labels = "04000061 040001e0a4aa 0401006162 0402017a 0402077a7a";
    let plan = read(&text(&with_labels(labels))).expect("a good plan");
    let label = |kind, number, label: &str| (Thing { kind, number }, label.as_bytes().to_vec());
    let expected = Labels::from([
        label(Kind::Channel, 0, "a"),
        label(Kind::Channel, 1, "प"),
        label(Kind::Binder, 0, "ab"),
        label(Kind::Level, 1, "z"),
        label(Kind::Level, 7, "zz"),
    ]);
    assert_eq!(plan.labels, expected);
    let plan = read(&text(&with_labels(""))).expect("a good plan");
    assert_eq!(plan.labels, Labels::new());
}

#[test]
fn lengths_of_1_and_60_bytes_and_outside() {
    for length in 1..=60 {
        labels_taken(&format!("040000{}", "61".repeat(length)));
    }
    for length in [61, 62, 100, 253, 254, 300] {
        labels_refused(&format!("040000{}", "61".repeat(length)), "3f040002");
    }
    for line in ["040000", "0400", "04"] {
        labels_refused(line, "3f040002");
    }
}

#[test]
fn numbers_at_and_past_their_limits() {
    for label in ["04000161", "04010061", "04020161", "04020761"] {
        labels_taken(label);
    }
    for label in [
        "04000261", "0400ff61", "04010161", "0401ff61", "04020261", "04020661", "04020861",
        "0402ff61", "04030061", "04040061", "04ff0061",
    ] {
        labels_refused(label, "3f070002");
    }
    refused("010101000000 04010061 10", "3f070002");
    taken("010120000000 04001f61 10");
    refused("010120000000 04002061 10", "3f070002");
    taken("010101200000 04011f61 10");
    refused("010101200000 04012061 10", "3f070002");
}

#[test]
fn levels_of_every_head() {
    for highest in 0..=6 {
        for level in 0..=9 {
            let plan = format!("01010100{highest:02x}00 0402{level:02x}61 10");
            if level <= highest || level == 7 {
                taken(&plan);
            } else {
                refused(&plan, "3f070002");
            }
        }
    }
}

#[test]
fn labels_not_ascending() {
    for labels in [
        "04000061 04000062",
        "04000161 04000062",
        "04010061 04010062",
        "04020061 04020062",
        "04020761 04020762",
        "04020161 04020062",
        "04020761 04020162",
        "04010061 04000162",
        "04020061 04010062",
        "04020061 04000162",
    ] {
        labels_refused(labels, "3f080003");
    }
    labels_refused("04000061 04020062 04010063", "3f080004");
    labels_taken("04000161 04010061 04020061");
    labels_taken("04000061 04000162 04010063 04020064 04020165 04020766");
}

#[test]
fn bytes_that_may_not_stand_in_a_label() {
    for bytes in [
        "00", "1f", "7f", "80", "c3", "c080", "e0a4", "e09fbf", "eda080", "f08fbfbf", "f4908080",
        "ff", "61e0a461", "610a", "0a61",
    ] {
        labels_refused(&format!("040000{bytes}"), "3f110002");
        labels_refused(&format!("04000061 040207{bytes}"), "3f110003");
    }
    for bytes in [
        "20", "7e", "c280", "c29f", "ed9fbf", "ee8080", "efbfbf", "f48fbfbf",
    ] {
        labels_taken(&format!("040000{bytes}"));
    }
    labels_refused(&format!("040000{}00", "61".repeat(59)), "3f110002");
    labels_refused(&format!("040000{}f09f92", "61".repeat(57)), "3f110002");
    labels_taken(&format!("040000{}f09f92a7", "61".repeat(56)));
}

#[test]
fn labels_repeated_in_their_kind() {
    labels_refused("04000061 04000161", "3f120003");
    labels_refused("04020061 04020161", "3f120003");
    labels_refused("04020161 04020761", "3f120003");
    labels_refused("04020061 04020162 04020761", "3f120004");
    refused("010101020000 04010061 04010161 10", "3f120003");
    let longest = "d0b6".repeat(30);
    labels_refused(&format!("040000{longest} 040001{longest}"), "3f120003");
    labels_taken("04000061 04010061 04020061");
}

/// Whole labels are compared, and their bytes rather than what they look like.
#[test]
fn labels_that_are_only_alike() {
    let shown = "61".repeat(24);
    labels_taken(&format!("040000{shown} 040001{shown}61"));
    labels_taken(&format!("040000{shown}62 040001{shown}61"));
    labels_taken("04000061 0400016161");
    labels_taken("04000061 04000141");
    labels_taken("040000c3a9 04000165cc81");
    labels_taken("04000061 0400016120");
}

#[test]
fn order_within_a_label() {
    labels_refused("0403006", "3f020002");
    labels_refused("040300", "3f040002");
    labels_refused(&format!("040300{}", "80".repeat(61)), "3f040002");
    labels_refused("04000161 040000", "3f040003");
    labels_refused("04010061 04000261", "3f070003");
    labels_refused("04020061 04010161", "3f070003");
    labels_refused("04000280", "3f070002");
    labels_refused("04030080", "3f070002");
    labels_refused("04000061 04000261", "3f070003");
    labels_refused("04000161 04000080", "3f080003");
    labels_refused("04000061 04000080", "3f080003");
    labels_refused("04000061 04000061", "3f080003");
    labels_refused("04000061 04020062 04000061", "3f080004");
}

#[test]
fn the_first_faulty_line_decides() {
    labels_refused("04000061 04000161 030000000001", "3f120003");
    labels_refused("04000061 030000000001 04000161", "3f030003");
    labels_refused("04000080 04000180", "3f110002");
    labels_refused("04000080 zz", "3f110002");
    labels_refused("04000061 04000161 11", "3f120003");
    labels_refused("030000000000 04000080", "3f100002");
}

/// A refused reading is answered before any round is allowed.
#[test]
fn labels_come_before_the_allowance() {
    for (labels, line) in [("04000080", "3f110002"), ("04000061 04000161", "3f120003")] {
        let plan = text(&with_labels(labels));
        assert_eq!(sheet(&plan, 0), format!("{line}\nrefused\n"));
        assert_eq!(words(&plan, 0), b"refused\n");
    }
    let plan = text(&with_labels("04000061"));
    assert_eq!(sheet(&plan, 0), "3f0e0000\nrefused\n");
    assert_eq!(words(&plan, 0), b"refused\n");
}

#[test]
fn labels_stand_between_the_offers_and_the_tree() {
    let (label, offer) = ("04000061", "030000000001");
    refused(label, "3f030001");
    refused(&format!("010101000001 {label} 020000 10"), "3f030002");
    refused(
        &format!("010101000002 020000 {label} 020100 10"),
        "3f030003",
    );
    refused(
        &format!("010101000001 020000 {label} 020100 10"),
        "3f030004",
    );
    refused(&format!("010101000000 {label} {offer} 10"), "3f030003");
    refused(
        &format!("010102000000 {offer} {label} 030100000001 10"),
        "3f030004",
    );
    refused(&format!("010101000000 11 {label} 10"), "3f030003");
    refused(&format!("010101000000 15 10 {label} 10"), "3f030004");
    refused(&format!("010101000000 10 {label}"), "3f0d0003");
    refused("010101000001 04", "3f030002");
    refused("010101000000 11 04", "3f030003");
    for first in ["00", "01", "02", "03", "05", "0f", "1a", "ff"] {
        refused(&format!("010101000000 {label} {first}"), "3f030003");
    }
    expect(
        &text(&format!("010101000000 {offer} {label} 10")),
        &["2f0002", "22070000000001", "3001", "flow clear"],
    );
}

#[test]
fn text_that_ends_after_the_labels() {
    refused("010101000000 04000061", "3f0c0003");
    refused("010101000000 030000000001 04000061 04020061", "3f0c0005");
    refused("010101000000 04000061 11", "3f0c0004");
}

/// Labels are no nodes, and the root below them has depth 1.
#[test]
fn labels_do_not_count_as_nodes() {
    let head = "010101000000 04000061";
    let steps = "11 ".repeat(31);
    taken(&format!("{head} {}", bush(256)));
    refused(&format!("{head} {}", bush(257)), "3f0a0103");
    taken(&format!("{head} {steps} 10"));
    refused(&format!("{head} {steps} 11 10"), "3f0b0023");
}

#[test]
fn a_label_gives_no_name_a_meaning() {
    refused("010101000000 04000061 120000 10", "3f090003");
}

#[test]
fn the_most_labels_are_72_of_60_bytes() {
    let plan = read(&all_labels()).expect("a good plan");
    assert_eq!(plan.labels.len(), 72);
    assert!(plan.labels.values().all(|label| label.len() == 60));
}

/// The text of a plan's frames.
fn text_of<'a>(frames: impl IntoIterator<Item = &'a Vec<u8>>) -> Vec<u8> {
    let lines = frames.into_iter().map(|frame| encode(frame));
    lines.collect::<String>().into_bytes()
}

#[test]
fn labels_change_neither_the_sheet_nor_the_reach_sheet() {
    let mut chance = Chance::new(4);
    let mut compared = 0;
    for _ in 0..1_000 {
        let frames: Frames = make_plan(&mut chance);
        let labelled = text_of(&frames);
        let bare = text_of(frames.iter().filter(|frame| frame[0] != 0x04));
        compared += u32::from(labelled != bare);
        for allowance in [AMPLE_ROUNDS, 4] {
            assert_eq!(sheet(&labelled, allowance), sheet(&bare, allowance));
            assert_eq!(reach(&labelled, allowance), reach(&bare, allowance));
        }
    }
    assert!(compared > 700, "{compared}");
}
