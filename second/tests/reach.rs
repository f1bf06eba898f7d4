//! The reach sheet: known ones, which channel is named, refusals, and that every
//! reach sheet follows from the in sets on the sheet of the same record.

mod common;

use std::collections::BTreeMap;

use common::{expect, text};
use second::answer::{answer, LONGEST_ANSWER};
use second::drawing::Drawing;
use second::reach::{reach, LAST_LINES, LONGEST_REACH};
use second::sheet::sheet;
use second::solving::AMPLE_ROUNDS;
use second::vectors::{longest_reach, vectors};

const P2: &str = "010102010102 020000 020101 15 1901 120001 10 1900 13000200 10";

/// Checks the lines of the reach sheet that a text gets under an ample allowance.
#[track_caller]
fn expect_reach(text: &[u8], lines: &[&str]) {
    let sheet = reach(text, AMPLE_ROUNDS);
    assert_eq!(sheet, lines.join("\n") + "\n");
}

#[test]
fn p1_nil_alone() {
    expect_reach(&text("010101000000 10"), &["reach complete"]);
}

#[test]
fn p2_a_handle_sent_down() {
    expect_reach(&text(P2), &["23000100", "23070100", "reach complete"]);
}

#[test]
fn p3_a_handle_sent_up() {
    expect_reach(
        &text("010102010102 020000 020101 15 1900 120001 10 1901 13000200 10"),
        &["23010100", "23070100", "reach complete"],
    );
}

/// From in(1, 0) = in(2, 0) = in(#, 0) = {1} and in(2, 1) = in(#, 1) = {0, 1, 2}:
/// handle 1 has two channels at level 2 and at #, of which 0 is named.
#[test]
fn p6_the_first_example_of_the_source() {
    let plan = "010103040203 020000 020101 020202 18 \
         15 1900 120001 120001 120102 10 \
         15 1901 13000300 120303 10 \
         1902 13000401 13040502 14 170405 120400 10 13040603 10";
    expect_reach(
        &text(plan),
        &[
            "23010100",
            "23020001",
            "23020100",
            "23020201",
            "23070001",
            "23070100",
            "23070201",
            "reach complete",
        ],
    );
    assert_eq!(reach(&text(plan), 9), "3f0e0000\nrefused\n");
    assert_eq!(reach(&text(plan), 10), reach(&text(plan), AMPLE_ROUNDS));
}

/// Sends alone are no reception, and neither is a receive that nobody serves.
#[test]
fn nothing_received() {
    for words in [
        "010101000001 020000 1900 120000 10",
        "010101010001 020000 13000100 120000 10",
        "010102010602 020000 020101 15 1906 120001 120101 10 170001 13000200 10",
        "010102010102 020000 020101 15 1901 120001 10 1900 13010200 10",
    ] {
        expect_reach(&text(words), &["reach complete"]);
    }
}

/// The household stands outside every desk; the verdict is yes, and still the
/// desk at level 0 may receive the household's handle, channel 2. The desk at
/// level 1 gets it only where level 0 hands it on, on channel 1.
#[test]
fn a_household_that_sends_its_handle_from_outside() {
    let plan = |clerk: &str| {
        text(&format!(
            "010103020102 020000 020101 15 160202 120002 10 \
             15 1900 {clerk} 10 1901 13010401 10"
        ))
    };
    let kept = plan("13000300");
    expect(
        &kept,
        &[
            "2f0004",
            "200000000004",
            "21000000000004",
            "21070000000004",
            "22070000000004",
            "3001",
            "flow clear",
        ],
    );
    expect_reach(&kept, &["23000200", "23070200", "reach complete"]);
    let handed_on = plan("13000300 120103");
    expect_reach(
        &handed_on,
        &["23000200", "23010201", "23070200", "reach complete"],
    );
}

/// Handle 0 is received on 1 and 2, handle 1 on 2 alone, handle 2 on 0 and 2, and
/// the larger channel is sent on first; in the second plan nobody sends on the
/// smaller one before the larger one was received on.
#[test]
fn the_smallest_channel_is_named() {
    expect_reach(
        &text(
            "010103010003 020000 020101 020202 15 120200 120100 120201 120202 120002 10 \
             1900 15 13020300 10 15 13010300 10 13000300 10",
        ),
        &[
            "23000001",
            "23000102",
            "23000200",
            "23070001",
            "23070102",
            "23070200",
            "reach complete",
        ],
    );
    expect_reach(
        &text(
            "010103020003 020000 020101 020202 15 120202 10 \
             1900 13020300 15 120002 10 13000401 10",
        ),
        &["23000200", "23070200", "reach complete"],
    );
}

#[test]
fn handle_31_on_channel_31_at_level_6() {
    expect_reach(
        &text("010120010601 02001f 15 120000 10 1906 13000100 10"),
        &["23061f1f", "23071f1f", "reach complete"],
    );
}

/// The outer level has what the inner ones receive, on the channel on which they
/// do; no inner one has what the outer or another inner one receives.
#[test]
fn brackets_in_a_bracket() {
    expect_reach(
        &text(
            "010103010203 020000 020101 020202 15 120001 120102 120200 10 \
             1901 15 1902 13000300 10 15 13010300 10 1900 13020300 10",
        ),
        &[
            "23000002",
            "23010002",
            "23010100",
            "23010201",
            "23020100",
            "23070002",
            "23070100",
            "23070201",
            "reach complete",
        ],
    );
}

/// A binder's set doesn't say who received.
#[test]
fn two_levels_that_share_a_binder() {
    expect_reach(
        &text(
            "010102010102 020000 020101 15 120001 120100 10 \
             15 1900 13000200 10 1901 13010200 10",
        ),
        &[
            "23000100",
            "23010001",
            "23070001",
            "23070100",
            "reach complete",
        ],
    );
}

#[test]
fn the_longest_reach_sheet() {
    let mut lines = Vec::new();
    for level in 0..8 {
        for handle in 0..32 {
            lines.push(format!("23{level:02x}{handle:02x}{:02x}", 31 - handle));
        }
    }
    lines.push("reach complete".to_string());
    let sheet = reach(&longest_reach(), AMPLE_ROUNDS);
    assert_eq!(sheet, lines.join("\n") + "\n");
    assert_eq!(sheet.len(), LONGEST_REACH);
}

#[test]
fn refusals() {
    expect_reach(b"", &["3f010000", "refused"]);
    expect_reach(&[b'0'; 16_385], &["3f010000", "refused"]);
    expect_reach(b"010101000000\n10", &["3f020002", "refused"]);
    expect_reach(&text("010101000000 10 10"), &["3f0d0003", "refused"]);
    expect_reach(&text("010101000000"), &["3f0c0002", "refused"]);
    expect_reach(&text("010101000000 120000 10"), &["3f090002", "refused"]);
    assert_eq!(reach(&text("010101000000 10"), 0), "3f0e0000\nrefused\n");
    assert_eq!(reach(&text(P2), 3), "3f0e0000\nrefused\n");
    assert_eq!(reach(&text(P2), 4), reach(&text(P2), 65_535));
}

/// The reach sheet that follows from the lines of a sheet: those of in sets are
/// gone through for every level, handle and channel in turn.
fn from_sheet(sheet: &str) -> String {
    if sheet.starts_with("3f") {
        return sheet.to_string();
    }
    let number = |digits: &str| u32::from_str_radix(digits, 16).expect("digits");
    let received: BTreeMap<(u32, u32), u32> = sheet
        .lines()
        .filter_map(|line| line.strip_prefix("21"))
        .map(|line| {
            (
                (number(&line[..2]), number(&line[2..4])),
                number(&line[4..]),
            )
        })
        .collect();
    let mut reach = String::new();
    for level in 0..8 {
        for handle in 0..32 {
            let may = |channel: &u32| {
                let set = received.get(&(level, *channel)).unwrap_or(&0);
                set / 2_u32.pow(handle) % 2 == 1
            };
            if let Some(channel) = (0..32).find(may) {
                reach += &format!("23{level:02x}{handle:02x}{channel:02x}\n");
            }
        }
    }
    reach + "reach complete\n"
}

#[test]
fn reach_sheets_follow_from_the_in_sets_of_the_sheets() {
    let mut lines = 0;
    let mut last_lines: BTreeMap<String, u32> = BTreeMap::new();
    for record in Drawing::new(3).take(10_000).chain(vectors()) {
        let answer = answer(&record);
        let reach = reach(&record.text, record.allowance);
        let sheet = sheet(&record.text, record.allowance);
        assert_eq!(reach, from_sheet(&sheet), "{:?}", record.text);
        assert!(answer.starts_with((sheet + &reach).as_bytes()));
        assert!(reach.len() <= LONGEST_REACH && answer.len() <= LONGEST_ANSWER);
        lines += reach.lines().count() - 1;
        let last = reach.lines().last().expect("a last line").to_string();
        *last_lines.entry(last).or_default() += 1;
    }
    assert!(lines > 20_000, "{lines}");
    assert!(LAST_LINES.iter().all(|phrase| last_lines[*phrase] > 3_000));
    assert_eq!(last_lines.len(), LAST_LINES.len());
}
