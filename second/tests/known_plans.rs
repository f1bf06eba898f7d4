//! The plans with known sheets: P1 to P10 and the relay.

mod common;

use common::{expect, text};
use second::sheet::sheet;

const P2: &str = "010102010102 020000 020101 15 1901 120001 10 1900 13000200 10";
const P2_SHEET: [&str; 8] = [
    "2f0004",
    "200000000002",
    "21000000000002",
    "21070000000002",
    "22010000000002",
    "22070000000002",
    "300001000001",
    "flow breach",
];

#[test]
fn p1_nil_alone() {
    expect(&text("010101000000 10"), &["2f0001", "3001", "flow clear"]);
}

#[test]
fn p2_sending_down_is_a_breach() {
    expect(&text(P2), &P2_SHEET);
}

#[test]
fn p3_sending_up_is_clear() {
    expect(
        &text("010102010102 020000 020101 15 1900 120001 10 1901 13000200 10"),
        &[
            "2f0004",
            "200000000002",
            "21010000000002",
            "21070000000002",
            "22000000000002",
            "22070000000002",
            "3001",
            "flow clear",
        ],
    );
}

#[test]
fn p4_sending_at_the_same_level_is_clear() {
    expect(
        &text("010102010102 020000 020101 15 1901 120001 10 1901 13000200 10"),
        &[
            "2f0004",
            "200000000002",
            "21010000000002",
            "21070000000002",
            "22010000000002",
            "22070000000002",
            "3001",
            "flow clear",
        ],
    );
}

#[test]
fn p5_sending_from_the_outermost_label_is_clear() {
    expect(
        &text("010102010102 020000 020101 15 120001 10 1900 13000200 10"),
        &[
            "2f0004",
            "200000000002",
            "21000000000002",
            "21070000000002",
            "22070000000002",
            "3001",
            "flow clear",
        ],
    );
}

#[test]
fn p6_the_first_example_of_the_source() {
    let plan = "010103040203 020000 020101 020202 18 \
         15 1900 120001 120001 120102 10 \
         15 1901 13000300 120303 10 \
         1902 13000401 13040502 14 170405 120400 10 13040603 10";
    expect(
        &text(plan),
        &[
            "2f000a",
            "200000000002",
            "200100000002",
            "200200000007",
            "200300000007",
            "21010000000002",
            "21020000000002",
            "21020100000007",
            "21070000000002",
            "21070100000007",
            "22000000000002",
            "22000100000004",
            "22010100000002",
            "22020100000001",
            "22070000000002",
            "22070100000007",
            "3001",
            "flow clear",
        ],
    );
    assert_eq!(sheet(&text(plan), 9), "3f0e0000\nrefused\n");
    assert!(sheet(&text(plan), 10).starts_with("2f000a\n"));
}

#[test]
fn p7_a_receive_that_nobody_serves() {
    expect(
        &text("010101010001 020000 13000100 120000 10"),
        &["2f0001", "3001", "flow clear"],
    );
}

#[test]
fn p8_a_match_of_two_different_channels() {
    expect(
        &text("010102000002 020000 020101 170001 120001 10"),
        &["2f0001", "3001", "flow clear"],
    );
}

#[test]
fn p9_the_allowance_of_p2() {
    assert_eq!(sheet(&text(P2), 3), "3f0e0000\nrefused\n");
    assert_eq!(sheet(&text(P2), 4), P2_SHEET.join("\n") + "\n");
    assert_eq!(sheet(&text(P2), 65_535), P2_SHEET.join("\n") + "\n");
}

#[test]
fn p10_empty_text() {
    expect(b"", &["3f010000", "refused"]);
}

#[test]
fn a_relay_of_3073_rounds() {
    let plan = include_bytes!("plans/relay.plan");
    let expected = include_str!("plans/relay.sheet");
    assert_eq!(sheet(plan, 17_409), expected);
    assert_eq!(sheet(plan, 3_073), expected);
    assert_eq!(sheet(plan, 3_072), "3f0e0000\nrefused\n");
}
