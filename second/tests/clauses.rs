//! The clauses of the nodes, one after the other, each by a sheet.

mod common;

use common::{expect, text};

/// The start of plans in which channel 1 is sent on channel 0 and the second
/// part is still to come.
const SENT: &str = "010102020002 020000 020101 15 120001 10";

#[test]
fn silent_replication_restriction_and_sum_hand_on() {
    expect(
        &text("010102000001 020000 11 18 160101 14 120000 10 120101 10"),
        &[
            "2f0002",
            "22070000000001",
            "22070100000002",
            "3001",
            "flow clear",
        ],
    );
}

#[test]
fn a_send_fills_the_out_set_of_each_channel_of_x() {
    expect(
        &text(
            "010103010003 020000 020101 020202 15 120001 10 15 120002 10 \
             13000300 120300 10",
        ),
        &[
            "2f0005",
            "200000000006",
            "21070000000006",
            "22070000000006",
            "22070100000001",
            "22070200000001",
            "3001",
            "flow clear",
        ],
    );
}

/// Were the branch entered while a set is empty, the count would be 5.
#[test]
fn a_send_with_an_empty_set_does_not_enter_its_branch() {
    for send in ["120202", "120201", "120102"] {
        expect(
            &text(&format!("{SENT} 13000200 {send} 1900 120100 10")),
            &[
                "2f0006",
                "200000000002",
                "21070000000002",
                "22000100000001",
                "22070000000002",
                "22070100000003",
                "3001",
                "flow clear",
            ],
        );
    }
}

#[test]
fn a_receive_that_nobody_serves_wants_nothing() {
    expect(
        &text(&format!("{SENT} 13010200 120100 10")),
        &["2f0002", "22070000000002", "3001", "flow clear"],
    );
}

#[test]
fn a_receive_is_served_if_one_channel_of_x_is() {
    expect(
        &text(
            "010103020003 020000 020101 020202 15 120001 10 15 120002 10 \
             15 120200 10 13000300 13030401 10",
        ),
        &[
            "2f0006",
            "200000000006",
            "200100000001",
            "21070000000006",
            "21070200000001",
            "22070000000006",
            "22070200000001",
            "3001",
            "flow clear",
        ],
    );
}

#[test]
fn a_receive_takes_from_all_levels() {
    expect(
        &text(
            "010103010103 020000 020101 020202 15 120000 10 15 1900 120001 10 \
             15 1901 120002 10 1901 13000300 10",
        ),
        &[
            "2f0004",
            "200000000007",
            "21010000000007",
            "21070000000007",
            "22000000000002",
            "22010000000004",
            "22070000000007",
            "3001",
            "flow clear",
        ],
    );
}

#[test]
fn a_match_whose_sets_meet() {
    expect(
        &text(&format!("{SENT} 13000200 170201 120100 10")),
        &[
            "2f0005",
            "200000000002",
            "21070000000002",
            "22070000000002",
            "22070100000001",
            "3001",
            "flow clear",
        ],
    );
}

#[test]
fn a_match_whose_sets_never_meet() {
    expect(
        &text(&format!("{SENT} 13000200 170200 120100 10")),
        &[
            "2f0004",
            "200000000002",
            "21070000000002",
            "22070000000002",
            "3001",
            "flow clear",
        ],
    );
}

#[test]
fn a_match_of_two_names_of_one_channel() {
    expect(
        &text("010101000002 020000 020100 170001 120000 10"),
        &["2f0002", "22070000000001", "3001", "flow clear"],
    );
}

/// The branch is entered while the marker's set is still empty.
#[test]
fn a_match_of_the_same_marker() {
    for receive in ["13000200 170202", "13000200 13000300 170203"] {
        expect(
            &text(&format!("{SENT} {receive} 1900 120100 10")),
            &[
                "2f0004",
                "200000000002",
                "21070000000002",
                "22000100000001",
                "22070000000002",
                "22070100000001",
                "3001",
                "flow clear",
            ],
        );
    }
}

#[test]
fn a_match_of_two_empty_binders() {
    expect(
        &text(&format!("{SENT} 13000200 13000301 170203 1900 120100 10")),
        &[
            "2f0006",
            "200000000002",
            "200100000002",
            "21070000000002",
            "22000100000001",
            "22070000000002",
            "22070100000001",
            "3001",
            "flow clear",
        ],
    );
}

#[test]
fn nested_brackets_hand_their_out_sets_outwards() {
    expect(
        &text("010101000101 020000 1901 1900 120000 10"),
        &[
            "2f0004",
            "22000000000001",
            "22010000000001",
            "22070000000001",
            "3001",
            "flow clear",
        ],
    );
}

#[test]
fn nested_brackets_hand_their_in_sets_outwards() {
    expect(
        &text("010101010101 020000 15 120000 10 1901 1900 13000100 10"),
        &[
            "2f0005",
            "200000000001",
            "21000000000001",
            "21010000000001",
            "21070000000001",
            "22070000000001",
            "3001",
            "flow clear",
        ],
    );
}
