//! What names mean: the innermost giver wins, a receive looks its x up outside,
//! and binders and channels are shared by those who carry the same.

mod common;

use common::{expect, text};

#[test]
fn a_restriction_hides_a_free_name() {
    expect(
        &text("010102000001 020000 160001 120000 10"),
        &["2f0002", "22070100000002", "3001", "flow clear"],
    );
}

#[test]
fn a_restriction_ends_with_its_branch() {
    expect(
        &text("010102000001 020000 15 160001 10 120000 10"),
        &["2f0002", "22070000000001", "3001", "flow clear"],
    );
    expect(
        &text("010101000000 15 160500 10 120505 10"),
        &["3f090005", "refused"],
    );
}

#[test]
fn a_restriction_hides_a_restriction() {
    expect(
        &text("010102000000 160000 160001 120000 10"),
        &["2f0002", "22070100000002", "3001", "flow clear"],
    );
}

#[test]
fn a_receive_ends_with_its_branch() {
    expect(
        &text("010101010001 020000 15 13000500 10 120005 10"),
        &["3f090006", "refused"],
    );
}

#[test]
fn a_receive_looks_x_up_outside_and_binds_y_inside() {
    expect(
        &text("010102010002 020000 020101 15 120001 10 13000000 120001 10"),
        &[
            "2f0005",
            "200000000002",
            "21070000000002",
            "22070000000002",
            "22070100000002",
            "3001",
            "flow clear",
        ],
    );
    expect(&text("010101010000 13050500 10"), &["3f090002", "refused"]);
}

#[test]
fn an_inner_receive_hides_an_outer_one() {
    expect(
        &text(
            "010102020002 020000 020101 15 120001 10 15 120100 10 \
             13000200 13010201 120202 10",
        ),
        &[
            "2f0007",
            "200000000003",
            "200100000001",
            "21070000000003",
            "21070100000001",
            "22070000000003",
            "22070100000001",
            "3001",
            "flow clear",
        ],
    );
}

#[test]
fn a_restriction_hides_a_received_name() {
    expect(
        &text("010103010002 020000 020101 15 120001 10 13000200 160202 120202 10"),
        &[
            "2f0004",
            "200000000002",
            "21070000000002",
            "22070000000002",
            "22070200000004",
            "3001",
            "flow clear",
        ],
    );
}

#[test]
fn two_receives_share_a_binder() {
    expect(
        &text(
            "010102010002 020000 020101 15 120000 10 15 120101 10 \
             15 13000200 10 13010300 120003 10",
        ),
        &[
            "2f0006",
            "200000000003",
            "21070000000003",
            "21070100000002",
            "22070000000003",
            "22070100000002",
            "3001",
            "flow clear",
        ],
    );
}

#[test]
fn two_restrictions_share_a_channel() {
    expect(
        &text("010101010000 15 160000 120000 10 160100 13010200 10"),
        &[
            "2f0004",
            "200000000001",
            "21070000000001",
            "22070000000001",
            "3001",
            "flow clear",
        ],
    );
}
