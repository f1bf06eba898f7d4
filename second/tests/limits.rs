//! The edges: head, names, nodes, depth and length at their limits and past.

mod common;

use common::{expect, text};
use second::vectors::bush;

const CLEAR: [&str; 3] = ["2f0001", "3001", "flow clear"];

/// The words of a plan that has so many nodes before a given last line at the
/// given depth, which is at least 2.
fn before_last(nodes: usize, depth: usize, last: &str) -> Vec<u8> {
    let steps = "11 ".repeat(depth - 2);
    let beside = bush(nodes - 1 - (depth - 2));
    text(&format!("010101000000 15 {beside}{steps}{last}"))
}

#[test]
fn head_at_its_limits() {
    expect(&text("010120000000 10"), &CLEAR);
    expect(&text("010121000000 10"), &["3f060001", "refused"]);
    expect(&text("010100000000 10"), &["3f060001", "refused"]);
    expect(&text("010101200000 10"), &CLEAR);
    expect(&text("010101210000 10"), &["3f060001", "refused"]);
    expect(&text("010101000600 10"), &CLEAR);
    expect(&text("010101000700 10"), &["3f060001", "refused"]);
}

#[test]
fn free_names_at_their_limit() {
    let free: String = (0..64).map(|name| format!("02{name:02x}00 ")).collect();
    expect(&text(&format!("010101000040 {free} 10")), &CLEAR);
    expect(
        &text(&format!("010101000041 {free} 10")),
        &["3f060001", "refused"],
    );
    expect(&text("010101000001 023f00 10"), &CLEAR);
    expect(&text("010101000001 024000 10"), &["3f070002", "refused"]);
}

#[test]
fn name_63_and_name_64_in_nodes() {
    expect(
        &text("010101000000 163f00 123f3f 10"),
        &["2f0002", "22070000000001", "3001", "flow clear"],
    );
    expect(&text("010101000000 123f3f 10"), &["3f090002", "refused"]);
    expect(&text("010101000000 124040 10"), &["3f070002", "refused"]);
    expect(&text("010101000000 164000 10"), &["3f070002", "refused"]);
}

#[test]
fn channel_31_and_level_6() {
    expect(
        &text("010120000601 02001f 1906 120000 10"),
        &[
            "2f0003",
            "22061f80000000",
            "22071f80000000",
            "3001",
            "flow clear",
        ],
    );
    expect(
        &text("010120000601 020020 1906 120000 10"),
        &["3f070002", "refused"],
    );
    expect(
        &text("010120000601 02001f 1907 120000 10"),
        &["3f070003", "refused"],
    );
}

#[test]
fn binder_31() {
    expect(
        &text("010101200001 020000 15 120000 10 1300011f 10"),
        &[
            "2f0004",
            "201f00000001",
            "21070000000001",
            "22070000000001",
            "3001",
            "flow clear",
        ],
    );
    expect(
        &text("010101200001 020000 15 120000 10 13000120 10"),
        &["3f070006", "refused"],
    );
}

#[test]
fn nodes_256_and_257() {
    expect(&text(&format!("010101000000 {}", bush(256))), &CLEAR);
    expect(
        &text(&format!("010101000000 {}", bush(257))),
        &["3f0a0102", "refused"],
    );
}

#[test]
fn depth_32_and_33() {
    let steps = "11 ".repeat(31);
    expect(&text(&format!("010101000000 {steps} 10")), &CLEAR);
    expect(
        &text(&format!("010101000000 {steps} 11 10")),
        &["3f0b0022", "refused"],
    );
}

#[test]
fn a_node_past_both_limits_is_refused_for_its_number() {
    expect(&before_last(256, 33, "10"), &["3f0a0102", "refused"]);
    expect(&before_last(255, 33, "10"), &["3f0b0101", "refused"]);
    expect(&before_last(255, 32, "10"), &CLEAR);
}

#[test]
fn a_node_past_a_limit_is_refused_before_its_numbers_are_judged() {
    expect(&before_last(256, 9, "124040"), &["3f0a0102", "refused"]);
    expect(&before_last(256, 9, "120000"), &["3f0a0102", "refused"]);
    expect(&before_last(40, 33, "124040"), &["3f0b002a", "refused"]);
    expect(&before_last(40, 33, "120000"), &["3f0b002a", "refused"]);
}

#[test]
fn a_line_is_judged_before_the_node_is_counted() {
    expect(&before_last(256, 33, "1g"), &["3f020102", "refused"]);
    expect(&before_last(256, 33, "1a"), &["3f030102", "refused"]);
    expect(&before_last(256, 33, "1000"), &["3f040102", "refused"]);
    expect(&before_last(256, 33, ""), &["3f0c0102", "refused"]);
}

#[test]
fn length_16384_and_16385() {
    let mut long = text("010101000000 10");
    long.resize(16_384, b'z');
    expect(&long, &["3f0d0003", "refused"]);
    long.push(b'\n');
    expect(&long, &["3f010000", "refused"]);
    expect(&vec![b'\n'; 16_384], &["3f020001", "refused"]);
    expect(&vec![b'\n'; 65_536], &["3f010000", "refused"]);
}
