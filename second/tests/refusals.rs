//! Every refusal of the reading, with its line, and the order in which a line's
//! faults are judged. The limits have their own file, and so have the offers and
//! the labels.

mod common;

use common::{expect, text};

/// Checks that a text is refused with the given first line of the sheet.
#[track_caller]
fn refused(text: &[u8], line: &str) {
    expect(text, &[line, "refused"]);
}

#[test]
fn line_without_line_feed() {
    refused(b"010101000000\n10", "3f020002");
    refused(b"010101000000", "3f020001");
    refused(b"0", "3f020001");
    refused(b"010101000001\n020000\n11\n1", "3f020004");
}

#[test]
fn line_with_another_character() {
    refused(&text("0A"), "3f020001");
    refused(&text("010101000000 0A"), "3f020002");
    refused(&text("010101000000 1g"), "3f020002");
    refused(b"010101000000\n10 \n", "3f020002");
    refused(b"010101000000\r\n10\r\n", "3f020001");
    refused(b"010101000000\n1/\n", "3f020002");
    refused(b"010101000000\n1:\n", "3f020002");
    refused(b"010101000000\n1`\n", "3f020002");
    refused(b"010101000000\n\xff\x00\n", "3f020002");
}

#[test]
fn line_of_odd_length_or_empty() {
    refused(&text("010101000000 100"), "3f020002");
    refused(&text("01010100000 10"), "3f020001");
    refused(b"\n", "3f020001");
    refused(b"010101000000\n\n10\n", "3f020002");
}

#[test]
fn first_byte_that_is_not_allowed() {
    refused(&text("10"), "3f030001");
    refused(&text("020000"), "3f030001");
    refused(&text("000101000000 10"), "3f030001");
    refused(&text("010101000001 10"), "3f030002");
    refused(&text("010101000001 010101000000"), "3f030002");
    refused(&text("010101000002 020000 10"), "3f030003");
    refused(&text("010101000000 010101000000"), "3f030002");
    refused(&text("010101000001 020000 020100 10"), "3f030003");
    refused(&text("010101000000 11 020000"), "3f030003");
    for first in ["00", "05", "0f", "1a", "20", "2f", "ff"] {
        refused(&text(&format!("010101000000 {first}")), "3f030002");
    }
}

#[test]
fn wrong_number_of_bytes() {
    for head in ["01", "0101010000", "01010100000000"] {
        refused(&text(&format!("{head} 10")), "3f040001");
    }
    for free in ["02", "0200", "02000000"] {
        refused(&text(&format!("010101000001 {free} 10")), "3f040002");
    }
    for node in [
        "1000",
        "1100",
        "12",
        "1200",
        "12000000",
        "13",
        "130000",
        "1300000000",
        "1400",
        "1500",
        "16",
        "1600",
        "16000000",
        "17",
        "1700",
        "17000000",
        "1800",
        "19",
        "190000",
    ] {
        let plan = format!("010101010001 020000 {node} 10");
        refused(&text(&plan), "3f040003");
    }
}

#[test]
fn edition_other_than_01() {
    for edition in ["00", "02", "ff"] {
        refused(&text(&format!("01{edition}01000000 10")), "3f050001");
    }
}

#[test]
fn head_outside_its_limits() {
    for numbers in ["00000000", "21000000", "01210000", "01000700", "01000041"] {
        refused(&text(&format!("0101{numbers} 10")), "3f060001");
    }
}

#[test]
fn number_over_its_limit() {
    refused(&text("010101000001 024000 10"), "3f070002");
    refused(&text("010101000001 020001 10"), "3f070002");
    for node in [
        "124000", "120040", "13400000", "13004000", "13000001", "164000", "160001", "174000",
        "170040", "1902", "1907",
    ] {
        let plan = format!("010101010101 020000 11 {node} 10");
        refused(&text(&plan), "3f070004");
    }
    refused(&text("010101000001 020000 13000000 10"), "3f070003");
}

#[test]
fn free_names_not_ascending() {
    refused(&text("010101000002 020500 020500 10"), "3f080003");
    refused(&text("010101000002 020500 020400 10"), "3f080003");
    refused(&text("010101000003 020100 020500 020300 10"), "3f080004");
}

#[test]
fn name_without_meaning() {
    for node in ["120500", "120005", "13050600", "170500", "170005"] {
        let plan = format!("010101010001 020000 {node} 10");
        refused(&text(&plan), "3f090003");
    }
}

#[test]
fn text_that_ends_too_early() {
    refused(&text("010101000000"), "3f0c0002");
    refused(&text("010101000001"), "3f0c0002");
    refused(&text("010101000002 020000"), "3f0c0003");
    refused(&text("010101000001 020000"), "3f0c0003");
    refused(&text("010101000000 11"), "3f0c0003");
    refused(&text("010101000000 15 10"), "3f0c0004");
    refused(&text("010101000000 14 11 10 11"), "3f0c0006");
}

#[test]
fn bytes_after_the_tree() {
    refused(&text("010101000000 10 10"), "3f0d0003");
    refused(&text("010101000000 15 10 10 10 10"), "3f0d0005");
}

#[test]
fn line_after_the_tree_is_not_looked_at() {
    for line in ["\n", "z", "0A\n", "1", "10", "020000\n", "\0", "1g\n"] {
        let plan = [text("010101000000 10"), line.as_bytes().to_vec()].concat();
        refused(&plan, "3f0d0003");
    }
}

#[test]
fn form_comes_before_kind_and_kind_before_length() {
    refused(&text("ff0"), "3f020001");
    refused(b"ff", "3f020001");
    refused(&text("010101000000 fF"), "3f020002");
    refused(&text("02"), "3f030001");
    refused(&text("010101000001 10000000"), "3f030002");
    refused(&text("010101000000 1a00000000"), "3f030002");
}

#[test]
fn order_within_the_head() {
    refused(&text("0102"), "3f040001");
    refused(&text("010221210741 10"), "3f050001");
    refused(&text("010121210741 10"), "3f060001");
}

#[test]
fn order_within_a_free_name() {
    refused(&text("010101000002 020500 024000"), "3f070003");
    refused(&text("010101000002 020500 020401"), "3f070003");
    refused(&text("010101000002 020500 0204"), "3f040003");
}

#[test]
fn all_numbers_of_a_node_come_before_its_meanings() {
    refused(&text("010101010000 124000 10"), "3f070002");
    refused(&text("010101010000 120040 10"), "3f070002");
    refused(&text("010101010000 170540 10"), "3f070002");
    refused(&text("010101010000 13050640 10"), "3f070002");
    refused(&text("010101010000 13054000 10"), "3f070002");
}

#[test]
fn the_first_faulty_line_decides() {
    refused(b"010101000000\n11\n120000\nzz", "3f090003");
    refused(&text("010101000000 11 1g 120000"), "3f020003");
    refused(&text("010201000000 1g"), "3f050001");
    refused(&text("010101000000 120000"), "3f090002");
}
