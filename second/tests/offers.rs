//! The offers of the outside: how they are read and refused, what they add to a
//! solution and its count, and that they weigh the same as sends at #.

mod common;

use common::{expect, text};
use second::chance::Chance;
use second::frames::encode;
use second::making::{make_plan, Frames};
use second::plan::{Offers, Set};
use second::reach::reach;
use second::reading::{read, Refusal};
use second::sheet::sheet;
use second::solving::AMPLE_ROUNDS;
use second::vectors::{all_offers, bush};

const P1_OFFER: &str = "010101000000 030000000001 10";
const P1_OFFER_SHEET: [&str; 4] = ["2f0002", "22070000000001", "3001", "flow clear"];

/// Checks that a text is refused with the given first line, on both sheets.
#[track_caller]
fn refused(words: &str, line: &str) {
    expect(&text(words), &[line, "refused"]);
    let reach = reach(&text(words), AMPLE_ROUNDS);
    assert_eq!(reach, format!("{line}\nrefused\n"));
}

#[test]
fn p1_with_an_offer() {
    expect(&text(P1_OFFER), &P1_OFFER_SHEET);
    assert_eq!(reach(&text(P1_OFFER), AMPLE_ROUNDS), "reach complete\n");
}

/// The offers are added in the first round, and the second adds nothing.
#[test]
fn an_offer_takes_two_rounds() {
    let plan = text(P1_OFFER);
    for allowance in [0, 1] {
        assert_eq!(sheet(&plan, allowance), "3f0e0000\nrefused\n");
    }
    for allowance in [2, 3, u16::MAX] {
        assert_eq!(sheet(&plan, allowance), P1_OFFER_SHEET.join("\n") + "\n");
    }
}

/// Were the offer seen in the round that adds it, the count would be 3.
#[test]
fn a_desk_receives_an_offer() {
    let plan = text("010102010102 020000 020101 030000000002 1900 13000200 10");
    expect(
        &plan,
        &[
            "2f0004",
            "200000000002",
            "21000000000002",
            "21070000000002",
            "22070000000002",
            "3001",
            "flow clear",
        ],
    );
    assert_eq!(
        reach(&plan, AMPLE_ROUNDS),
        "23000100\n23070100\nreach complete\n"
    );
}

#[test]
fn a_desk_hands_an_offer_down() {
    expect(
        &text(
            "010103020102 020000 020101 030000000004 \
             15 1901 13000300 120103 10 1900 13010401 10",
        ),
        &[
            "2f0007",
            "200000000004",
            "200100000004",
            "21000100000004",
            "21010000000004",
            "21070000000004",
            "21070100000004",
            "22010100000004",
            "22070000000004",
            "22070100000004",
            "300001000102",
            "flow breach",
        ],
    );
}

/// The out sets that a breach compares with are those of levels 0 to k.
#[test]
fn an_offer_alone_is_no_breach() {
    expect(
        &text("010101010601 020000 030000000001 15 1900 13000100 10 1906 13000100 10"),
        &[
            "2f0004",
            "200000000001",
            "21000000000001",
            "21060000000001",
            "21070000000001",
            "22070000000001",
            "3001",
            "flow clear",
        ],
    );
}

#[test]
fn an_offer_that_nobody_receives() {
    expect(
        &text("010102010002 020000 020101 030100000001 13000200 10"),
        &["2f0002", "22070100000001", "3001", "flow clear"],
    );
}

#[test]
fn offers_without_free_names() {
    expect(
        &text("010102010000 030000000002 030100000001 160000 13000100 10"),
        &[
            "2f0004",
            "200000000002",
            "21070000000002",
            "22070000000002",
            "22070100000001",
            "3001",
            "flow clear",
        ],
    );
}

#[test]
fn an_offer_and_a_send_share_an_out_set() {
    expect(
        &text("010102000002 020000 020101 030000000002 120000 10"),
        &["2f0002", "22070000000003", "3001", "flow clear"],
    );
}

#[test]
fn every_channel_offered_on_every_channel() {
    let mut lines = vec!["2f0002".to_string()];
    lines.extend((0..32).map(|channel| format!("2207{channel:02x}ffffffff")));
    lines.extend(["3001".to_string(), "flow clear".to_string()]);
    assert_eq!(sheet(&all_offers(), 2), lines.join("\n") + "\n");
}

#[test]
fn offers_are_read_with_the_high_byte_first() {
    let plan = read(&text("010120000000 030080010200 031f00000001 10")).expect("a good plan");
    let expected = Offers::from([(0, Set::from([31, 16, 9])), (31, Set::from([0]))]);
    assert_eq!(plan.offers, expected);
    let plan = read(&text("010120000000 10")).expect("a good plan");
    assert_eq!(plan.offers, Offers::new());
}

#[test]
fn channel_at_and_past_its_limit() {
    expect(
        &text("010102000000 030100000001 10"),
        &["2f0002", "22070100000001", "3001", "flow clear"],
    );
    refused("010102000000 030200000001 10", "3f070002");
    refused("010102000000 03ff00000001 10", "3f070002");
    refused("010120000000 032000000001 10", "3f070002");
    refused("010102000000 030000000001 030200000001 10", "3f070003");
}

#[test]
fn set_bit_at_and_past_its_limit() {
    expect(
        &text("010102000000 030000000002 10"),
        &["2f0002", "22070000000002", "3001", "flow clear"],
    );
    for channels in 1..32 {
        let bit = |number: u32| format!("0101{channels:02x}000000 0300{:08x} 10", 1_u32 << number);
        assert!(read(&text(&bit(channels - 1))).is_ok());
        for past in channels..32 {
            refused(&bit(past), "3f070002");
        }
    }
    refused("01011f000000 030081000000 10", "3f070002");
    assert!(read(&text("010120000000 030080000000 10")).is_ok());
}

#[test]
fn channels_not_ascending() {
    let head = "010103000001 020500";
    refused(&format!("{head} 030100000001 030000000001 10"), "3f080004");
    refused(&format!("{head} 030100000001 030100000002 10"), "3f080004");
    refused(
        &format!("{head} 030000000001 030200000001 030100000001 10"),
        "3f080005",
    );
    assert!(read(&text(&format!("{head} 030000000001 030200000001 10"))).is_ok());
}

#[test]
fn empty_set() {
    refused("010101000000 030000000000 10", "3f100002");
    refused("010120000000 031f00000000 10", "3f100002");
    refused("010102000000 030000000001 030100000000 10", "3f100003");
}

/// A refused reading is answered before any round is allowed.
#[test]
fn an_empty_set_comes_before_the_allowance() {
    let plan = text("010101000000 030000000000 10");
    assert_eq!(sheet(&plan, 0), "3f100002\nrefused\n");
    assert_eq!(
        read(&plan),
        Err(Refusal {
            number: 16,
            line: 2
        })
    );
}

#[test]
fn order_within_an_offer() {
    refused("010102000000 030100000001 030000000004 10", "3f070003");
    refused("010102000000 030100000001 030100000004 10", "3f070003");
    refused("010102000000 030200000000 10", "3f070002");
    refused("010102000000 030100000001 030000000000 10", "3f080003");
    refused("010102000000 030100000001 030100000000 10", "3f080003");
    refused("010102000000 030100000001 0300000004 10", "3f040003");
    refused("010102000000 030100000001 03ff 10", "3f040003");
    refused("010102000000 030100000001 0300000000000 10", "3f020003");
}

#[test]
fn wrong_number_of_bytes() {
    for offer in ["03", "0300", "0300000001", "03000000000100"] {
        refused(&format!("010101000000 {offer} 10"), "3f040002");
    }
}

#[test]
fn offers_stand_between_the_free_names_and_the_tree() {
    let offer = "030000000001";
    refused(offer, "3f030001");
    refused(&format!("010101000001 {offer} 020000 10"), "3f030002");
    refused(
        &format!("010101000002 020000 {offer} 020100 10"),
        "3f030003",
    );
    refused(
        &format!("010101000001 020000 {offer} 020100 10"),
        "3f030004",
    );
    refused(&format!("010101000000 11 {offer} 10"), "3f030003");
    refused(&format!("010101000000 15 10 {offer} 10"), "3f030004");
    refused(&format!("010101000000 {offer} 11 {offer} 10"), "3f030004");
    refused(&format!("010101000000 10 {offer}"), "3f0d0003");
    refused("010101000001 03", "3f030002");
    refused("010101000000 11 03", "3f030003");
    for first in ["00", "01", "02", "05", "0f", "1a", "ff"] {
        refused(&format!("010101000000 {offer} {first}"), "3f030003");
    }
}

#[test]
fn text_that_ends_after_the_offers() {
    refused("010101000000 030000000001", "3f0c0003");
    refused("010102000001 020000 030000000001 030100000001", "3f0c0005");
    refused("010101000000 030000000001 11", "3f0c0004");
}

/// Offers are no nodes, and the root below them has depth 1.
#[test]
fn offers_do_not_count_as_nodes() {
    let head = "010101000000 030000000001";
    let steps = "11 ".repeat(31);
    expect(&text(&format!("{head} {}", bush(256))), &P1_OFFER_SHEET);
    refused(&format!("{head} {}", bush(257)), "3f0a0103");
    expect(&text(&format!("{head} {steps} 10")), &P1_OFFER_SHEET);
    refused(&format!("{head} {steps} 11 10"), "3f0b0023");
}

#[test]
fn an_offer_gives_no_name_a_meaning() {
    refused("010101000000 030000000001 120000 10", "3f090003");
}

/// The frames of a plan in which, for every channel offered on another, a part at
/// the top sends the one on the other under two restrictions, and no offers.
fn offers_as_sends(frames: &[Vec<u8>]) -> Frames {
    let (offers, others): (Frames, Frames) =
        frames.iter().cloned().partition(|frame| frame[0] == 0x03);
    let (mut plan, tree): (Frames, Frames) = others.into_iter().partition(|frame| frame[0] < 0x10);
    for offer in offers {
        for handle in 0..32 {
            let byte = offer[5 - usize::from(handle / 8)];
            if byte >> (handle % 8) & 1 == 1 {
                plan.extend([vec![0x15], vec![0x16, 0, offer[1]], vec![0x16, 1, handle]]);
                plan.extend([vec![0x12, 0, 1], vec![0x10]]);
            }
        }
    }
    plan.extend(tree);
    plan
}

#[test]
fn offers_weigh_the_same_as_sends_outside_every_bracket() {
    let mut chance = Chance::new(16);
    let mut compared = 0;
    for _ in 0..3_000 {
        let offering = make_plan(&mut chance);
        let sending = offers_as_sends(&offering);
        let [offering, sending] = [offering, sending]
            .map(|frames| frames.iter().map(|frame| encode(frame)).collect::<String>());
        if offering != sending && read(sending.as_bytes()).is_ok() {
            let [offered, sent] =
                [offering, sending].map(|plan| sheet(plan.as_bytes(), AMPLE_ROUNDS));
            assert_eq!(offered, sent);
            compared += 1;
        }
    }
    assert!(compared > 800, "{compared}");
}
