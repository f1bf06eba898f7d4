//! Vectors: the records that are stored beside the product's batch program,
//! with this program's answers to them. Those about labels have their own files.

use crate::drawing::Drawing;
use crate::reading::{read, LONGEST_TEXT};
use crate::records::{Record, LONGEST_RECORD_TEXT};
use crate::solving::{solve, AMPLE_ROUNDS};
use crate::vectors_of_labels::{labelled_breaches, labelled_plans};
use crate::vectors_of_words::{all_labels, shown_labels};

/// How many random records the vectors have, the length in bytes that the text of
/// none exceeds, and the seed that gives them.
const RANDOM_RECORDS: usize = 3_000;
const LONGEST_RANDOM_TEXT: usize = 2_048;
const SEED: u64 = 2026;

/// The plan of 251 nodes that takes 3,073 rounds.
const RELAY: &[u8] = include_bytes!("../tests/plans/relay.plan");

/// The plans with known sheets, and the texts at an edge, a word for a line.
const KNOWN: &[&str] = &[
    "010101000000 10",
    "010102010102 020000 020101 15 1901 120001 10 1900 13000200 10",
    "010102010102 020000 020101 15 1900 120001 10 1901 13000200 10",
    "010102010102 020000 020101 15 1901 120001 10 1901 13000200 10",
    "010102010102 020000 020101 15 120001 10 1900 13000200 10",
    "010103040203 020000 020101 020202 18 \
     15 1900 120001 120001 120102 10 \
     15 1901 13000300 120303 10 \
     1902 13000401 13040502 14 170405 120400 10 13040603 10",
    "010101010001 020000 13000100 120000 10",
    "010102000002 020000 020101 170001 120001 10",
    "010101000000",
    "010101000000 10 10",
    "010120000000 10",
    "010121000000 10",
    "010100000000 10",
    "010101200000 10",
    "010101210000 10",
    "010101000600 10",
    "010101000700 10",
    "010101000001 023f00 123f3f 10",
    "010101000001 024000 10",
    "010101000000 123f3f 10",
    "010101000000 124000 10",
    "010101000000 164000 10",
    "010201000000 10",
    "0101010000 10",
    "010101000002 020000 020000 10",
    "0A",
];

/// Plans whose reach sheets tell much, a word for a line.
const REACHING: &[&str] = &[
    // A household outside every desk sends its handle, channel 2, to level 0,
    // and level 1 does not get it; then level 0 hands it on to level 1.
    "010103020102 020000 020101 15 160202 120002 10 \
     15 1900 13000300 10 1901 13010401 10",
    "010103020102 020000 020101 15 160202 120002 10 \
     15 1900 13000300 120103 10 1901 13010401 10",
    // Handles received on two channels, sent on the larger one first.
    "010103010003 020000 020101 020202 15 120200 120100 120201 120202 120002 10 \
     1900 15 13020300 10 15 13010300 10 13000300 10",
    // The smaller channel is served only after the larger one was received on.
    "010103020003 020000 020101 020202 15 120202 10 \
     1900 13020300 15 120002 10 13000401 10",
    // Channel 31 received on itself, at level 6.
    "010120010601 02001f 15 120000 10 1906 13000100 10",
    // Brackets in a bracket: the outer level has what the inner ones receive,
    // and no inner one has what the outer or another inner one receives.
    "010103010203 020000 020101 020202 15 120001 120102 120200 10 \
     1901 15 1902 13000300 10 15 13010300 10 1900 13020300 10",
    // Two levels that share a binder receive different handles.
    "010102010102 020000 020101 15 120001 120100 10 \
     15 1900 13000200 10 1901 13010200 10",
    // Much is sent and nothing is received.
    "010102010602 020000 020101 15 1906 120001 120101 10 \
     170001 13000200 10",
];

/// Plans with offers and texts whose offers are at an edge, a word for a line.
const OFFERING: &[&str] = &[
    // The outside offers channel 0 on itself, and nobody takes it.
    "010101000000 030000000001 10",
    // A desk receives the offer; nobody else sends.
    "010102010102 020000 020101 030000000002 1900 13000200 10",
    // A desk at level 1 hands on to level 0 the handle that it received.
    "010103020102 020000 020101 030000000004 15 1901 13000300 120103 10 1900 13010401 10",
    // Offers without a free name: one channel is received on, the other is not.
    "010102010000 030000000002 030100000001 160000 13000100 10",
    // An offer on a channel that nobody receives on, beside a receive.
    "010102010002 020000 020101 030100000001 13000200 10",
    // The last channel offered on the last channel, then a channel, a bit, and a
    // bit of the highest byte that are past it.
    "010102000000 030100000002 10",
    "010102000000 030200000001 10",
    "010102000000 030000000004 10",
    "01011f000000 030080000000 10",
    "010120000000 032000000001 10",
    // Channels that descend, and equal ones.
    "010102000000 030100000001 030000000001 10",
    "010102000000 030000000001 030000000002 10",
    // Empty sets, alone and after a good offer.
    "010101000000 030000000000 10",
    "010102000000 030000000001 030100000000 10",
    // Two faults of one line: a limit and the order, the order and an empty set,
    // a limit and an empty set.
    "010102000000 030100000001 030000000004 10",
    "010102000000 030100000001 030000000000 10",
    "010102000000 030200000000 10",
    // Five bytes and seven, and a length before a limit.
    "010101000000 0300000001 10",
    "010101000000 03000000000100 10",
    "010101000000 03ff 10",
    // The text ends after the offers.
    "010101000000 030000000001",
    // Offers before a free name, after a node and after the tree, and frames that
    // may not follow an offer.
    "010101000001 030000000001 020000 10",
    "010101000000 11 030000000001 10",
    "010101000000 10 030000000001",
    "010101000000 030000000001 020000 10",
    "010101000000 030000000001 010101000000 10",
    "010101000000 030000000001 05 10",
    "010101000000 030000000001 0f 10",
];

/// Every record of the vectors: the known plans, those chosen for their reach
/// sheets, their offers or their labels and the edges, each answered one under the
/// allowances around its count too; the plans that differ only in their labels
/// under the ample allowance; then the random ones.
pub fn vectors() -> Vec<Record> {
    let known = KNOWN.iter().chain(REACHING).chain(OFFERING);
    let texts = known
        .map(|words| text(words))
        .chain(labelled_plans())
        .chain(edges())
        .chain([longest_reach(), all_offers(), RELAY.to_vec()]);
    let around = texts.flat_map(|text| {
        let allowances = allowances(&text);
        allowances.into_iter().map(move |allowance| Record {
            text: text.clone(),
            allowance,
        })
    });
    let labelled = labelled_breaches()
        .into_iter()
        .chain(shown_labels())
        .chain([all_labels()])
        .map(|text| Record {
            text,
            allowance: AMPLE_ROUNDS,
        });
    let short = |record: &Record| record.text.len() <= LONGEST_RANDOM_TEXT;
    let random = Drawing::new(SEED).filter(short).take(RANDOM_RECORDS);
    around.chain(labelled).chain(random).collect()
}

/// The edges that are long, or no lines of words.
fn edges() -> Vec<Vec<u8>> {
    let head = "010101000000 ";
    let free: String = (0..64).map(|name| format!("02{name:02x}00 ")).collect();
    let steps = "11 ".repeat(31);
    let mut longest = text("010101000000 10");
    longest.resize(LONGEST_TEXT, b'z');
    let mut longer = longest.clone();
    longer.push(b'\n');
    let mut longest_of_a_record = longest.clone();
    longest_of_a_record.resize(LONGEST_RECORD_TEXT, b'z');
    vec![
        Vec::new(),
        b"\n".to_vec(),
        b"010101000000\n10".to_vec(),
        b"010101000000\r\n10\r\n".to_vec(),
        text(&format!("010101000040 {free} 10")),
        text(&format!("010101000041 {free} 10")),
        text(&format!("{head}{}", bush(256))),
        text(&format!("{head}{}", bush(257))),
        text(&format!("{head}{steps} 10")),
        text(&format!("{head}{steps} 11 10")),
        longest,
        longer,
        longest_of_a_record,
    ]
}

/// The text whose lines are the words, each with a line feed.
pub fn text(words: &str) -> Vec<u8> {
    let lines = words.split_whitespace().map(|word| format!("{word}\n"));
    lines.collect::<String>().into_bytes()
}

/// The plan with the longest reach sheet: handle h is sent on channel 31, then on
/// 31 - h, and everything is received inside seven brackets, one in another, so
/// that every level receives every handle.
pub fn longest_reach() -> Vec<u8> {
    let free: String = (0..32)
        .map(|name| format!("02{name:02x}{name:02x} "))
        .collect();
    let sends = (0..32).map(|handle| {
        let channel = 31 - handle;
        format!("121f{handle:02x} 12{channel:02x}{handle:02x} 10 ")
    });
    let receives = (0..32).map(|channel| format!("13{channel:02x}2000 10 "));
    let brackets: String = (0..7).map(|level| format!("19{level:02x} ")).collect();
    let sends = side_by_side(&sends.collect::<Vec<String>>());
    let receives = side_by_side(&receives.collect::<Vec<String>>());
    text(&format!(
        "010120010620 {free} 15 {sends} {brackets} {receives}"
    ))
}

/// The plan with the most and the largest offers: every channel of 32 on every
/// channel.
pub fn all_offers() -> Vec<u8> {
    let offers: String = (0..32)
        .map(|channel| format!("03{channel:02x}ffffffff "))
        .collect();
    text(&format!("010120000000 {offers} 10"))
}

/// The words of the parts, of which there is at least one, joined by parallel
/// nodes.
fn side_by_side(parts: &[String]) -> String {
    if let [part] = parts {
        return part.clone();
    }
    let (first, second) = parts.split_at(parts.len() / 2);
    "15 ".to_string() + &side_by_side(first) + &side_by_side(second)
}

/// The words of a tree of exactly so many nodes and of small depth.
pub fn bush(nodes: usize) -> String {
    match nodes {
        1 => "10 ".to_string(),
        2 => "11 10 ".to_string(),
        _ => {
            let first = (nodes - 1) / 2;
            "15 ".to_string() + &bush(first) + &bush(nodes - 1 - first)
        }
    }
}

/// The ample allowance, and for a plan that is taken 0 and those around its
/// count.
fn allowances(text: &[u8]) -> Vec<u16> {
    let solved = read(text).ok().and_then(|plan| solve(&plan, AMPLE_ROUNDS));
    match solved {
        Some((_, count)) => vec![AMPLE_ROUNDS, 0, count - 1, count, count + 1],
        None => vec![AMPLE_ROUNDS],
    }
}
