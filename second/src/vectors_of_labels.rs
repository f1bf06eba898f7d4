//! The vectors about the reading of labels: texts whose labels are at an edge, many
//! of them of a plan with a breach, so that labels that are taken show. Those about
//! what is shown of a label have their own file.

use crate::labels::{LONGEST_LABEL, LONGEST_SHOWN};
use crate::vectors::text;

/// The lines before and after the labels of a plan with C 2, B 1 and k 1, in which
/// level 1 sends handle 1 to level 0 on channel 0.
const BEFORE: &str = "010102010102 020000 020101";
const AFTER: &str = "15 1901 120001 10 1900 13000200 10";

/// The kinds and numbers of what the breach of that plan names, in the order of
/// the labels: its channel, its handle, its low and its high level.
pub const NAMED: [[u8; 2]; 4] = [[0, 0], [0, 1], [2, 0], [2, 1]];

/// Whole plans, a word for a line.
const PLANS: &[&str] = &[
    // Nothing is sent down: a label of each kind, and one of level 07.
    "010102010102 020000 020101 040000d0b0 040100d0b1 040200d0b2 040207d0b3 \
     15 1900 120001 10 1901 13000200 10",
    // A breach with offers and labels, in which the outside's handle is named.
    "010103020102 020000 020101 030000000004 0400026f7574 040201c3a9 \
     15 1901 13000300 120103 10 1900 13010401 10",
    // The highest numbers without labels, with their labels and with other ones.
    "010120010602 02001f 02011e 15 1906 120001 10 1905 13000200 10",
    "010120010602 02001f 02011e 04001e68616e646c65 04001f726f6164 0402056c6f77 0402066869 \
     15 1906 120001 10 1905 13000200 10",
    "010120010602 02001f 02011e 04000078 04001d79 04020478 04020779 \
     15 1906 120001 10 1905 13000200 10",
    // A channel of two decimal digits that are not its hexadecimal ones.
    "01010b010102 02000a 020109 15 1901 120001 10 1900 13000200 10",
    // The channel is its own handle, without a label and with one.
    "010101010101 020000 15 1901 120000 10 1900 13000100 10",
    "010101010101 020000 040000e0a4aa 15 1901 120000 10 1900 13000100 10",
    // The last channel, binder and level of the largest head, and those past them.
    "010120000000 04001f61 10",
    "010120000000 04002061 10",
    "010101200000 04011f61 10",
    "010101200000 04012061 10",
    "010101000600 04020661 04020762 10",
    "010101000600 04020861 10",
    // A plan without binders; level 07 and level k + 1 of the smallest head and of
    // one with k 5.
    "010101000000 04010061 10",
    "010101000000 04020761 10",
    "010101000000 04020161 10",
    "010101000500 04020561 04020762 10",
    "010101000500 04020661 10",
    // The text ends after the labels, and after a label at a fault.
    "010101000000 04000061",
    "010101000000 04020061 04020061",
    // Labels first of all, before a free name, between two, instead of one, after
    // a node and after the tree.
    "04000061 010101000000 10",
    "010101000001 04000061 020000 10",
    "010101000002 020000 04000061 020100 10",
    "010101000001 04000061 10",
    "010101000000 11 04000061 10",
    "010101000000 15 10 04000061 10",
    "010101000000 10 04000061",
    // Labels before an offer and after one; a first byte is judged before a length.
    "010102000000 04000061 030000000001 10",
    "010102000000 030000000001 04000061 030100000001 10",
    "010102000000 030000000001 04000061 10",
    "010101000000 04000061 03 10",
    "010101000000 11 04 10",
    // Frames that may not follow a label.
    "010101000000 04000061 010101000000 10",
    "010101000000 04000061 020000 10",
    "010101000000 04000061 05 10",
    "010101000000 04000061 050000 10",
    "010101000000 04000061 0f 10",
    "010101000000 04000061 1a 10",
    // Two faulty lines: the first decides.
    "010102000000 04000061 04000161 030000000001 10",
    "010102000000 04000080 04000180 05 10",
    "010102000000 04000061 030000000001 04000161 10",
    "010102000000 030000000000 04000080 10",
    "010102000000 04000061 04000161 zz",
    "010102000000 04000161 04000061 04000080 10",
    "010102000000 04000061 04000161 11",
    "010102000000 04000061 1907 04000161",
];

/// Labels for the plan with a breach, a word for a line.
const LABELS: &[&str] = &[
    // Lines that end before the label, the number and the kind.
    "040000",
    "0400",
    "04",
    // Numbers at and past their limits, kind by kind; kinds past the last.
    "04000161",
    "04000261",
    "0400ff61",
    "04010061",
    "04010161",
    "0401ff61",
    "04020161",
    "04020261",
    "04020661",
    "04020761",
    "04020861",
    "0402ff61",
    "04030061",
    "04030761",
    "04ff0061",
    // Not ascending: the same number, a lower number and a lower kind.
    "04000061 04000062",
    "04000161 04000062",
    "04020161 04020062",
    "04020761 04020162",
    "04010061 04000162",
    "04020061 04010062",
    "04020061 04000162",
    "04000061 04020062 04010063",
    // Repeated in a kind, with another label between too.
    "04000061 04000161",
    "04020061 04020161",
    "04020061 04020761",
    "04020061 04020162 04020761",
    "040000e0a4aae0a4be 040001e0a4aae0a4be",
    // The same bytes in all kinds; a label that only begins or ends with another.
    "04000061 04010061 04020061",
    "04000061 0400016161",
    "0400006161 04000161",
    "040000c3a9 04000165cc81",
    // Labels that read like other things and like other lines.
    "0400006368616e6e656c2031 0400016368616e6e656c2030 0402006c6576656c2031 0402016c6576656c2030",
    "04000020 0400013a20 04020020746f20 040201206f6e20",
    "04000072656675736564 040001636c656172 040201627265616368",
    // Two faults of one line: the length and the kind or the number.
    "040300",
    "0400ff",
    "04000161 040000",
    // The number and the order, the number or the kind and the bytes, the number
    // and the repetition.
    "04010061 04000261",
    "04020061 04010161",
    "04000280",
    "04030080",
    "04000061 04000261",
    "04010061 04010161",
    // The order and the bytes, the order and the repetition.
    "04000161 04000080",
    "04000061 04000080",
    "04010061 04000080",
    "04000061 04000061",
    "04000061 04020062 04000061",
    // A fault of a line and another one of the next line.
    "04020061 04030061 04000080",
    "04020061 04020161 04000161",
    "04000161 04000062 040001",
    "040000ff 04000161 04000062",
    // The same bytes twice, which may not stand in a label even once.
    "04000080 04000180",
    // Digits of another case, an odd number of them, and none.
    "0400006A",
    "0400006",
    "040000z1",
];

/// Bytes that may stand in a label: the ends of every byte range.
const WELL_FORMED: &str = "\
    20 7e c280 c29f c2a0 c2bf df80 dfbf e0a080 e0bfbf e18080 ecbfbf \
    ed8080 ed9fbf ee8080 efbfbf efbbbf f0908080 f0bfbfbf f1808080 \
    f3bfbfbf f4808080 f48fbfbf f48f8080";

/// Bytes that may not, line by line: 7f, continuation bytes alone and bytes that
/// begin no character; overlong forms; surrogates; numbers past 10ffff hex;
/// characters that are cut, at the end and by others; and characters of 2, 3 and 4
/// bytes in which a byte is just outside its range.
const ILL_FORMED: &str = "\
    7f 80 bf 8080 c0 c1 f5 f8 fe ff \
    c080 c0af c1bf e08080 e09fbf f0808080 f08fbfbf \
    eda080 edafbf edb080 edbfbf eda080edb080 \
    f4908080 f4bfbfbf f5808080 f7bfbfbf f888808080 fc8480808080 \
    c2 df e0 e0a0 e6b0 ed9f efbf f0 f09f f09f92 f48f f48fbf \
    c3c3a9 e0a4e0a4aa f09f92f09f92a7 \
    c27f c2c0 dfc0 \
    e07fbf e0c080 e0a07f e0a0c0 e17f80 e1c080 e1807f e180c0 \
    ed7f80 ed807f ed80c0 ee7f80 ef80c0 \
    f07f8080 f0c08080 f0907f80 f090c080 f090807f f09080c0 f17f8080 \
    f3c08080 f180c080 f18080c0 f47f8080 f4807f80 f480807f f48080c0";

/// The whole plans about labels.
pub fn labelled_plans() -> Vec<Vec<u8>> {
    PLANS.iter().map(|words| text(words)).collect()
}

/// The plans with a breach whose labels are at an edge.
pub fn labelled_breaches() -> Vec<Vec<u8>> {
    let fixed = LABELS.iter().map(|labels| labels.to_string());
    let made = well_formed().into_iter().chain(ill_formed());
    fixed.chain(made).map(|labels| breaching(&labels)).collect()
}

/// The plan with a breach that has the given labels.
pub fn breaching(labels: &str) -> Vec<u8> {
    text(&format!("{BEFORE} {labels} {AFTER}"))
}

/// Labels of the bytes that may stand in one, four at a time, and after 23 letters.
fn well_formed() -> Vec<String> {
    let letters = "61".repeat(LONGEST_SHOWN - 1);
    let labels = |four: &[&str], before: &str| {
        let things = NAMED.iter().zip(four);
        let lines = things
            .map(|([kind, number], bytes)| format!("04{kind:02x}{number:02x}{before}{bytes} "));
        lines.collect::<String>()
    };
    let all: Vec<&str> = WELL_FORMED.split_whitespace().collect();
    all.chunks(4)
        .flat_map(|four| [labels(four, ""), labels(four, &letters)])
        .collect()
}

/// Labels of the bytes that may not stand in one, alone, between letters, past what
/// is shown and at the end of the longest label, and of each control character.
fn ill_formed() -> Vec<String> {
    let mut labels = Vec::new();
    for bytes in ILL_FORMED.split_whitespace() {
        labels.push(format!("040000{bytes}"));
        labels.push(format!("04020161{bytes}61"));
    }
    for control in 0..0x20 {
        labels.push(format!("040001{control:02x}"));
    }
    for bytes in ["00", "0a", "1f", "7f", "80", "c3", "eda080"] {
        let before = LONGEST_LABEL - bytes.len() / 2;
        labels.push(format!("04000061{bytes}"));
        labels.push(format!("040001{}{bytes}", "61".repeat(LONGEST_SHOWN)));
        labels.push(format!("040200{}{bytes}", "61".repeat(before)));
    }
    labels
}
