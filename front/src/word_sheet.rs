//! The word sheet: the verdict in one line, in which a breach has the plan's
//! labels.

use crate::head::Kind;
use crate::labels::{text_of, Labels};
use crate::sheet::Breach;

/// How long a word sheet may be, with its line feed.
const LONGEST: usize = 114;

/// The line of a clear plan.
pub const CLEAR: &str = "clear";

/// The line of a refused plan.
pub const REFUSED: &str = "refused";

/// The line of a program's output, if that may be a word sheet: one line and its line feed, not too
/// long, fit to be shown, and with one of the three verdicts.
pub fn parse(output: &[u8]) -> Option<&str> {
    let line = text_of(output.strip_suffix(b"\n")?).ok()?;
    let verdict = line == CLEAR || line == REFUSED || line.starts_with("breach ");
    (verdict && output.len() <= LONGEST).then_some(line)
}

/// The line of a breach in a plan with these labels.
pub fn breach(breach: &Breach, labels: &Labels) -> String {
    format!(
        "breach {} to {} on {}: {}",
        labels.name(Kind::Level, breach.higher),
        labels.name(Kind::Level, breach.lower),
        labels.name(Kind::Channel, breach.channel),
        labels.name(Kind::Channel, breach.handle),
    )
}

#[cfg(test)]
mod tests {
    use super::*;

    const DOWN: Breach = Breach {
        higher: 3,
        lower: 2,
        channel: 1,
        handle: 4,
    };

    fn told(labels: &str) -> String {
        let plan = format!("010105050400\n{labels}10\n");
        breach(&DOWN, &Labels::of(plan.as_bytes()).unwrap())
    }

    #[test]
    fn a_breach_has_the_label_of_each_thing_or_its_number() {
        let channels = "04000141\n04000242\n04000343\n04000444\n";
        let binders = "04010161\n04010262\n04010363\n04010464\n";
        let levels = "04020145\n04020246\n04020347\n04020448\n";
        let bare = "breach level 3 to level 2 on channel 1: channel 4";
        assert_eq!(told(""), bare);
        assert_eq!(told(binders), bare);
        let all = [channels, binders, levels].concat();
        assert_eq!(told(&all), "breach G to F on A: D");
        let of_channels = "breach level 3 to level 2 on A: D";
        assert_eq!(told(channels), of_channels);
        assert_eq!(told(&[channels, binders].concat()), of_channels);
        assert_eq!(told(levels), "breach G to F on channel 1: channel 4");
        for (label, line) in [
            ("04000141\n", "breach level 3 to level 2 on A: channel 4"),
            ("04000444\n", "breach level 3 to level 2 on channel 1: D"),
            ("04020246\n", "breach level 3 to F on channel 1: channel 4"),
            ("04020347\n", "breach G to level 2 on channel 1: channel 4"),
        ] {
            assert_eq!(told(label), line);
        }
    }

    #[test]
    fn the_longest_line_has_four_labels_of_24_bytes() {
        let label = "e0aaae".repeat(8);
        let labels = format!(
            "040001{label}\n040004{}\n040202{label}\n040203{}\n",
            "62".repeat(24),
            "63".repeat(60)
        );
        let line = told(&labels) + "\n";
        let name = "મ".repeat(8);
        let others = ["c".repeat(24), "b".repeat(24)];
        let wanted = format!("breach {} to {name} on {name}: {}\n", others[0], others[1]);
        assert_eq!(line, wanted);
        assert_eq!(line.len(), LONGEST);
        assert_eq!(parse(line.as_bytes()), Some(line.trim_end()));
        assert_eq!(parse(format!("{}c\n", line.trim_end()).as_bytes()), None);
    }

    #[test]
    fn one_line_that_can_be_shown_is_a_word_sheet() {
        for line in [
            "clear",
            "refused",
            "breach મીના to रमेश on કામ: \u{85}",
            "breach ",
        ] {
            let output = format!("{line}\n");
            assert_eq!(parse(output.as_bytes()), Some(line));
        }
        for output in [
            &b""[..],
            b"\n",
            b"clear",
            b"clear\r\n",
            b" clear\n",
            b"clear \n",
            b"Clear\n",
            b"flow clear\n",
            b"clear\nclear\n",
            b"clear\n\n",
            b"\nclear\n",
            b"refused\n3f020002\n",
            b"breach\n",
            b"breaches\n",
            b"breach a to b on c: \x1b[31m\n",
            b"breach a to b on c: \x7f\n",
            b"breach a to b\0 on c: d\n",
            b"breach a to b\non c: d\n",
            b"breach a to b on c: \xe0\xaa\n",
            b"breach \xff to b on c: d\n",
        ] {
            assert_eq!(parse(output), None, "{output:?}");
        }
    }
}
