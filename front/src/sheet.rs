//! The answer sheet: what its lines say, and whether they are a sheet at all.

use std::collections::BTreeMap;

use crate::digits::bytes_of;

/// The label of what stands in no bracket, as sheets number it.
pub const OUTSIDE: u8 = 7;

/// The levels that a desk may have.
pub const LEVELS: std::ops::RangeInclusive<u8> = 0..=6;

/// How many channels a plan may have.
pub const CHANNELS: u8 = 32;

const BINDERS: u8 = 32;

/// The last line of a refused plan's sheet, of either kind.
pub const REFUSED: &[u8] = b"refused";

/// A set of channels, channel c as bit c.
pub type Bits = u32;

const SET_BYTES: usize = size_of::<Bits>();

/// A well-formed sheet.
#[derive(Debug, PartialEq, Eq)]
pub enum Sheet {
    Clear(Sets),
    Breach(Breach),
    Refused(Refusal),
}

/// The sets on a sheet; those that are not there are empty.
#[derive(Debug, Default, PartialEq, Eq)]
pub struct Sets {
    of_binders: BTreeMap<u8, Bits>,
    received: BTreeMap<(u8, u8), Bits>,
    sent: BTreeMap<(u8, u8), Bits>,
}

/// What the verdict no names.
#[derive(Debug, PartialEq, Eq)]
pub struct Breach {
    pub higher: u8,
    pub lower: u8,
    pub channel: u8,
    pub handle: u8,
}

/// A refusal's number, and the line of the plan's text, 0 for none.
#[derive(Debug, PartialEq, Eq)]
pub struct Refusal {
    pub number: u8,
    pub line: u16,
}

impl Sets {
    /// The channels that a binder may stand for, ascending.
    pub fn of_binder(&self, binder: u8) -> Vec<u8> {
        members(self.of_binders.get(&binder).copied().unwrap_or(0))
    }

    /// Whether a level may receive a handle on a channel.
    pub fn may_receive(&self, level: u8, channel: u8, handle: u8) -> bool {
        let bits = self.received.get(&(level, channel));
        bits.is_some_and(|bits| has(*bits, handle))
    }

    /// Whether a level may send a handle on a channel.
    pub fn may_send(&self, level: u8, channel: u8, handle: u8) -> bool {
        let bits = self.sent.get(&(level, channel));
        bits.is_some_and(|bits| has(*bits, handle))
    }

    /// Whether nothing may be sent anywhere.
    pub fn nothing_sent(&self) -> bool {
        self.sent.is_empty()
    }

    /// Whether a breach is one: the higher level may send the handle on the channel, and the lower
    /// may receive it there. The outside ranks with nobody.
    fn have(&self, breach: &Breach) -> bool {
        let Breach {
            higher,
            lower,
            channel,
            handle,
        } = *breach;
        LEVELS.contains(&higher)
            && lower < higher
            && self.may_send(higher, channel, handle)
            && self.may_receive(lower, channel, handle)
    }

    /// Whether there is any breach.
    fn have_any_breach(&self) -> bool {
        self.sent.iter().any(|(&(higher, channel), sent)| {
            LEVELS.contains(&higher)
                && (0..higher)
                    .filter_map(|lower| self.received.get(&(lower, channel)))
                    .any(|received| sent & received != 0)
        })
    }
}

/// The channels in a set, ascending.
pub fn members(bits: Bits) -> Vec<u8> {
    (0..CHANNELS)
        .filter(|channel| has(bits, *channel))
        .collect()
}

/// Whether a set has a channel.
fn has(bits: Bits, channel: u8) -> bool {
    channel < CHANNELS && bits & (1 << channel) != 0
}

/// The sheet that a program's output is, if it is one: every line in its place and well formed, and
/// the verdict of one mind with the last line and with the sets. So a program that has gone wrong is
/// not believed where its own sets belie its verdict.
pub fn parse(output: &[u8]) -> Option<Sheet> {
    let (frames, phrase) = parts(output)?;
    if phrase == REFUSED {
        return refusal(&frames).map(Sheet::Refused);
    }
    let [count, between @ .., verdict] = frames.as_slice() else {
        return None;
    };
    // The last round adds nothing, and it counts: there is always one.
    if count.len() != 3 || count[0] != 0x2f || count[1..] == [0, 0] {
        return None;
    }
    let sets = sets(between)?;
    match (phrase, verdict.as_slice()) {
        (b"flow clear", [0x30, 0x01]) if !sets.have_any_breach() => Some(Sheet::Clear(sets)),
        (b"flow breach", [0x30, 0x00, named @ ..]) => breach(named, &sets).map(Sheet::Breach),
        _ => None,
    }
}

/// The bytes of each line but the last, and the last line, the phrase, of either kind of sheet.
pub fn parts(output: &[u8]) -> Option<(Vec<Vec<u8>>, &[u8])> {
    let mut lines: Vec<&[u8]> = output
        .strip_suffix(b"\n")?
        .split(|byte| *byte == b'\n')
        .collect();
    let phrase = lines.pop()?;
    let frames = lines.into_iter().map(bytes_of).collect::<Option<_>>()?;
    Some((frames, phrase))
}

/// The sets of the lines between the count and the verdict, if they ascend and none is empty.
fn sets(frames: &[Vec<u8>]) -> Option<Sets> {
    let mut sets = Sets::default();
    let mut last: &[u8] = &[];
    for frame in frames {
        let (key, bits) = frame.split_last_chunk::<SET_BYTES>()?;
        let bits = Bits::from_be_bytes(*bits);
        if key <= last || bits == 0 {
            return None;
        }
        last = key;
        match *key {
            [0x20, binder] if binder < BINDERS => sets.of_binders.insert(binder, bits),
            [0x21, level, channel] if has_sets(level, channel) => {
                sets.received.insert((level, channel), bits)
            }
            [0x22, level, channel] if has_sets(level, channel) => {
                sets.sent.insert((level, channel), bits)
            }
            _ => return None,
        };
    }
    Some(sets)
}

/// Whether sheets have sets for a level, or the outside, and a channel.
pub fn has_sets(level: u8, channel: u8) -> bool {
    (LEVELS.contains(&level) || level == OUTSIDE) && channel < CHANNELS
}

/// The breach that the bytes after a no's number name, if the sets have it.
fn breach(named: &[u8], sets: &Sets) -> Option<Breach> {
    let [higher, lower, channel, handle] = *named else {
        return None;
    };
    let breach = Breach {
        higher,
        lower,
        channel,
        handle,
    };
    sets.have(&breach).then_some(breach)
}

/// The refusal that the one frame of a refused plan's sheet, of either kind, gives.
pub fn refusal(frames: &[Vec<u8>]) -> Option<Refusal> {
    let [frame] = frames else {
        return None;
    };
    match frame[..] {
        [0x3f, number, high, low] => Some(Refusal {
            number,
            line: u16::from_be_bytes([high, low]),
        }),
        _ => None,
    }
}

#[cfg(test)]
mod tests {
    use super::*;

    fn parsed(lines: &[&str]) -> Option<Sheet> {
        parse((lines.join("\n") + "\n").as_bytes())
    }

    #[test]
    fn each_part_of_a_sheet_is_found() {
        let lines = [
            "2f0104",
            "201f00000002",
            "210311000000a0",
            "22071e80000001",
            "3001",
            "flow clear",
        ];
        let Some(Sheet::Clear(sets)) = parsed(&lines) else {
            panic!("no clear sheet");
        };
        assert_eq!(sets.of_binder(31), [1]);
        assert!(sets.of_binder(1).is_empty());
        assert!(sets.may_receive(3, 17, 5) && sets.may_receive(3, 17, 7));
        assert!(!sets.may_receive(3, 17, 6) && !sets.may_receive(17, 3, 5));
        assert!(sets.may_send(OUTSIDE, 30, 31) && sets.may_send(OUTSIDE, 30, 0));
        assert!(!sets.may_send(3, 17, 5) && !sets.nothing_sent());

        let named = Breach {
            higher: 5,
            lower: 3,
            channel: 17,
            handle: 29,
        };
        let lines = [
            "2f0100",
            "21031120000000",
            "22051120000000",
            "30000503111d",
            "flow breach",
        ];
        assert_eq!(parsed(&lines), Some(Sheet::Breach(named)));
        let number = 16;
        let line = 0x0104;
        assert_eq!(
            parsed(&["3f100104", "refused"]),
            Some(Sheet::Refused(Refusal { number, line }))
        );
    }

    #[test]
    fn what_is_no_sheet_is_none() {
        for lines in [
            &[""][..],
            &["flow clear"],
            &["refused"],
            &["2f0001", "flow clear"],
            &["3001", "flow clear"],
            &["2f0001", "3001"],
            &["2f0001", "3001", "flow clear", ""],
            &["2f0001", "3001", "flow  clear"],
            &["2f0001", "3001", "flow breach"],
            &["2f0001", "3001", "refused"],
            &["2f0001", "300001000001", "flow clear"],
            &["2f0001", "300001000001", "300001000001", "flow breach"],
            &["2f0001", "3000010000", "flow breach"],
            &["2f0000", "3001", "flow clear"],
            &["2f", "3001", "flow clear"],
            &["2f000001", "3001", "flow clear"],
            &["2e0001", "3001", "flow clear"],
            &["3f020002", "flow clear"],
            &["3f0200", "refused"],
            &["3f020002", "3f020002", "refused"],
            &["2f0001", "3f020002", "refused"],
            &["2f0001", "200000000000", "3001", "flow clear"],
            &["2f0001", "202000000001", "3001", "flow clear"],
            &["2f0001", "21080000000001", "3001", "flow clear"],
            &["2f0001", "21002000000001", "3001", "flow clear"],
            &["2f0001", "20000000000A", "3001", "flow clear"],
            &["2f0001", "2200000000000", "3001", "flow clear"],
            &[
                "2f0001",
                "200100000001",
                "200000000001",
                "3001",
                "flow clear",
            ],
            &[
                "2f0001",
                "200100000001",
                "200100000001",
                "3001",
                "flow clear",
            ],
            &[
                "2f0001",
                "22000000000001",
                "21000000000001",
                "3001",
                "flow clear",
            ],
        ] {
            assert_eq!(parsed(lines), None, "{lines:?}");
        }
        assert_eq!(parse(b"2f0001\n3001\nflow clear"), None);
        assert_eq!(parse(b""), None);
    }

    /// Sets with one breach: level 5 may send handle 29 on channel 17, where level 3 may receive it.
    /// All around it is nearly one: level 3 may receive 28 too, level 5 may send 27 too, levels that
    /// are not lower and the outside may receive 29, and level 3 and the outside may send it. On
    /// channel 18 it may only be sent, and on channel 19 only received.
    const DOWN: [&str; 10] = [
        "21031130000000",
        "21031320000000",
        "21051120000000",
        "21061120000000",
        "21071130000000",
        "22031120000000",
        "22051128000000",
        "22051220000000",
        "22071128000000",
        "22071228000000",
    ];

    #[test]
    fn a_no_names_what_the_sets_have() {
        let told = |verdict: &str| {
            let lines = [&["2f0002"][..], &DOWN, &[verdict, "flow breach"]].concat();
            parsed(&lines).is_some()
        };
        assert!(told("30000503111d"));
        for (verdict, wrong) in [
            ("30000703111d", "the higher is the outside"),
            ("30000803111d", "the higher is no level"),
            ("30000403111d", "the higher sends nothing"),
            ("30000305111d", "the two are swapped"),
            ("30000505111d", "the lower is as high"),
            ("30000506111d", "the lower is higher"),
            ("30000507111d", "the lower is the outside"),
            ("30000523111d", "the lower is no level"),
            ("30000502111d", "the lower receives nothing"),
            ("30000503121d", "the channel is one where it is only sent"),
            (
                "30000503131d",
                "the channel is one where it is only received",
            ),
            ("30000503141d", "the channel is one where nothing goes"),
            ("30000503311d", "the channel is none"),
            ("30000503111b", "the handle is only sent"),
            ("30000503111c", "the handle is only received"),
            ("30000503111a", "the handle is neither"),
            ("30000503113d", "the handle is none"),
        ] {
            assert!(!told(verdict), "{wrong}");
        }
    }

    #[test]
    fn a_yes_has_no_breach_in_its_sets() {
        let clear = |sets: &[&str]| {
            let lines = [&["2f0002"][..], sets, &["3001", "flow clear"]].concat();
            parsed(&lines).is_some()
        };
        assert!(!clear(&DOWN));
        for (received, sent, possible) in [
            ("21000000000001", "22010000000001", false),
            ("21051f80000001", "22061f80000000", false),
            ("21001f80000000", "22061f80000001", false),
            ("21000000000001", "22010000000002", true),
            ("21000000000001", "22010100000001", true),
            ("21010000000001", "22010000000001", true),
            ("21010000000001", "22000000000001", true),
            ("21000000000001", "22070000000001", true),
            ("21070000000001", "22000000000001", true),
        ] {
            assert_eq!(clear(&[received, sent]), possible, "{received} {sent}");
        }
    }
}
