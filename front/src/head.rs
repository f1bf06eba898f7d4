//! A plan's head: how much of everything the plan has.

use crate::digits::bytes_of;
use crate::sheet::OUTSIDE;

/// The head of a plan that the proved program has taken.
#[derive(Debug, PartialEq, Eq)]
pub struct Head {
    pub channels: u8,
    pub binders: u8,
    pub highest_level: u8,
    pub free_names: u8,
}

/// The kinds of things that a plan numbers, each from 0.
#[derive(Clone, Copy, Debug, PartialEq, Eq, PartialOrd, Ord)]
pub enum Kind {
    Channel,
    Binder,
    Level,
}

impl Kind {
    /// The word for a thing of this kind.
    pub fn word(self) -> &'static str {
        match self {
            Kind::Channel => "channel",
            Kind::Binder => "binder",
            Kind::Level => "level",
        }
    }
}

impl Head {
    /// The head on a plan's first line; nothing for a text that is no plan.
    pub fn of(plan: &[u8]) -> Option<Head> {
        let line = plan.split(|byte| *byte == b'\n').next()?;
        match bytes_of(line)?[..] {
            [0x01, _, channels, binders, highest_level, free_names] if channels > 0 => Some(Head {
                channels,
                binders,
                highest_level,
                free_names,
            }),
            _ => None,
        }
    }

    /// Whether the plan has a thing of a kind and number; the outside counts as a level.
    pub fn has(&self, kind: Kind, number: u8) -> bool {
        number < self.count(kind) || (kind, number) == (Kind::Level, OUTSIDE)
    }

    /// That the plan has no thing of a kind and number, and which it has.
    pub fn lacks(&self, kind: Kind, number: u8) -> String {
        let word = kind.word();
        let those = match self.count(kind) {
            0 => "it has none".to_owned(),
            1 => format!("its only {word} is 0"),
            count => format!("its {word}s are 0 to {}", count - 1),
        };
        format!("the plan has no {word} {number}: {those}")
    }

    /// How many things of a kind the plan has.
    fn count(&self, kind: Kind) -> u8 {
        match kind {
            Kind::Channel => self.channels,
            Kind::Binder => self.binders,
            Kind::Level => self.highest_level.saturating_add(1),
        }
    }
}

#[cfg(test)]
mod tests {
    use super::*;

    #[test]
    fn each_number_of_the_head_is_found() {
        let head = Head {
            channels: 0x1e,
            binders: 4,
            highest_level: 5,
            free_names: 0x13,
        };
        assert_eq!(Head::of(b"01011e040513\n020000\n"), Some(head));
    }

    #[test]
    fn what_is_no_plan_has_no_head() {
        for text in [
            "",
            "\n",
            "0101010000\n",
            "02011e040513\n",
            "010101000G00\n",
            "010100000000\n",
        ] {
            assert_eq!(Head::of(text.as_bytes()), None, "{text:?}");
        }
    }

    #[test]
    fn a_plan_has_the_things_that_its_head_counts() {
        let head = Head::of(b"01011e040513\n").unwrap();
        for (kind, last) in [(Kind::Channel, 29), (Kind::Binder, 3), (Kind::Level, 5)] {
            for number in 0..=u8::MAX {
                let outside = kind == Kind::Level && number == 7;
                assert_eq!(
                    head.has(kind, number),
                    number <= last || outside,
                    "{kind:?} {number}"
                );
            }
        }
        let none = Head::of(b"010101000000\n").unwrap();
        assert!(!none.has(Kind::Binder, 0));
        for (head, kind, number, told) in [
            (
                &head,
                Kind::Channel,
                30,
                "no channel 30: its channels are 0 to 29",
            ),
            (
                &head,
                Kind::Binder,
                4,
                "no binder 4: its binders are 0 to 3",
            ),
            (&head, Kind::Level, 6, "no level 6: its levels are 0 to 5"),
            (
                &none,
                Kind::Channel,
                1,
                "no channel 1: its only channel is 0",
            ),
            (&none, Kind::Binder, 0, "no binder 0: it has none"),
            (&none, Kind::Level, 1, "no level 1: its only level is 0"),
        ] {
            assert_eq!(head.lacks(kind, number), format!("the plan has {told}"));
        }
    }
}
