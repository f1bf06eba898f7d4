//! What a plan that the proved program has taken has outside every desk: its
//! offers, and the sends of its tree that stand in no bracket, with what their
//! names mean there.

use std::collections::BTreeMap;

use crate::sections::{Frame, Sections, OFFER};
use crate::sheet::{members, Bits};

/// What a name means.
#[derive(Clone, Copy, Debug, PartialEq, Eq)]
pub enum Marker {
    Channel(u8),
    Binder(u8),
}

/// A node that sends an object on a subject.
#[derive(Debug, PartialEq, Eq)]
pub struct SendNode {
    pub subject: Marker,
    pub object: Marker,
}

/// A channel, and the handles that households may send on it.
#[derive(Debug, PartialEq, Eq)]
pub struct Offer {
    pub channel: u8,
    pub handles: Vec<u8>,
}

/// The offers of a plan, and its sends that stand in no bracket, both in text order.
#[derive(Debug, PartialEq, Eq)]
pub struct FromOutside {
    pub offers: Vec<Offer>,
    pub sends: Vec<SendNode>,
}

/// A place in the tree where a node is still to come.
#[derive(Clone)]
struct Place {
    meanings: BTreeMap<u8, Marker>,
    bracketed: bool,
}

impl Place {
    /// The place inside, where a name has got a meaning.
    fn with(mut self, name: u8, marker: Marker) -> Place {
        self.meanings.insert(name, marker);
        self
    }

    /// The meaning of a name here, if it has one.
    fn meaning(&self, name: u8) -> Option<Marker> {
        self.meanings.get(&name).copied()
    }
}

/// What a plan has outside every desk; nothing for a text that is no plan.
pub fn from_outside(plan: &[u8]) -> Option<FromOutside> {
    let sections = Sections::of(plan)?;
    let offers: Option<Vec<Offer>> = sections.offers.iter().map(|frame| offer(frame)).collect();
    Some(FromOutside {
        offers: offers?,
        sends: sends(root(&sections.free_names)?, &sections.nodes)?,
    })
}

/// The place of the tree's first node, where the free names have their meanings.
fn root(names: &[Frame]) -> Option<Place> {
    let mut root = Place {
        meanings: BTreeMap::new(),
        bracketed: false,
    };
    for frame in names {
        let [0x02, name, channel] = frame[..] else {
            return None;
        };
        root = root.with(name, Marker::Channel(channel));
    }
    Some(root)
}

/// The offer of a frame, if it is one.
fn offer(frame: &[u8]) -> Option<Offer> {
    let [OFFER, channel, set @ ..] = frame else {
        return None;
    };
    let bits = Bits::from_be_bytes(set.try_into().ok()?);
    Some(Offer {
        channel: *channel,
        handles: members(bits),
    })
}

/// The sends that stand in no bracket, where the nodes are one tree.
fn sends(root: Place, nodes: &[Frame]) -> Option<Vec<SendNode>> {
    let mut sends = Vec::new();
    let mut open = vec![root];
    for frame in nodes {
        let place = open.pop()?;
        match frame[..] {
            [0x10] => {}
            [0x11 | 0x18] | [0x17, _, _] => open.push(place),
            [0x12, subject, object] => {
                if !place.bracketed {
                    sends.push(SendNode {
                        subject: place.meaning(subject)?,
                        object: place.meaning(object)?,
                    });
                }
                open.push(place);
            }
            [0x13, _, name, binder] => open.push(place.with(name, Marker::Binder(binder))),
            [0x14 | 0x15] => open.extend([place.clone(), place]),
            [0x16, name, channel] => open.push(place.with(name, Marker::Channel(channel))),
            [0x19, _] => open.push(Place {
                bracketed: true,
                ..place
            }),
            _ => return None,
        }
    }
    open.is_empty().then_some(sends)
}

#[cfg(test)]
mod tests {
    use super::*;
    use Marker::{Binder, Channel};

    fn outside(lines: &[&str]) -> Option<FromOutside> {
        from_outside((lines.join("\n") + "\n").as_bytes())
    }

    fn sends(lines: &[&str]) -> Option<Vec<(Marker, Marker)>> {
        let sends = outside(lines)?.sends.into_iter();
        Some(sends.map(|send| (send.subject, send.object)).collect())
    }

    fn offers(lines: &[&str]) -> Option<Vec<(u8, Vec<u8>)>> {
        let offers = outside(lines)?.offers.into_iter();
        Some(offers.map(|offer| (offer.channel, offer.handles)).collect())
    }

    #[test]
    fn the_innermost_giver_wins_and_only_in_its_branch() {
        let plan = [
            "010109040001",
            "020508", // name 5 is channel 8
            "15",
            "160507",   // name 5 is channel 7
            "13050503", // received on channel 7 as name 5, binder 3
            "120505",
            "160506", // name 5 is channel 6
            "120505",
            "10",
            "120505", // the other side: channel 8 again
            "10",
        ];
        assert_eq!(
            sends(&plan),
            Some(vec![
                (Binder(3), Binder(3)),
                (Channel(6), Channel(6)),
                (Channel(8), Channel(8)),
            ])
        );
    }

    #[test]
    fn a_bracket_hides_its_whole_branch_and_nothing_beside_it() {
        let plan = [
            "010103010102",
            "020000",
            "020101",
            "14",
            "1901",
            "15",
            "11",
            "120000",
            "10",
            "1900",
            "120100",
            "10",
            "170000",
            "18",
            "120001",
            "10",
        ];
        assert_eq!(sends(&plan), Some(vec![(Channel(0), Channel(1))]));
    }

    #[test]
    fn offers_stand_between_the_free_names_and_the_tree() {
        let plan = [
            "010120000002",
            "020011",
            "02031d",
            "030580000001",
            "031100002100",
            "120003",
            "10",
        ];
        assert_eq!(
            offers(&plan),
            Some(vec![(5, vec![0, 31]), (17, vec![8, 13])])
        );
        assert_eq!(sends(&plan), Some(vec![(Channel(17), Channel(29))]));
        let nameless = ["010120000000", "031100000020", "10"];
        assert_eq!(offers(&nameless), Some(vec![(17, vec![5])]));
        assert_eq!(offers(&["010101000000", "10"]), Some(Vec::new()));
    }

    #[test]
    fn labels_between_the_offers_and_the_tree_are_passed_over() {
        let plan = [
            "010120000002",
            "020011",
            "02031d",
            "030580000001",
            "0400054d",
            "0402000303",
            "04020710",
            "120003",
            "10",
        ];
        assert_eq!(offers(&plan), Some(vec![(5, vec![0, 31])]));
        assert_eq!(sends(&plan), Some(vec![(Channel(17), Channel(29))]));
        let bare = ["010120000000", "04001112", "10"];
        assert_eq!(offers(&bare), Some(Vec::new()));
        assert_eq!(sends(&bare), Some(Vec::new()));
    }

    #[test]
    fn what_is_no_plan_has_nothing_outside() {
        for lines in [
            &["010101000000"][..],
            &["010101000000", "10", "10"],
            &["010101000000", "15", "10"],
            &["010101000000", "120000", "10"],
            &["010101000001", "10"],
            &["010101000000", "1a", "10"],
            &["010101000000", "17", "10"],
            &["010101000000", "1G"],
            &["010101000000", "030000000001"],
            &["010101000000", "10", "030000000001"],
            &["010101000000", "11", "030000000001", "10"],
            &["010101000001", "030000000001", "020000", "10"],
            &["010101000001", "030000000001", "10"],
            &["010101000000", "0300000001", "10"],
            &["010101000000", "03000000000001", "10"],
            &["010101000000", "03", "10"],
            &["010101000000", "030000000001", "020000", "10"],
            &["030000000001", "010101000000", "10"],
            &["010101000000", "04000041"],
            &["010101000000", "10", "04000041"],
            &["010101000000", "11", "04000041", "10"],
            &["010101000001", "04000041", "020000", "10"],
            &["010101000000", "04000041", "030000000001", "10"],
            &["04000041", "010101000000", "10"],
            &[""],
        ] {
            assert_eq!(outside(lines), None, "{lines:?}");
        }
    }
}
