//! Solving: the rounds that lead to the least acceptable solution, and their
//! count. Relies only on what reading promises of a plan.

use std::collections::BTreeMap;

use crate::plan::{Head, Marker, Node, Offers, Plan, Set, OUTERMOST};

/// The rounds that suffice for every plan: B·C + 2·(k+2)·C·C + 1 at its most.
pub const AMPLE_ROUNDS: u16 = 17_409;

static EMPTY: Set = Set::new();

/// A place of a solution that holds a set; ordered as the sheet lists them.
#[derive(Clone, Copy, Debug, PartialEq, Eq, PartialOrd, Ord)]
pub enum Place {
    Binder(u8),
    In { level: u8, channel: u8 },
    Out { level: u8, channel: u8 },
}

/// A set of channels for every place; only non-empty sets are kept.
#[derive(Clone, Debug, Default, PartialEq, Eq)]
pub struct Solution {
    sets: BTreeMap<Place, Set>,
}

impl Solution {
    /// The set at a place.
    pub fn set(&self, place: Place) -> &Set {
        self.sets.get(&place).unwrap_or(&EMPTY)
    }

    /// The non-empty sets in the order of the sheet.
    pub fn sets(&self) -> impl Iterator<Item = (&Place, &Set)> {
        self.sets.iter()
    }

    /// The set of a marker: a channel has the set of itself alone.
    fn meaning(&self, marker: Marker) -> Set {
        match marker {
            Marker::Channel(channel) => Set::from([channel]),
            Marker::Binder(binder) => self.set(Place::Binder(binder)).clone(),
        }
    }
}

/// The least solution and the count of rounds that led to it, or nothing where
/// the count exceeds the allowance.
pub fn solve(plan: &Plan, allowance: u16) -> Option<(Solution, u16)> {
    let mut solution = Solution::default();
    for count in 1..=allowance {
        let mut round = Round {
            head: &plan.head,
            before: &solution,
            additions: Vec::new(),
        };
        round.hold_offers(&plan.offers);
        round.hold(&plan.root, OUTERMOST);
        let additions = round.additions;
        if additions.is_empty() {
            return Some((solution, count));
        }
        for (place, channel) in additions {
            solution.sets.entry(place).or_default().insert(channel);
        }
    }
    None
}

/// One walk over the offers and from the root: it reads the sets as they were
/// before the round and keeps apart what has to be added.
struct Round<'a> {
    head: &'a Head,
    before: &'a Solution,
    additions: Vec<(Place, u8)>,
}

impl Round<'_> {
    /// Collects what is missing for the offers, which are sent outside every
    /// bracket.
    fn hold_offers(&mut self, offers: &Offers) {
        let level = OUTERMOST;
        for (&channel, offered) in offers {
            self.include(offered, Place::Out { level, channel });
        }
    }

    /// Collects what is missing for the node to hold inside the given level.
    fn hold(&mut self, node: &Node, level: u8) {
        match node {
            Node::Nil => {}
            Node::Silent(branch) | Node::Restriction(branch) | Node::Replication(branch) => {
                self.hold(branch, level);
            }
            Node::Sum(first, second) | Node::Parallel(first, second) => {
                self.hold(first, level);
                self.hold(second, level);
            }
            Node::Send { x, y, branch } => self.hold_send(*x, *y, branch, level),
            Node::Receive { x, binder, branch } => self.hold_receive(*x, *binder, branch, level),
            Node::Match { x, y, branch } => {
                let meet = !self
                    .before
                    .meaning(*x)
                    .is_disjoint(&self.before.meaning(*y));
                if meet || x == y {
                    self.hold(branch, level);
                }
            }
            Node::Bracket {
                level: inner,
                branch,
            } => self.hold_bracket(*inner, branch, level),
        }
    }

    /// The clause of a send of y on x.
    fn hold_send(&mut self, x: Marker, y: Marker, branch: &Node, level: u8) {
        let (channels, objects) = (self.before.meaning(x), self.before.meaning(y));
        if channels.is_empty() || objects.is_empty() {
            return;
        }
        self.hold(branch, level);
        for channel in channels {
            self.include(&objects, Place::Out { level, channel });
        }
    }

    /// The clause of a receive on x; its condition covers all three parts.
    fn hold_receive(&mut self, x: Marker, binder: u8, branch: &Node, level: u8) {
        let before = self.before;
        let channels = before.meaning(x);
        if channels
            .iter()
            .all(|channel| self.sent(*channel).is_empty())
        {
            return;
        }
        self.hold(branch, level);
        for channel in channels {
            let received = Place::In { level, channel };
            self.include(&self.sent(channel), received);
            self.include(before.set(received), Place::Binder(binder));
        }
    }

    /// The clause of a bracket with an inner level under an outer one.
    fn hold_bracket(&mut self, inner: u8, branch: &Node, outer: u8) {
        let before = self.before;
        self.hold(branch, inner);
        for channel in 0..self.head.channels {
            let [from, to] = [inner, outer].map(|level| Place::In { level, channel });
            self.include(before.set(from), to);
            let [from, to] = [inner, outer].map(|level| Place::Out { level, channel });
            self.include(before.set(from), to);
        }
    }

    /// The union of the out sets of a channel over all levels.
    fn sent(&self, channel: u8) -> Set {
        self.head
            .levels()
            .flat_map(|level| self.before.set(Place::Out { level, channel }))
            .copied()
            .collect()
    }

    /// Asks for a set to be within the set at a place.
    fn include(&mut self, part: &Set, place: Place) {
        let missing = part.difference(self.before.set(place));
        self.additions
            .extend(missing.map(|channel| (place, *channel)));
    }
}
