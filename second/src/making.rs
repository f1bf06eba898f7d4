//! Making: random good plans of many shapes and sizes, with offers and labels and
//! without, in which every used name has a meaning and few channels are shared by
//! many nodes, so that what is sent is often received.

use std::collections::BTreeSet;

use crate::chance::Chance;
use crate::making_labels::draw_labels;
use crate::offering::{draw_count, make_offers};
use crate::places::first_node;
use crate::plan::Head;
use crate::reading::{DEEPEST, HIGHEST_NAME, MOST_NODES};
use crate::relays::make_relay;

/// The frames of a plan in text order, each as its bytes.
pub type Frames = Vec<Vec<u8>>;

/// How many nodes a plan gets for a breach that is put beside its tree.
const SENDING_DOWN: usize = 8;

/// The frames of a random good plan.
pub fn make_plan(chance: &mut Chance) -> Frames {
    let mut frames = if chance.percent(4) {
        make_relay(chance)
    } else {
        make_unlabelled(chance)
    };
    let labels = draw_labels(&head_of(&frames), chance);
    let place = first_node(&frames);
    frames.splice(place..place, labels);
    frames
}

/// The frames of a random good plan without labels.
fn make_unlabelled(chance: &mut Chance) -> Frames {
    let head = make_head(chance);
    let mut frames = vec![head_frame(&head)];
    let names = free_names(chance, head.free_names);
    for name in &names {
        frames.push(vec![0x02, *name, chance.byte_below(head.channels)]);
    }
    let offers = draw_count(head.channels, chance);
    frames.extend(make_offers(offers, head.channels, chance));
    let nodes = match chance.below(20) {
        0..=6 => chance.between(1, 24),
        7..=15 => chance.between(25, 80),
        16..=18 => chance.between(81, MOST_NODES),
        _ => MOST_NODES,
    };
    let mut maker = Maker {
        head,
        parting: chance.one_of(&[0, 60, 80, 80, 95, 95]),
        chance,
        frames,
    };
    if maker.chance.percent(20) && maker.can_send_down(&names, nodes) {
        maker.send_down(&names);
        maker.grow(&names, 2, nodes - SENDING_DOWN);
    } else {
        maker.grow(&names, 1, nodes);
    }
    maker.frames
}

/// The frame of a head of edition 01.
pub fn head_frame(head: &Head) -> Vec<u8> {
    vec![
        0x01,
        0x01,
        head.channels,
        head.binders,
        head.highest_level,
        head.free_names,
    ]
}

/// The head of a good plan's frames.
pub fn head_of(frames: &[Vec<u8>]) -> Head {
    let head = &frames[0];
    Head {
        channels: head[2],
        binders: head[3],
        highest_level: head[4],
        free_names: head[5],
    }
}

/// A head whose numbers are mostly small and at times as large as allowed.
fn make_head(chance: &mut Chance) -> Head {
    let (channels, binders, free_names) = match chance.below(20) {
        0..=12 => (
            chance.between(1, 3),
            chance.between(1, 4),
            chance.between(1, 6),
        ),
        13..=16 => (
            chance.between(2, 8),
            chance.between(1, 32),
            chance.between(2, 16),
        ),
        17..=18 => (
            chance.between(1, 32),
            chance.between(0, 32),
            chance.between(0, 64),
        ),
        _ => (32, 32, 64),
    };
    Head {
        channels: channels as u8,
        binders: binders as u8,
        highest_level: chance.byte_below(7),
        free_names: free_names as u8,
    }
}

/// As many different names as asked for, ascending; more often small ones.
fn free_names(chance: &mut Chance, count: u8) -> Vec<u8> {
    let pool = chance.one_of(&[count.max(12), HIGHEST_NAME + 1]);
    let mut names = BTreeSet::new();
    while names.len() < usize::from(count) {
        names.insert(chance.byte_below(pool));
    }
    names.into_iter().collect()
}

/// A tree in the making.
struct Maker<'a> {
    head: Head,
    /// The share of a hundred in which a large tree parts into two branches.
    parting: usize,
    chance: &'a mut Chance,
    frames: Frames,
}

impl Maker<'_> {
    /// Whether a plan of so many nodes has what a breach beside its tree takes.
    fn can_send_down(&self, names: &[u8], nodes: usize) -> bool {
        let levels = self.head.highest_level > 0;
        levels && self.head.binders > 0 && !names.is_empty() && nodes > SENDING_DOWN
    }

    /// Adds a desk that sends and a lower one that receives on the same channel,
    /// and the node above both that has the plan's tree for its other branch.
    fn send_down(&mut self, names: &[u8]) {
        let high = 1 + self.chance.byte_below(self.head.highest_level);
        let low = self.chance.byte_below(high);
        let [x, y] = [self.chance.one_of(names), self.chance.one_of(names)];
        let received = self.given_name(names);
        let binder = self.chance.byte_below(self.head.binders);
        self.frames.extend([vec![0x15], vec![0x15]]);
        self.frames
            .extend([vec![0x19, high], vec![0x12, x, y], vec![0x10]]);
        self.frames
            .extend([vec![0x19, low], vec![0x13, x, received, binder], vec![0x10]]);
    }

    /// Adds a tree of at most so many nodes; the names given have a meaning
    /// there, the newest last.
    fn grow(&mut self, names: &[u8], depth: usize, nodes: usize) {
        if nodes < 2 || depth == DEEPEST {
            self.frames.push(vec![0x10]);
            return;
        }
        let share = if nodes > 8 { self.parting } else { 10 };
        if nodes > 2 && self.chance.percent(share) {
            let parallel = self.chance.percent(if nodes > 8 { 90 } else { 50 });
            self.frames.push(vec![if parallel { 0x15 } else { 0x14 }]);
            let first = 1 + (self.chance.below(nodes - 2) + self.chance.below(nodes - 2)) / 2;
            self.grow(names, depth + 1, first);
            self.grow(names, depth + 1, nodes - 1 - first);
        } else {
            let inner = self.step(names, nodes > 8);
            self.grow(&inner, depth + 1, nodes - 1);
        }
    }

    /// Adds the frame of a node with one branch and gives the branch's names;
    /// a node that can keep its branch from being entered is rarer above a
    /// large branch.
    fn step(&mut self, names: &[u8], large: bool) -> Vec<u8> {
        let choice = if names.is_empty() || (large && self.chance.percent(60)) {
            self.chance.between(76, 99)
        } else {
            self.chance.below(100)
        };
        let mut inner = names.to_vec();
        match choice {
            0..=33 => {
                let frame = vec![0x12, self.used_name(names), self.used_name(names)];
                self.frames.push(frame);
            }
            34..=63 if self.head.binders > 0 => {
                let (x, y) = (self.used_name(names), self.given_name(names));
                let binder = self.chance.byte_below(self.head.binders);
                self.frames.push(vec![0x13, x, y, binder]);
                inner.push(y);
            }
            34..=75 => {
                let x = self.used_name(names);
                let same = self.chance.percent(20);
                let y = if same { x } else { self.used_name(names) };
                self.frames.push(vec![0x17, x, y]);
            }
            76..=87 => {
                let level = self.chance.byte_below(self.head.highest_level + 1);
                self.frames.push(vec![0x19, level]);
            }
            88..=94 => {
                let x = self.given_name(names);
                let channel = self.chance.byte_below(self.head.channels);
                self.frames.push(vec![0x16, x, channel]);
                inner.push(x);
            }
            95..=97 => self.frames.push(vec![0x18]),
            _ => self.frames.push(vec![0x11]),
        }
        inner
    }

    /// A name to be used: the oldest, on which much is to meet, the newest, or
    /// any that has a meaning.
    fn used_name(&mut self, names: &[u8]) -> u8 {
        match self.chance.below(100) {
            0..=29 => names[0],
            30..=54 => names[names.len() - 1],
            _ => self.chance.one_of(names),
        }
    }

    /// A name to be given a meaning: one that has another already, or any.
    fn given_name(&mut self, names: &[u8]) -> u8 {
        if !names.is_empty() && self.chance.percent(30) {
            self.chance.one_of(names)
        } else {
            self.chance.byte_below(HIGHEST_NAME + 1)
        }
    }
}
