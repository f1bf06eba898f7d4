//! The plan as reading hands it over: the head's numbers, the offers of the
//! outside, the labels and the tree of nodes, in which every used name is already
//! replaced by its marker.

use std::collections::{BTreeMap, BTreeSet};

use crate::labels::Labels;

/// The level number of the outermost label, # in the source analysis.
pub const OUTERMOST: u8 = 7;

/// The numbers of the head, each within its limits.
#[derive(Clone, Copy, Debug, PartialEq, Eq)]
pub struct Head {
    /// C: channels are numbered 0 to C - 1.
    pub channels: u8,
    /// B: binders are numbered 0 to B - 1.
    pub binders: u8,
    /// k: brackets carry levels 0 to k.
    pub highest_level: u8,
    /// F: the number of free names.
    pub free_names: u8,
}

impl Head {
    /// All levels that have in and out sets, in the order of the sheet.
    pub fn levels(&self) -> impl Iterator<Item = u8> {
        (0..=self.highest_level).chain([OUTERMOST])
    }
}

/// A set of channels.
pub type Set = BTreeSet<u8>;

/// What the outside sends on each channel that has an offer.
pub type Offers = BTreeMap<u8, Set>;

/// What a name means where it is used.
#[derive(Clone, Copy, Debug, PartialEq, Eq)]
pub enum Marker {
    Channel(u8),
    Binder(u8),
}

/// A node with its branches.
#[derive(Debug, PartialEq, Eq)]
pub enum Node {
    Nil,
    Silent(Box<Node>),
    Send {
        x: Marker,
        y: Marker,
        branch: Box<Node>,
    },
    Receive {
        x: Marker,
        binder: u8,
        branch: Box<Node>,
    },
    Sum(Box<Node>, Box<Node>),
    Parallel(Box<Node>, Box<Node>),
    Restriction(Box<Node>),
    Match {
        x: Marker,
        y: Marker,
        branch: Box<Node>,
    },
    Replication(Box<Node>),
    Bracket {
        level: u8,
        branch: Box<Node>,
    },
}

/// A plan that was read without refusal.
#[derive(Debug, PartialEq, Eq)]
pub struct Plan {
    pub head: Head,
    pub offers: Offers,
    pub labels: Labels,
    pub root: Node,
}
