//! Reading: from a plan's text to its tree, or to the refusal of the first
//! faulty line. Knows nothing of solving.

use std::collections::BTreeMap;
use std::vec::IntoIter;

use crate::frames::{self, LabelOrRoot, NodeFrame, OfferOrAfter};
use crate::labels::{may_stand_in_a_label, thing, Labels};
use crate::plan::{Head, Marker, Node, Offers, Plan};

/// The longest text, in bytes.
pub const LONGEST_TEXT: usize = 16_384;
/// The largest name.
pub const HIGHEST_NAME: u8 = 63;
/// The most nodes of a plan.
pub const MOST_NODES: usize = 256;
/// The depth that no node may exceed; the root has depth 1.
pub const DEEPEST: usize = 32;

/// Why and at which line a plan is not answered.
#[derive(Clone, Copy, Debug, PartialEq, Eq)]
pub struct Refusal {
    pub number: u8,
    pub line: u16,
}

/// The meaning of each name that has one.
type Scope = BTreeMap<u8, Marker>;

/// The lines still to be read, and what has been counted so far.
struct Reader<'a> {
    lines: IntoIter<&'a [u8]>,
    /// The number of the line in hand, from 1.
    line: u16,
    nodes: usize,
}

/// The plan that a text carries, or its refusal (1 to 13, or 16 to 18).
pub fn read(text: &[u8]) -> Result<Plan, Refusal> {
    if text.is_empty() || text.len() > LONGEST_TEXT {
        return Err(Refusal { number: 1, line: 0 });
    }
    let lines: Vec<&[u8]> = text.split_inclusive(|byte| *byte == b'\n').collect();
    let mut reader = Reader {
        lines: lines.into_iter(),
        line: 0,
        nodes: 0,
    };
    let head = reader.head()?;
    let scope = reader.free_names(&head)?;
    let (offers, after) = reader.offers(&head)?;
    let (labels, root_frame) = reader.labels(after, &head)?;
    let root = reader.node(root_frame, &head, &scope, 1)?;
    reader.end()?;
    Ok(Plan {
        head,
        offers,
        labels,
        root,
    })
}

impl Reader<'_> {
    /// A refusal at the line in hand.
    fn refusal(&self, number: u8) -> Refusal {
        Refusal {
            number,
            line: self.line,
        }
    }

    /// Passes if the demand is met, else refuses the line in hand.
    fn demand(&self, met: bool, number: u8) -> Result<(), Refusal> {
        if met {
            Ok(())
        } else {
            Err(self.refusal(number))
        }
    }

    /// Takes the next line as a frame, told apart by `kind`; judges 12, 2, 3, 4.
    fn frame<Frame>(&mut self, kind: fn(&[u8]) -> Result<Frame, u8>) -> Result<Frame, Refusal> {
        self.line += 1;
        let line = self.lines.next().ok_or(self.refusal(12))?;
        let bytes = frames::decode(line).ok_or(self.refusal(2))?;
        kind(&bytes).map_err(|number| self.refusal(number))
    }

    /// Takes the head; judges 5, 6.
    fn head(&mut self) -> Result<Head, Refusal> {
        let (edition, head) = self.frame(frames::head_frame)?;
        self.demand(edition == 1, 5)?;
        let within_limits = (1..=32).contains(&head.channels)
            && head.binders <= 32
            && head.highest_level <= 6
            && head.free_names <= 64;
        self.demand(within_limits, 6)?;
        Ok(head)
    }

    /// Takes the free names and gives the scope of the root; judges 7, 8.
    fn free_names(&mut self, head: &Head) -> Result<Scope, Refusal> {
        let mut scope = Scope::new();
        for _ in 0..head.free_names {
            let (name, channel) = self.frame(frames::free_name_frame)?;
            self.demand(name <= HIGHEST_NAME && channel < head.channels, 7)?;
            let ascending = scope.keys().all(|earlier| *earlier < name);
            self.demand(ascending, 8)?;
            scope.insert(name, Marker::Channel(channel));
        }
        Ok(scope)
    }

    /// Takes the offers and the frame that ends them; judges 7, 8, 16 at each
    /// offer.
    fn offers(&mut self, head: &Head) -> Result<(Offers, LabelOrRoot), Refusal> {
        let mut offers = Offers::new();
        loop {
            let (channel, offered) = match self.frame(frames::offer_or_after_frame)? {
                OfferOrAfter::Offer { channel, offered } => (channel, offered),
                OfferOrAfter::After(frame) => return Ok((offers, frame)),
            };
            let within_limits =
                channel < head.channels && offered.iter().all(|handle| *handle < head.channels);
            self.demand(within_limits, 7)?;
            let ascending = offers.keys().all(|earlier| *earlier < channel);
            self.demand(ascending, 8)?;
            self.demand(!offered.is_empty(), 16)?;
            offers.insert(channel, offered);
        }
    }

    /// Takes the labels, from the given frame on, and the root's frame, which ends
    /// them; judges 7, 8, 17, 18 at each label.
    fn labels(&mut self, first: LabelOrRoot, head: &Head) -> Result<(Labels, NodeFrame), Refusal> {
        let mut labels = Labels::new();
        let mut frame = first;
        loop {
            let (kind, number, label) = match frame {
                LabelOrRoot::Label {
                    kind,
                    number,
                    label,
                } => (kind, number, label),
                LabelOrRoot::Root(frame) => return Ok((labels, frame)),
            };
            let labelled = thing(kind, number, head).ok_or(self.refusal(7))?;
            let ascending = labels.keys().all(|earlier| *earlier < labelled);
            self.demand(ascending, 8)?;
            self.demand(may_stand_in_a_label(&label), 17)?;
            let repeated = labels
                .iter()
                .any(|(earlier, other)| earlier.kind == labelled.kind && *other == label);
            self.demand(!repeated, 18)?;
            labels.insert(labelled, label);
            frame = self.frame(frames::label_or_root_frame)?;
        }
    }

    /// Takes the branches of the node whose frame is given; judges 10, 11, 7, 9
    /// at each node.
    fn node(
        &mut self,
        frame: NodeFrame,
        head: &Head,
        scope: &Scope,
        depth: usize,
    ) -> Result<Node, Refusal> {
        self.nodes += 1;
        self.demand(self.nodes <= MOST_NODES, 10)?;
        self.demand(depth <= DEEPEST, 11)?;
        self.demand(numbers_within_limits(&frame, head), 7)?;
        Ok(match frame {
            NodeFrame::Nil => Node::Nil,
            NodeFrame::Silent => Node::Silent(self.branch(head, scope, depth)?),
            NodeFrame::Send { x, y } => Node::Send {
                x: self.meaning(scope, x)?,
                y: self.meaning(scope, y)?,
                branch: self.branch(head, scope, depth)?,
            },
            NodeFrame::Receive { x, y, binder } => Node::Receive {
                x: self.meaning(scope, x)?,
                binder,
                branch: self.branch(head, &with(scope, y, Marker::Binder(binder)), depth)?,
            },
            NodeFrame::Sum => Node::Sum(
                self.branch(head, scope, depth)?,
                self.branch(head, scope, depth)?,
            ),
            NodeFrame::Parallel => Node::Parallel(
                self.branch(head, scope, depth)?,
                self.branch(head, scope, depth)?,
            ),
            NodeFrame::Restriction { x, channel } => Node::Restriction(self.branch(
                head,
                &with(scope, x, Marker::Channel(channel)),
                depth,
            )?),
            NodeFrame::Match { x, y } => Node::Match {
                x: self.meaning(scope, x)?,
                y: self.meaning(scope, y)?,
                branch: self.branch(head, scope, depth)?,
            },
            NodeFrame::Replication => Node::Replication(self.branch(head, scope, depth)?),
            NodeFrame::Bracket { level } => Node::Bracket {
                level,
                branch: self.branch(head, scope, depth)?,
            },
        })
    }

    /// Takes a branch of a node that stands at the given depth.
    fn branch(&mut self, head: &Head, scope: &Scope, depth: usize) -> Result<Box<Node>, Refusal> {
        let frame = self.frame(frames::node_frame)?;
        self.node(frame, head, scope, depth + 1).map(Box::new)
    }

    /// The marker of a used name; judges 9.
    fn meaning(&self, scope: &Scope, name: u8) -> Result<Marker, Refusal> {
        scope.get(&name).copied().ok_or(self.refusal(9))
    }

    /// Passes if the text ends here; judges 13 without looking at the line.
    fn end(&mut self) -> Result<(), Refusal> {
        self.line += 1;
        let ended = self.lines.next().is_none();
        self.demand(ended, 13)
    }
}

/// The scope in which a name has got a new meaning.
fn with(scope: &Scope, name: u8, marker: Marker) -> Scope {
    let mut inner = scope.clone();
    inner.insert(name, marker);
    inner
}

/// Whether every name, channel, binder and level of a node's frame is in range.
fn numbers_within_limits(frame: &NodeFrame, head: &Head) -> bool {
    let name = |number: u8| number <= HIGHEST_NAME;
    match *frame {
        NodeFrame::Send { x, y } | NodeFrame::Match { x, y } => name(x) && name(y),
        NodeFrame::Receive { x, y, binder } => name(x) && name(y) && binder < head.binders,
        NodeFrame::Restriction { x, channel } => name(x) && channel < head.channels,
        NodeFrame::Bracket { level } => level <= head.highest_level,
        NodeFrame::Nil
        | NodeFrame::Silent
        | NodeFrame::Sum
        | NodeFrame::Parallel
        | NodeFrame::Replication => true,
    }
}
