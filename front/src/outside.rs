//! What may be sent from outside every desk: what is offered, and what a plan's
//! own sends there send. A sheet alone can't tell: its sets of the outside also
//! hold all that the desks send.

use std::collections::BTreeSet;

use crate::sheet::{Sets, LEVELS, OUTSIDE};
use crate::tree::{FromOutside, Marker, SendNode};

/// A channel, and a handle that may be sent on it.
pub type Pair = (u8, u8);

/// Whether the sets may be those of a plan with these offers: they have all that is offered.
pub fn fits(outside: &FromOutside, sets: &Sets) -> bool {
    offered(outside).all(|(channel, handle)| sets.may_send(OUTSIDE, channel, handle))
}

/// All that may be sent from outside, by channel and then by handle.
pub fn sent(outside: &FromOutside, sets: &Sets) -> BTreeSet<Pair> {
    let sends = outside.sends.iter();
    let mut pairs = BTreeSet::from_iter(sends.flat_map(|send| pairs_of(send, sets)));
    // A send that never comes to pass stays where a desk may send the same; no other is left out.
    pairs.retain(|(channel, handle)| sets.may_send(OUTSIDE, *channel, *handle));
    pairs.extend(offered(outside));
    pairs
}

/// The levels that may receive a handle on a channel, ascending.
pub fn receivers((channel, handle): Pair, sets: &Sets) -> Vec<u8> {
    LEVELS
        .filter(|level| sets.may_receive(*level, channel, handle))
        .collect()
}

/// Each channel of an offer, with each of its handles.
fn offered(outside: &FromOutside) -> impl Iterator<Item = Pair> + '_ {
    let offers = outside.offers.iter();
    offers.flat_map(|offer| offer.handles.iter().map(|handle| (offer.channel, *handle)))
}

/// Each channel that a send's subject may stand for, with each that its object may.
fn pairs_of(send: &SendNode, sets: &Sets) -> Vec<Pair> {
    let handles = standing_for(send.object, sets);
    let channels = standing_for(send.subject, sets).into_iter();
    channels
        .flat_map(|channel| handles.iter().map(move |handle| (channel, *handle)))
        .collect()
}

/// The channels that a marker may stand for.
fn standing_for(marker: Marker, sets: &Sets) -> Vec<u8> {
    match marker {
        Marker::Channel(channel) => vec![channel],
        Marker::Binder(binder) => sets.of_binder(binder),
    }
}

#[cfg(test)]
mod tests {
    use super::*;
    use crate::sheet::{parse, Sheet};
    use crate::tree::Offer;

    fn sets() -> Sets {
        let output = "2f0009\n20050000000c\n21000200000002\n21030200000002\n21070200000002\n\
                      21070500000002\n2207020000000a\n22070300000002\n3001\nflow clear\n";
        match parse(output.as_bytes()) {
            Some(Sheet::Clear(sets)) => sets,
            _ => panic!("no clear sheet"),
        }
    }

    fn send(subject: Marker, object: Marker) -> SendNode {
        SendNode { subject, object }
    }

    fn offer(channel: u8, handles: &[u8]) -> Offer {
        let handles = handles.to_vec();
        Offer { channel, handles }
    }

    fn pairs(offers: Vec<Offer>, sends: Vec<SendNode>) -> Vec<Pair> {
        Vec::from_iter(sent(&FromOutside { offers, sends }, &sets()))
    }

    #[test]
    fn a_binder_counts_for_all_it_may_stand_for() {
        let sends = vec![send(Marker::Binder(5), Marker::Channel(1))];
        assert_eq!(pairs(vec![], sends), [(2, 1), (3, 1)]);
        let sends = vec![send(Marker::Channel(2), Marker::Binder(5))];
        assert_eq!(pairs(vec![], sends), [(2, 3)]);
    }

    #[test]
    fn what_the_sheet_does_not_have_is_not_sent() {
        let sends = vec![
            send(Marker::Channel(2), Marker::Channel(2)),
            send(Marker::Binder(4), Marker::Channel(1)),
        ];
        assert!(pairs(vec![], sends).is_empty());
    }

    #[test]
    fn what_is_offered_is_sent_and_counts_once_with_the_sends() {
        let offers = vec![offer(2, &[1, 3])];
        assert_eq!(pairs(offers, vec![]), [(2, 1), (2, 3)]);
        let offers = vec![offer(2, &[3]), offer(3, &[1])];
        let sends = vec![
            send(Marker::Channel(3), Marker::Channel(1)),
            send(Marker::Channel(2), Marker::Channel(1)),
        ];
        assert_eq!(pairs(offers, sends), [(2, 1), (2, 3), (3, 1)]);
    }

    #[test]
    fn sets_fit_offers_that_they_have() {
        let fits = |offers: Vec<Offer>| {
            let sends = vec![send(Marker::Channel(9), Marker::Channel(9))];
            super::fits(&FromOutside { offers, sends }, &sets())
        };
        assert!(fits(vec![]));
        assert!(fits(vec![offer(2, &[1, 3]), offer(3, &[1])]));
        assert!(!fits(vec![offer(2, &[1, 2, 3])]));
        assert!(!fits(vec![offer(2, &[1]), offer(3, &[3])]));
        assert!(!fits(vec![offer(4, &[1])]));
        // What may be received outside is not sent there for that.
        assert!(!fits(vec![offer(5, &[1])]));
    }

    #[test]
    fn the_outside_is_no_receiver() {
        assert_eq!(receivers((2, 1), &sets()), [0, 3]);
        assert!(receivers((3, 1), &sets()).is_empty());
    }
}
