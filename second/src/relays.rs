//! Relays: plans in which each channel hands on to the next what it got and the
//! last starts the first again, so that a solution takes many rounds. A send or
//! an offer starts the first.

use crate::chance::Chance;
use crate::making::{head_frame, Frames};
use crate::offering::offer_frame;
use crate::plan::Head;

/// The frames of a random relay.
pub fn make_relay(chance: &mut Chance) -> Frames {
    let most = if chance.percent(3) { 12 } else { 5 };
    let channels = chance.between(2, most) as u8;
    let highest_level = chance.byte_below(7);
    let head = Head {
        channels,
        binders: channels,
        highest_level,
        free_names: channels,
    };
    let received = channels;
    let offered = chance.percent(40);
    let mut parts: Vec<Frames> = Vec::new();
    if !offered {
        parts.push(vec![vec![0x12, 0, 0], vec![0x10]]);
    }
    for channel in 1..channels {
        parts.push(vec![
            vec![0x13, channel - 1, received, channel - 1],
            vec![0x12, channel, received],
            vec![0x10],
        ]);
    }
    let starters: Vec<Frames> = (1..channels)
        .map(|channel| {
            vec![
                vec![0x17, received, channel - 1],
                vec![0x12, 0, channel],
                vec![0x10],
            ]
        })
        .collect();
    let mut last = vec![vec![0x13, channels - 1, received, channels - 1]];
    last.extend(side_by_side(&starters));
    parts.push(last);

    let bracketed = chance.one_of(&[0, 50, 100]);
    for part in &mut parts {
        if chance.percent(bracketed) {
            part.insert(0, vec![0x19, chance.byte_below(highest_level + 1)]);
        }
    }
    let mut frames = vec![head_frame(&head)];
    frames.extend((0..channels).map(|name| vec![0x02, name, name]));
    if offered {
        frames.push(offer_frame(0, 1));
    }
    frames.extend(side_by_side(&parts));
    frames
}

/// The parts, of which there is at least one, joined by parallel nodes.
fn side_by_side(parts: &[Frames]) -> Frames {
    if let [part] = parts {
        return part.clone();
    }
    let (first, second) = parts.split_at(parts.len() / 2);
    let mut frames = vec![vec![0x15]];
    frames.extend(side_by_side(first));
    frames.extend(side_by_side(second));
    frames
}
