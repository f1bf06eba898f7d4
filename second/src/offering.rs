//! Offering: random good offers of the outside for a plan in the making.

use std::collections::BTreeSet;

use crate::chance::Chance;
use crate::making::Frames;

/// How many offers a good plan of so many channels gets: none, one, some or one
/// on every channel.
pub fn draw_count(channels: u8, chance: &mut Chance) -> usize {
    match chance.below(20) {
        0..=8 => 0,
        9..=14 => 1,
        15..=18 => chance.between(1, usize::from(channels.min(5))),
        _ => usize::from(channels),
    }
}

/// The frames of so many good offers, of which there are at most as many as
/// channels.
pub fn make_offers(count: usize, channels: u8, chance: &mut Chance) -> Frames {
    let mut chosen = BTreeSet::new();
    while chosen.len() < count {
        chosen.insert(draw_channel(channels, chance));
    }
    chosen
        .into_iter()
        .map(|channel| offer_frame(channel, draw_set(channels, chance)))
        .collect()
}

/// The frame of an offer; channel c counts 2 to the c in the set.
pub fn offer_frame(channel: u8, set: u32) -> Vec<u8> {
    [&[0x03, channel], set.to_be_bytes().as_slice()].concat()
}

/// A channel of a plan, the last one more often than another.
fn draw_channel(channels: u8, chance: &mut Chance) -> u8 {
    if chance.percent(20) {
        channels - 1
    } else {
        chance.byte_below(channels)
    }
}

/// A set that is not empty: one channel, some of them or all.
pub fn draw_set(channels: u8, chance: &mut Chance) -> u32 {
    let one = 1 << draw_channel(channels, chance);
    let all = u32::MAX >> (32 - channels);
    match chance.below(10) {
        0..=5 => one,
        6..=8 => one | (all & chance.number() as u32),
        _ => all,
    }
}
