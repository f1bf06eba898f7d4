//! Damaging a good plan's offers: numbers past their limits, empty sets, a wrong
//! order, wrong lengths, and offers or other frames where they may not stand.

use crate::chance::Chance;
use crate::making::Frames;
use crate::offering::{draw_set, make_offers, offer_frame};
use crate::places::{first_label, first_node, first_offer};

/// Damages one offer of a good plan in one way or in two; a plan with few offers
/// gets others first. A lone offer has no order to be turned round, and where C
/// is 32 no set is past its limit: such a plan may stay good.
pub fn damage_offers(frames: &mut Frames, chance: &mut Chance) {
    let channels = frames[0][2];
    let first_offer = first_offer(frames);
    let wanted = chance.between(1, usize::from(channels.min(3)));
    if first_label(frames) - first_offer < wanted {
        let offers = make_offers(wanted, channels, chance);
        frames.splice(first_offer..first_label(frames), offers);
    }
    let place = chance.between(first_offer, first_label(frames) - 1);
    match chance.below(26) {
        0..=1 => exceed_channel(&mut frames[place], channels, chance),
        2..=3 => exceed_set(&mut frames[place], channels, chance),
        4..=8 => empty_set(&mut frames[place]),
        9..=10 => put_higher_before(frames, place, chance),
        11 => frames[first_offer..=place].reverse(),
        12..=14 => {
            exceed_set(&mut frames[place], channels, chance);
            put_higher_before(frames, place, chance);
        }
        15..=16 => {
            empty_set(&mut frames[place]);
            put_higher_before(frames, place, chance);
        }
        17..=18 => {
            empty_set(&mut frames[place]);
            exceed_channel(&mut frames[place], channels, chance);
        }
        19 => {
            frames[place].pop();
        }
        20 => {
            let byte = chance.byte();
            frames[place].push(byte);
        }
        21..=22 => {
            let to = chance.between(1, usize::from(frames[0][5].max(1)));
            let moved = frames.remove(place);
            frames.insert(to, moved);
        }
        23 => {
            let after = chance.between(first_node(frames) + 1, frames.len());
            frames.insert(after, frames[place].clone());
        }
        24 => frames.truncate(place + 1),
        _ => frames.insert(place + 1, frame_of_another_place(chance)),
    }
}

/// Gives an offer a channel that is not below C.
fn exceed_channel(offer: &mut [u8], channels: u8, chance: &mut Chance) {
    let any = channels + chance.byte_below(255 - channels);
    offer[1] = chance.one_of(&[channels, channels, 255, any]);
}

/// Adds to an offer's set the bit of channel C or bits of higher channels, at
/// times in the place of all others.
fn exceed_set(offer: &mut [u8], channels: u8, chance: &mut Chance) {
    let past = u32::MAX.checked_shl(u32::from(channels)).unwrap_or(0);
    let lowest = past & past.wrapping_neg();
    let any = past & chance.number() as u32;
    let added = chance.one_of(&[lowest, lowest, past, any, past & (1 << 31)]);
    let alone = added != 0 && chance.percent(50);
    for (byte, more) in offer[2..].iter_mut().zip(added.to_be_bytes()) {
        *byte = if alone { more } else { *byte | more };
    }
}

/// Takes every channel out of an offer's set.
fn empty_set(offer: &mut [u8]) {
    offer[2..].fill(0);
}

/// Puts a good offer before the one at a place, which gets the same channel or a
/// lower one, so that the first fault of the order is at the later of the two.
fn put_higher_before(frames: &mut Frames, place: usize, chance: &mut Chance) {
    let channels = frames[0][2];
    let offer = &mut frames[place];
    let higher = offer[1] + chance.byte_below(channels - offer[1]);
    offer[1] = if chance.percent(30) {
        higher
    } else {
        chance.byte_below(higher.max(1))
    };
    frames.insert(place, offer_frame(higher, draw_set(channels, chance)));
}

/// A frame that may stand neither among the offers nor right after them, of the
/// length it has elsewhere or not; some first bytes are those of no frame.
fn frame_of_another_place(chance: &mut Chance) -> Vec<u8> {
    let frames: [&[u8]; 6] = [
        &[0x01, 1, 1, 0, 0, 0],
        &[0x02, 63, 0],
        &[0x02],
        &[0x05, 0, 0],
        &[0x0f],
        &[0x1a, 0, 0, 0, 1, 0],
    ];
    chance.one_of(&frames).to_vec()
}
