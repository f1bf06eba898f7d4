//! Damaging a good plan's labels: bytes that may not stand in a label, labels
//! repeated in their kind, numbers past their limits, a wrong order, wrong
//! lengths, and labels or other frames where they may not stand.

use crate::chance::Chance;
use crate::characters::first_character;
use crate::labels::LONGEST_LABEL;
use crate::making::{head_of, Frames};
use crate::making_labels::{make_labels, new_label, things};
use crate::places::{first_label, first_node, first_offer};
use crate::plan::Head;

/// Where the bytes of the label begin in a label frame.
const BYTES: usize = 3;

/// Damages one label of a good plan in one way or in two; a plan with few labels
/// gets others first. Where k is 6 the level one past it is 07, the first label may
/// be moved to where it stands, and some lengths are those of a good label: such a
/// plan may stay good.
pub fn damage_labels(frames: &mut Frames, chance: &mut Chance) {
    give_labels(frames, chance);
    let head = head_of(frames);
    let place = chance.between(first_label(frames), first_node(frames) - 1);
    match chance.below(36) {
        0..=6 => spoil(&mut frames[place], chance),
        7..=11 => {
            repeat(frames, chance);
        }
        12..=14 => exceed(&mut frames[place], &head, chance),
        15..=16 => {
            turn_round(frames, place, chance);
        }
        17..=20 => {
            let later = turn_round(frames, place, chance);
            exceed(&mut frames[later], &head, chance);
        }
        21 => {
            let later = turn_round(frames, place, chance);
            spoil(&mut frames[later], chance);
        }
        22 => {
            let later = repeat(frames, chance);
            exceed(&mut frames[later], &head, chance);
        }
        23 => {
            spoil(&mut frames[place], chance);
            exceed(&mut frames[place], &head, chance);
        }
        24 => frames.insert(place, frames[place].clone()),
        25..=26 => change_length(&mut frames[place], chance),
        27 => {
            exceed(&mut frames[place], &head, chance);
            change_length(&mut frames[place], chance);
        }
        28 => {
            let moved = frames.remove(place);
            frames.insert(first_offer(frames), moved);
        }
        29 => {
            let to = chance.between(1, usize::from(head.free_names.max(1)));
            let moved = frames.remove(place);
            frames.insert(to, moved);
        }
        30 => {
            let after = chance.between(first_node(frames) + 1, frames.len());
            frames.insert(after, frames[place].clone());
        }
        31 => frames.truncate(place + 1),
        32 => {
            repeat(frames, chance);
            frames.insert(first_node(frames), frame_of_another_place(chance));
        }
        _ => frames.insert(place + 1, frame_of_another_place(chance)),
    }
}

/// Gives a plan other labels where it has fewer than wanted: so many, or one for
/// every thing, that two of them are of one kind.
fn give_labels(frames: &mut Frames, chance: &mut Chance) {
    let head = head_of(frames);
    let wanted = chance.between(4, 6).min(things(&head).len());
    let present = first_label(frames)..first_node(frames);
    if present.len() < wanted {
        frames.splice(present, make_labels(wanted, &head, chance));
    }
}

/// Puts bytes that may not stand in a label between two characters of a label or
/// at an end of it; a label that gets too long for it loses its last bytes.
fn spoil(frame: &mut Vec<u8>, chance: &mut Chance) {
    let bad = ill_formed(chance);
    let mut places = vec![BYTES];
    let mut place = BYTES;
    while let Some(length) = first_character(&frame[place..]) {
        place += length;
        if place + bad.len() <= BYTES + LONGEST_LABEL {
            places.push(place);
        }
    }
    let last = places[places.len() - 1];
    let place = if chance.percent(40) {
        last
    } else {
        chance.one_of(&places)
    };
    frame.splice(place..place, bad);
    frame.truncate(BYTES + LONGEST_LABEL);
}

/// Bytes that may not stand in a label: a cut character, an overlong form, half of
/// a surrogate pair, a number past 10ffff hex, a byte that never begins a
/// character, a character with a wrong byte in it, 7f or a control character.
fn ill_formed(chance: &mut Chance) -> Vec<u8> {
    let tail = 0x80 + chance.byte_below(0x40);
    let control = chance.byte_below(0x20);
    let cut: [&[u8]; 7] = [
        &[0xc3],
        &[0xe0],
        &[0xe0, 0xa4],
        &[0xe6, 0xb0],
        &[0xf0],
        &[0xf0, 0x9f],
        &[0xf0, 0x9f, 0x92],
    ];
    let overlong: [&[u8]; 6] = [
        &[0xc0, tail],
        &[0xc1, tail],
        &[0xe0, 0x80, tail],
        &[0xe0, 0x9f, tail],
        &[0xf0, 0x80, tail, tail],
        &[0xf0, 0x8f, tail, tail],
    ];
    let surrogate: [&[u8]; 3] = [
        &[0xed, 0xa0, tail],
        &[0xed, 0xbf, tail],
        &[0xed, 0xa0 + (tail & 0x1f), tail],
    ];
    let too_large: [&[u8]; 4] = [
        &[0xf4, 0x90, tail, tail],
        &[0xf4, 0xbf, tail, tail],
        &[0xf5, tail, tail, tail],
        &[0xf8, 0x88, tail, tail, tail],
    ];
    let never_first: [&[u8]; 5] = [&[0x80], &[0xbf], &[tail], &[0xfe], &[0xff]];
    let wrong_inside: [&[u8]; 6] = [
        &[0xc3, 0xc3, tail],
        &[0xdf, 0x41],
        &[0xe0, 0xa4, 0x41],
        &[0xe1, 0xc0, tail],
        &[0xf1, tail, 0xc2, tail],
        &[0xf0, 0x9f, 0x92, 0x41],
    ];
    let controls: [&[u8]; 4] = [&[0x00], &[0x1f], &[control], &[control]];
    match chance.below(16) {
        0..=2 => chance.one_of(&cut),
        3..=4 => chance.one_of(&overlong),
        5..=6 => chance.one_of(&surrogate),
        7..=8 => chance.one_of(&too_large),
        9..=10 => chance.one_of(&never_first),
        11..=12 => chance.one_of(&wrong_inside),
        13 => &[0x7f],
        _ => chance.one_of(&controls),
    }
    .to_vec()
}

/// Gives a label the bytes of an earlier one of its kind, and the place of the
/// later one; two labels of the plan are of one kind.
fn repeat(frames: &mut Frames, chance: &mut Chance) -> usize {
    let labels = first_label(frames)..first_node(frames);
    let pairs: Vec<(usize, usize)> = labels
        .clone()
        .flat_map(|earlier| (earlier + 1..labels.end).map(move |later| (earlier, later)))
        .filter(|(earlier, later)| frames[*earlier][1] == frames[*later][1])
        .collect();
    let (earlier, later) = chance.one_of(&pairs);
    let repeated = frames[earlier][BYTES..].to_vec();
    frames[later].splice(BYTES.., repeated);
    later
}

/// Gives a label a kind that is none or a number at or past the limit of its
/// kind, a level also the number 07.
fn exceed(frame: &mut [u8], head: &Head, chance: &mut Chance) {
    if chance.percent(25) {
        frame[1] = chance.one_of(&[3, 3, 4, 255]);
        return;
    }
    frame[2] = match frame[1] {
        0 => chance.one_of(&[head.channels, head.channels, 64, 255]),
        1 => chance.one_of(&[head.binders, head.binders, 64, 255]),
        _ => chance.one_of(&[head.highest_level + 1, head.highest_level + 1, 8, 255, 7]),
    };
}

/// Puts before the label at a place a later one or another of the same thing, and
/// gives the place of the label that is now out of order.
fn turn_round(frames: &mut Frames, place: usize, chance: &mut Chance) -> usize {
    let last = first_node(frames) - 1;
    let higher = if place == last || chance.percent(30) {
        let same_thing = frames[place][..BYTES].to_vec();
        [same_thing, new_label(chance)].concat()
    } else {
        let later = chance.between(place + 1, last);
        frames.remove(later)
    };
    frames.insert(place, higher);
    place + 1
}

/// Gives a label line a length at the limits or past them, or lets it end before
/// the label, the number or the kind.
fn change_length(frame: &mut Vec<u8>, chance: &mut Chance) {
    let length = chance.one_of(&[
        1,
        2,
        BYTES,
        BYTES,
        BYTES + 1,
        BYTES + LONGEST_LABEL,
        BYTES + LONGEST_LABEL + 1,
        BYTES + LONGEST_LABEL + 1,
        BYTES + LONGEST_LABEL + 40,
    ]);
    frame.resize(length, b'z');
}

/// A frame that may not stand among the labels, of the length it has elsewhere or
/// not; some first bytes are those of no frame.
fn frame_of_another_place(chance: &mut Chance) -> Vec<u8> {
    let frames: [&[u8]; 7] = [
        &[0x01, 1, 1, 0, 0, 0],
        &[0x02, 63, 0],
        &[0x03, 0, 0, 0, 0, 1],
        &[0x03],
        &[0x05, 0, 0],
        &[0x0f],
        &[0x1a, 0, 0, 0, 1, 0],
    ];
    chance.one_of(&frames).to_vec()
}
