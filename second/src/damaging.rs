//! Damaging a good plan's frames: numbers at and past their limits, wrong
//! frames, names without meaning, too many nodes, too great a depth. What is
//! peculiar to offers has its own file, and so has what is peculiar to labels.

use crate::chance::Chance;
use crate::making::Frames;
use crate::places::first_node;
use crate::reading::{DEEPEST, HIGHEST_NAME, MOST_NODES};

/// What a byte after a frame's first byte stands for.
#[derive(Clone, Copy)]
enum Number {
    Edition,
    Channels,
    Binders,
    HighestLevel,
    FreeNames,
    Name,
    Channel,
    Binder,
    Level,
    Kind,
}

/// Damages the frames of a good plan in one way; some ways go only as far as a
/// limit allows and leave the plan good.
pub fn damage_frames(frames: &mut Frames, chance: &mut Chance) {
    match chance.below(14) {
        0..=1 => set_numbers(&mut frames[..1], chance),
        2..=4 => set_numbers(frames, chance),
        5 => change_name(frames, chance),
        6 => {
            let place = chance.below(frames.len());
            frames[place][0] = chance.one_of(&[
                0x00, 0x01, 0x02, 0x03, 0x04, 0x05, 0x0f, 0x10, 0x11, 0x12, 0x13, 0x14, 0x15, 0x16,
                0x17, 0x18, 0x19, 0x1a, 0xff,
            ]);
        }
        7 => {
            let place = chance.below(frames.len());
            let byte = chance.byte();
            frames[place].push(byte);
        }
        8 => {
            let place = chance.below(frames.len());
            frames[place].pop();
        }
        9 => change_free_names(frames, chance),
        10 => widen(frames, chance),
        11 => deepen(frames, chance),
        _ => stand_at_the_corner(frames, chance),
    }
}

/// Sets one number of some frame, at times more of them, to values at or past
/// their limits. The first frame is the head, or the head alone is given.
fn set_numbers(frames: &mut [Vec<u8>], chance: &mut Chance) {
    let limits = frames[0].clone();
    let places: Vec<usize> = (0..frames.len())
        .filter(|place| !numbers(&frames[*place]).is_empty())
        .collect();
    let frame = &mut frames[chance.one_of(&places)];
    let numbers = numbers(frame);
    let chosen = chance.below(numbers.len());
    for (position, number) in numbers.iter().enumerate() {
        if position == chosen || chance.percent(30) {
            frame[1 + position] = at_limit(*number, &limits, chance);
        }
    }
}

/// A value at or past the limit that a plan with the given head sets a number.
fn at_limit(number: Number, head: &[u8], chance: &mut Chance) -> u8 {
    let any = chance.byte();
    match number {
        Number::Edition => chance.one_of(&[0, 1, 2, 255]),
        Number::Channels | Number::Binders => chance.one_of(&[0, 1, 31, 32, 33, 255]),
        Number::HighestLevel => chance.one_of(&[0, 5, 6, 7, 8, 255]),
        Number::FreeNames => {
            let near = [head[5].wrapping_sub(1), head[5] + 1];
            chance.one_of(&[0, near[0], near[1], 63, 64, 65, 255])
        }
        Number::Name => chance.one_of(&[0, HIGHEST_NAME, HIGHEST_NAME + 1, 255, any]),
        Number::Channel => chance.one_of(&[0, head[2] - 1, head[2], 255]),
        Number::Binder => chance.one_of(&[0, head[3].wrapping_sub(1), head[3], 255]),
        Number::Level => chance.one_of(&[0, head[4], head[4] + 1, 7, 8, 255]),
        Number::Kind => chance.one_of(&[0, 1, 2, 3, 255]),
    }
}

/// What the numbers of a good plan's frame stand for, in order; a set and the
/// bytes of a label are none.
fn numbers(frame: &[u8]) -> &'static [Number] {
    match *frame {
        [0x01, ..] => &[
            Number::Edition,
            Number::Channels,
            Number::Binders,
            Number::HighestLevel,
            Number::FreeNames,
        ],
        [0x02 | 0x16, ..] => &[Number::Name, Number::Channel],
        [0x03, ..] => &[Number::Channel],
        [0x04, 0x00, ..] => &[Number::Kind, Number::Channel],
        [0x04, 0x01, ..] => &[Number::Kind, Number::Binder],
        [0x04, ..] => &[Number::Kind, Number::Level],
        [0x12 | 0x17, ..] => &[Number::Name, Number::Name],
        [0x13, ..] => &[Number::Name, Number::Name, Number::Binder],
        [0x19, ..] => &[Number::Level],
        _ => &[],
    }
}

/// Puts another name in the place of a used or given one; often it has no
/// meaning there.
fn change_name(frames: &mut Frames, chance: &mut Chance) {
    let places: Vec<usize> = (0..frames.len())
        .filter(|place| matches!(frames[*place][0], 0x12 | 0x13 | 0x16 | 0x17))
        .collect();
    if !places.is_empty() {
        let place = chance.one_of(&places);
        let position = chance.between(1, 2);
        frames[place][position] = chance.byte_below(HIGHEST_NAME + 1);
    }
}

/// Doubles a free name in the place of its neighbour or exchanges the two.
fn change_free_names(frames: &mut Frames, chance: &mut Chance) {
    let count = usize::from(frames[0][5]);
    if count >= 2 {
        let place = chance.between(1, count - 1);
        if chance.percent(50) {
            frames[place + 1][1] = frames[place][1];
        } else {
            frames.swap(place, place + 1);
        }
    }
}

/// Puts nodes beside some node, so that the plan has about as many nodes as a
/// plan may have, or a few more.
fn widen(frames: &mut Frames, chance: &mut Chance) {
    let first_node = first_node(frames);
    let nodes = frames.len() - first_node;
    let wanted = chance.between(MOST_NODES - 1, MOST_NODES + 2);
    if let Some(missing) = wanted.checked_sub(nodes + 1).filter(|count| *count > 0) {
        let place = chance.between(first_node, frames.len() - 1);
        let mut beside = vec![vec![0x15]];
        add_bush(&mut beside, missing);
        frames.splice(place..place, beside);
    }
}

/// Adds a tree of exactly so many nodes and of small depth.
fn add_bush(frames: &mut Frames, nodes: usize) {
    match nodes {
        1 => frames.push(vec![0x10]),
        2 => frames.extend([vec![0x11], vec![0x10]]),
        _ => {
            frames.push(vec![0x15]);
            add_bush(frames, (nodes - 1) / 2);
            add_bush(frames, nodes - 1 - (nodes - 1) / 2);
        }
    }
}

/// Puts silent steps above the root, so that the deepest node stands as deep as
/// a node may, or a little deeper.
fn deepen(frames: &mut Frames, chance: &mut Chance) {
    let first_node = first_node(frames);
    let wanted = chance.between(DEEPEST, DEEPEST + 2);
    let missing = wanted.saturating_sub(depth(&frames[first_node..]));
    frames.splice(first_node..first_node, vec![vec![0x11]; missing]);
}

/// Puts another tree in the place of the plan's: its last node is about as deep
/// as a node may be, about as many nodes stand before it as a plan may have, and
/// it may have faults of its own.
fn stand_at_the_corner(frames: &mut Frames, chance: &mut Chance) {
    frames.truncate(first_node(frames));
    let before = chance.between(MOST_NODES - 2, MOST_NODES);
    let steps = chance.between(DEEPEST - 1, DEEPEST + 1) - 2;
    frames.push(vec![0x15]);
    add_bush(frames, before - 1 - steps);
    frames.extend(vec![vec![0x11]; steps]);
    let last: [&[u8]; 12] = [
        &[0x10],
        &[0x10],
        &[0x12, 64, 64],
        &[0x12, 5, 64],
        &[0x13, 5, 5, 255],
        &[0x17, 5, 6],
        &[0x19, 7],
        &[0x10, 0x00],
        &[0x1a],
        &[0x02, 0, 0],
        &[0x03, 0, 0, 0, 0, 1],
        &[0x04, 0, 0, 0x61],
    ];
    frames.push(chance.one_of(&last).to_vec());
}

/// The depth of the deepest node of a closed tree.
fn depth(nodes: &[Vec<u8>]) -> usize {
    let mut deepest = 0;
    let mut waiting = vec![1];
    for node in nodes {
        let depth = waiting.pop().unwrap_or(0);
        deepest = deepest.max(depth);
        let branches = match node[0] {
            0x10 => 0,
            0x14 | 0x15 => 2,
            _ => 1,
        };
        waiting.extend(vec![depth + 1; branches]);
    }
    deepest
}
