//! Making labels: random good labels for a plan in the making, in many scripts,
//! for things of all kinds and of lengths around the limits.

use std::collections::BTreeSet;

use crate::chance::Chance;
use crate::labels::{shown, thing, Kind, Labels, Thing, LONGEST_LABEL, LONGEST_SHOWN};
use crate::making::Frames;
use crate::plan::Head;

/// Some characters of each script that made labels are written in; the last ones
/// stand at the ends of the byte ranges.
const SCRIPTS: [&str; 9] = [
    "अआइईउऊएकखगघचजटडतदनपबमयरलवशसह\u{93e}\u{93f}\u{940}\u{94d}",
    "અઆઇઈઉએકખગઘચજટડતદનપબમયરલવશસહ\u{abe}\u{abf}\u{ac0}\u{acd}",
    "абвгдежзиклмнопрстуфхцчшщыэюяЁЖ",
    "\u{627}\u{628}\u{62a}\u{62b}\u{62c}\u{62d}\u{62f}\u{631}\u{633}\u{639}\u{641}\u{642}\u{645}",
    "水井站保健所村区北南東西泵藥局門河山",
    "💧🚰🏥🚑📦🌊🔧🧑🏽🔒📡🗂🪣",
    "áàâäãåçéèêëíìîïñóòôöõøúùûüýÿšžčğıłőűe\u{301}o\u{308}n\u{303}",
    " !\"#$%&'()*+,-./0123456789:;<=>?@ABCXYZ[\\]^_`abcdefghijklmnopqrstuvwxyz{|}~",
    " ~\u{80}\u{9f}\u{7ff}\u{800}\u{fff}\u{1000}\u{cfff}\u{d000}\u{d7ff}\u{e000}\u{ffff}\
     \u{10000}\u{3ffff}\u{40000}\u{fffff}\u{100000}\u{10ffff}",
];

/// The frames of the labels that a good plan with the given head gets: none, a
/// few, many or one for every thing.
pub fn draw_labels(head: &Head, chance: &mut Chance) -> Frames {
    let things = things(head);
    let count = match chance.below(20) {
        0..=3 => 0,
        4..=11 => chance.between(1, 4),
        12..=17 => chance.between(2, 10),
        _ => things.len(),
    };
    make_labels(count.min(things.len()), head, chance)
}

/// The frames of so many good labels, of which there are at most as many as
/// things. At times a thing gets the bytes of a thing of another kind, or a
/// label that is shown like one of its own kind.
pub fn make_labels(count: usize, head: &Head, chance: &mut Chance) -> Frames {
    let things = things(head);
    let mut chosen = BTreeSet::new();
    while chosen.len() < count {
        chosen.insert(draw_thing(&things, chance));
    }
    let mut labels = Labels::new();
    for thing in chosen {
        let mut label = draw_label(&labels, chance);
        while is_taken(thing.kind, &label, &labels) {
            label = draw_label(&labels, chance);
        }
        labels.insert(thing, label);
    }
    labels
        .iter()
        .map(|(thing, label)| label_frame(*thing, label))
        .collect()
}

/// The frame of a label.
pub fn label_frame(thing: Thing, label: &[u8]) -> Vec<u8> {
    [&[0x04, thing.kind as u8, thing.number], label].concat()
}

/// Every thing of a plan that may have a label, in the order of the labels.
pub fn things(head: &Head) -> Vec<Thing> {
    let numbers = (0..3).flat_map(|kind| (0..=u8::MAX).map(move |number| (kind, number)));
    numbers
        .filter_map(|(kind, number)| thing(kind, number, head))
        .collect()
}

/// One of the things, more often one that a breach is likely to name: a channel or
/// a level with a small number.
fn draw_thing(things: &[Thing], chance: &mut Chance) -> Thing {
    let thing = chance.one_of(things);
    let likely = thing.kind != Kind::Binder && thing.number < 3;
    if likely || chance.percent(50) {
        thing
    } else {
        chance.one_of(things)
    }
}

/// Whether a thing of the kind has these bytes for its label.
fn is_taken(kind: Kind, label: &[u8], labels: &Labels) -> bool {
    let mut of_the_kind = labels.iter().filter(|(thing, _)| thing.kind == kind);
    of_the_kind.any(|(_, other)| other == label)
}

/// A label: mostly a new one, at times an earlier one or one that begins with
/// what an earlier one shows.
fn draw_label(earlier: &Labels, chance: &mut Chance) -> Vec<u8> {
    let known: Vec<&[u8]> = earlier.values().map(Vec::as_slice).collect();
    match chance.below(8) {
        0 if !known.is_empty() => chance.one_of(&known).to_vec(),
        1 if !known.is_empty() => {
            let beginning = shown(chance.one_of(&known)).to_vec();
            lengthen(beginning, chance)
        }
        _ => new_label(chance),
    }
}

/// A label that goes on from a beginning with one to four letters.
fn lengthen(mut beginning: Vec<u8>, chance: &mut Chance) -> Vec<u8> {
    for _ in 0..chance.between(1, 4) {
        beginning.push(chance.one_of(b"abcxyz"));
    }
    beginning
}

/// A label of some script or of several, of a length drawn before; at times with
/// letters before the other characters, so that these end at other places.
pub fn new_label(chance: &mut Chance) -> Vec<u8> {
    let length = draw_length(chance);
    let script = chance.one_of(&SCRIPTS);
    let several = chance.percent(20);
    let mut label = String::new();
    if chance.percent(40) {
        let letters = chance.between(1, 3).min(length);
        label.extend((0..letters).map(|_| char::from(chance.one_of(b"ABCPQR"))));
    }
    loop {
        let script = if several {
            chance.one_of(&SCRIPTS)
        } else {
            script
        };
        let characters: Vec<char> = script.chars().collect();
        let character = chance.one_of(&characters);
        if label.len() + character.len_utf8() > length {
            break;
        }
        label.push(character);
    }
    while label.len() < length {
        label.push(char::from(chance.one_of(b"abcpqr")));
    }
    label.into_bytes()
}

/// The length of a label in bytes: short, or around what is shown, or around the
/// most.
fn draw_length(chance: &mut Chance) -> usize {
    match chance.below(20) {
        0..=3 => chance.between(1, 6),
        4..=9 => chance.between(3, 20),
        10..=16 => chance.between(LONGEST_SHOWN - 2, LONGEST_SHOWN + 4),
        17 => chance.between(LONGEST_SHOWN, LONGEST_LABEL),
        _ => chance.between(LONGEST_LABEL - 3, LONGEST_LABEL),
    }
}
