//! Places: where the offers, the labels and the nodes of a good plan begin among
//! its frames.

/// The place of the first offer, or of what follows where there is none.
pub fn first_offer(frames: &[Vec<u8>]) -> usize {
    first_from(0x03, frames)
}

/// The place of the first label, or of what follows where there is none; it is
/// also the place after the last offer.
pub fn first_label(frames: &[Vec<u8>]) -> usize {
    first_from(0x04, frames)
}

/// The place of the first node, which is also the place after the last label.
pub fn first_node(frames: &[Vec<u8>]) -> usize {
    first_from(0x10, frames)
}

/// The place of the first frame whose first byte is not below the given one; in
/// a good plan all frames with a lower one stand before it.
fn first_from(first_byte: u8, frames: &[Vec<u8>]) -> usize {
    let before = frames.iter().filter(|frame| frame[0] < first_byte);
    before.count()
}
