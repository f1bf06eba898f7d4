//! A gateway in Rust: prints the sheet, or the reach sheet or the word sheet, of
//! the plan on standard input, after trying buffers of many lengths, with bytes
//! around them that have to stay.
//!
//!     rustc --edition 2021 -O -o gateway examples/gateway.rs \
//!         -C link-arg=crates/gateway/out/libgateway.a
//!     ./gateway [reach | words] [ALLOWANCE]
//!
//! The allowance of rounds is 0 to 65,535; without it, as many are allowed as
//! any plan needs.

use std::env;
use std::io::{self, Read, Write};

/// Rounds that suffice for every plan.
const ROUNDS: u16 = 17_409;
/// Bytes that suffice for every sheet, and for every reach sheet.
const SHEET: usize = 8_128;
/// Bytes that suffice for every word sheet.
const WORDS: usize = 114;
/// Bytes that are laid around a buffer, and what they are filled with.
const AROUND: usize = 16;
const FILL: u8 = 0xa5;

extern "C" {
    fn hjaltropa_sheet(
        text: *const u8,
        text_length: usize,
        allowance: u16,
        buffer: *mut u8,
        buffer_length: usize,
    ) -> usize;
    fn hjaltropa_reach(
        text: *const u8,
        text_length: usize,
        allowance: u16,
        buffer: *mut u8,
        buffer_length: usize,
    ) -> usize;
    fn hjaltropa_words(
        text: *const u8,
        text_length: usize,
        allowance: u16,
        buffer: *mut u8,
        buffer_length: usize,
    ) -> usize;
}

/// The sheet that is asked for.
#[derive(Clone, Copy)]
enum Asked {
    Flow,
    Reach,
    Words,
}

/// The length of a text's sheet; where the buffer is as long or longer, it stands
/// at its start, and otherwise the buffer is unchanged.
fn answer(asked: Asked, text: &[u8], allowance: u16, buffer: &mut [u8]) -> usize {
    let function = match asked {
        Asked::Flow => hjaltropa_sheet,
        Asked::Reach => hjaltropa_reach,
        Asked::Words => hjaltropa_words,
    };
    // Two slices of Rust's are what the proved functions ask for: they have no
    // further demand on their caller.
    unsafe {
        function(
            text.as_ptr(),
            text.len(),
            allowance,
            buffer.as_mut_ptr(),
            buffer.len(),
        )
    }
}

/// Whether buffers of this length are tried: up to a byte more than the sheet has
/// all for a short sheet, and for a long one those near 0 and near the sheet's
/// length, and some in between; and past that those with room for the longest.
fn worth_trying(room: usize, size: usize, longest: usize) -> bool {
    if size + 1 < room {
        return longest <= room;
    }
    size <= 300 || room <= 8 || size <= room + 8 || room % (size / 8) == 0
}

fn main() -> io::Result<()> {
    let mut words = env::args().skip(1).peekable();
    let (asked, longest) = if words.next_if_eq("reach").is_some() {
        (Asked::Reach, SHEET)
    } else if words.next_if_eq("words").is_some() {
        (Asked::Words, WORDS)
    } else {
        (Asked::Flow, SHEET)
    };
    let allowance = match words.next() {
        Some(word) => word
            .parse()
            .expect("usage: gateway [reach | words] [ALLOWANCE]"),
        None => ROUNDS,
    };
    let sheet = |text: &[u8], buffer: &mut [u8]| answer(asked, text, allowance, buffer);
    let mut text = Vec::new();
    io::stdin().read_to_end(&mut text)?;
    let size = sheet(&text, &mut []);
    assert!(size <= longest, "a sheet of {size} bytes");
    let mut whole = vec![0; size];
    assert_eq!(sheet(&text, &mut whole), size);
    for room in (0..=longest + 1).filter(|room| worth_trying(*room, size, longest)) {
        let mut tried = vec![FILL; AROUND + room + AROUND];
        let buffer = &mut tried[AROUND..AROUND + room];
        assert_eq!(sheet(&text, buffer), size);
        let written = if room < size { 0 } else { size };
        let mut wanted = vec![FILL; AROUND + room + AROUND];
        wanted[AROUND..AROUND + written].copy_from_slice(&whole[..written]);
        assert_eq!(tried, wanted, "a buffer of {room} bytes");
    }
    io::stdout().write_all(&whole)
}
