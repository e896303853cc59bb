//! The log of the stored run of `crates/wav`.

use crate::log::{bytes_of, Write};

/// A wave on the left, one on the right whose envelope falls once, noise, and a sweep that runs over and stops, begun one
/// after the other; all stopped near the end. 1,100 frames, past the 1,024 of one play, and 100 cycles more.
pub fn stored() -> Vec<u8> {
    let mut writes = Vec::new();
    let mut at = |due, address, byte| writes.push(Write { due, address, byte });
    for i in 0..32 {
        at(0, 4 * i, 2 * i as u8);
        at(0, 0x80 + 4 * i, if i < 16 { 63 } else { 0 });
    }
    let voices: [(u32, u16, [u8; 7]); 4] = [
        (0, 0x400, [0xF0, 0x00, 0x07, 0xF0, 0x00, 0x00, 0x00]),
        (100_000, 0x440, [0x0F, 0x80, 0x07, 0xF0, 0x01, 0x01, 0x00]),
        (200_000, 0x540, [0x84, 0xE0, 0x07, 0x80, 0x30, 0x00, 0x00]),
        (250_000, 0x500, [0x48, 0x00, 0x06, 0xC0, 0x40, 0x01, 0x1A]),
    ];
    for (due, base, bytes) in voices {
        for (i, byte) in bytes.into_iter().enumerate() {
            at(due, base + 4 + 4 * i as u16, byte);
        }
        at(due, base, 0x80);
    }
    at(300_000, 0x408, 0xC0);
    at(520_000, 0x580, 0x01);
    bytes_of(528_100, &writes)
}
