//! The log of the stored run of `crates/bouncer`.

use crate::log::{bytes_of, Write};

/// Six voices begin one after the other, a frame apart, and what the stems lose on the left goes up by 32 with each: 0, 32, 64, 96,
/// 128, 160. With a = level × volume / 8 + 1 a voice's side is a × sample / 2, and what that has above a multiple of 8 goes by a and
/// the sample, each modulo 16. It is 7, the most there is, for 13 and 11, as in 29 × 59 / 2 = 855 = 8 × 106 + 7, and for 1 and 15, as
/// in 17 × 63 / 2 = 535 = 8 × 66 + 7. So the samples of one wave are 11 modulo 16, those of the other 15, as is the noise's 63, and
/// the left volumes make a such a number. Then n voices lose 7 × n, the mix what this has above a multiple of 8, and four times the
/// difference is 32 × (n - 1). On the right most have a = 16, and lose nothing.
const VOICES: [(u16, [u8; 6]); 6] = [
    // offsets 0x04 to 0x18; a on the left and on the right
    (0x400, [0xF8, 0x80, 0x07, 0xF0, 0x00, 0x00]), // 29, 16
    (0x440, [0x8A, 0x00, 0x07, 0xC0, 0x00, 0x00]), // 13, 16
    (0x480, [0xA1, 0xC0, 0x07, 0xD0, 0x00, 0x01]), // 17, 2
    (0x4C0, [0x18, 0x40, 0x07, 0x10, 0x00, 0x01]), // 1, 2
    (0x500, [0x98, 0xA0, 0x07, 0xF0, 0x00, 0x01]), // 17, 16
    // tap 14, a clock in 240 cycles: on for 8 of them, then off for 8; it has no 0x18
    (0x540, [0x98, 0xFA, 0x07, 0xF0, 0x00, 0x00]), // 17, 16
];

/// Sixteen frames and 20 cycles more.
pub fn stored() -> Vec<u8> {
    let mut writes = Vec::new();
    let mut at = |due, address, byte| writes.push(Write { due, address, byte });
    for i in 0..32 {
        at(0, 4 * i, 11 + 16 * (i % 4) as u8);
        at(0, 0x80 + 4 * i, 63 - 16 * (i % 4) as u8);
    }
    for (k, (base, bytes)) in (0..).zip(VOICES) {
        for (i, byte) in (1..).zip(bytes) {
            at(480 * k, base + 4 * i, byte);
        }
        at(480 * k, base, 0x80);
    }
    // held: the waves while any voice plays, the modulation while channel 5 does
    at(3_000, 0x000, 0x00);
    at(3_000, 0x280, 0x7F);
    // just before the cycle that makes frame 7, and just after it
    at(3_359, 0x404, 0x8F);
    at(3_360, 0x444, 0xA8);
    // one voice is stopped, another falls silent and plays on
    at(3_840, 0x480, 0x00);
    at(5_280, 0x444, 0x00);
    // all are stopped; the wave is taken now; one begins again, alone, and is stopped
    at(6_240, 0x580, 0x01);
    at(6_240, 0x080, 0x2A);
    at(6_240, 0x4D0, 0xF0);
    at(6_240, 0x4C0, 0x80);
    at(7_200, 0x580, 0x01);
    bytes_of(7_700, &writes)
}
