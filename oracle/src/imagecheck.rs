//! What document 01 answers for bytes that are read as an image, and 02 (v) for its two editions: refusals 9, 10 and 11. The
//! given Rust has no image, so this is a second reading of the documents and no given program: every fault is collected,
//! sentence by sentence, and the lowest one is carried.

use crate::log::Refused;

/// Where the channel blocks begin: the five with a wave, and all six.
const WAVED: [usize; 5] = [208, 240, 272, 304, 336];
const CHANNELS: [usize; 6] = [208, 240, 272, 304, 336, 368];
const NOISE: usize = 368;
const SWEEP: usize = 400;

/// The header behind the edition: u16 header length 16, u32 total 420, u16 waves 5, u16 channels 6, u16 channel offset 208, u16
/// sweep offset 400.
const HEADER: [u8; 14] = [16, 0, 0xA4, 0x01, 0, 0, 5, 0, 6, 0, 208, 0, 0x90, 0x01];

/// "image not 420 bytes; header differs; field at fault: carries the lowest such offset"
pub fn check(bytes: &[u8]) -> Result<(), Refused> {
    if bytes.len() != 420 {
        return Err((9, 0));
    }
    let edition = bytes[0] as u16 | (bytes[1] as u16) << 8;
    // "10 for editions other than 1 and 2"
    if !matches!(edition, 1 | 2) || bytes[2..16] != HEADER {
        return Err((10, 0));
    }
    let mut faults = Faults { image: bytes, at: Vec::new() };
    faults.voices();
    faults.kinds();
    faults.unit();
    faults.zeros_and_flags();
    faults.end(edition);
    match faults.at.iter().min() {
        Some(&lowest) => Err((11, lowest as u32)),
        None => Ok(()),
    }
}

/// The offsets at fault, in no order. A field wider than a byte is named by its first one.
struct Faults<'a> {
    image: &'a [u8],
    at: Vec<usize>,
}

impl Faults<'_> {
    fn must(&mut self, at: usize, holds: bool) {
        if !holds {
            self.at.push(at);
        }
    }

    fn byte(&mut self, at: usize, largest: u8) {
        self.must(at, self.image[at] <= largest);
    }

    fn half(&mut self, at: usize, largest: u16) {
        let value = self.image[at] as u16 | (self.image[at + 1] as u16) << 8;
        self.must(at, value <= largest);
    }

    fn word(&mut self, at: usize, largest: u32) {
        let value = (0..4).fold(0, |sum, i| sum | (self.image[at + i] as u32) << (8 * i));
        self.must(at, value <= largest);
    }

    /// "Range rules of a state", as far as all six channels share them.
    fn voices(&mut self) {
        for at in CHANNELS {
            // "live interval and its counter 0..31; live tick 0..76,804"
            self.byte(at + 1, 31);
            self.byte(at + 2, 31);
            self.word(at + 16, 76_804);
            // "volumes, level, reload 0..15"
            self.byte(at + 3, 15);
            self.byte(at + 4, 15);
            self.byte(at + 5, 15);
            self.byte(at + 7, 15);
            // "frequencies and frequency counter 0..2047"
            self.half(at + 12, 2047);
            self.half(at + 14, 2047);
            // "envelope interval and step 0..7, tick 0..307,218"
            self.byte(at + 6, 7);
            self.byte(at + 8, 7);
            self.word(at + 24, 307_218);
        }
    }

    /// What is a wave's alone, and the noise's.
    fn kinds(&mut self) {
        for at in WAVED {
            // "tick 0..3", "bank 0..7", "positions 0..31", "shift (zero for waves)"
            self.word(at + 20, 3);
            self.byte(at + 9, 7);
            self.byte(at + 10, 31);
            self.half(at + 28, 0);
        }
        // "tick 0..39", "shift 0..32,767"
        self.word(NOISE + 20, 39);
        self.half(NOISE + 28, 32_767);
        // "tap one of the eight": "14, 10, 13, 4, 8, 6, 9, 11"
        self.must(377, matches!(self.image[377], 4 | 6 | 8 | 9 | 10 | 11 | 13 | 14));
        // "Output (378) is compared with the lowest bit of byte 396."
        self.must(378, self.image[378] == self.image[396] & 1);
    }

    fn unit(&mut self) {
        // "wave samples 0..63"; a modulation entry is any byte
        for at in 16..176 {
            self.byte(at, 63);
        }
        // "sweep shift and interval 0..7, interval counter 0..6, step counter 0..153,608"
        self.byte(SWEEP + 1, 7);
        self.byte(SWEEP + 2, 7);
        self.byte(SWEEP + 3, 6);
        self.word(SWEEP + 4, 153_608);
        // "modulation index 0..31"
        self.byte(SWEEP + 8, 31);
        // last written, current and next are frequencies
        self.half(SWEEP + 10, 2047);
        self.half(SWEEP + 12, 2047);
        self.half(SWEEP + 14, 2047);
        // "output counter 0..479"
        self.half(416, 479);
    }

    fn zeros_and_flags(&mut self) {
        for at in CHANNELS {
            self.byte(at + 11, 0);
            self.half(at + 30, 0);
        }
        self.byte(SWEEP + 9, 0);
        // "Flags count from bit 0, unused ones zero": a channel has five and so has the sweep
        for at in CHANNELS {
            self.byte(at, 0b1_1111);
        }
        self.byte(SWEEP, 0b1_1111);
    }

    /// What the editions have apart: "u16 zero at 418", and "the bits at byte 418, range 0 to 63, byte 419 zero".
    fn end(&mut self, edition: u16) {
        if edition == 1 {
            self.half(418, 0);
        } else {
            self.byte(418, 63);
            self.byte(419, 0);
        }
    }
}
