//! What is sent, and what comes of it: lines made from their parts, and bits turned on the way.

use crate::chance::Chance;

pub const LINE: usize = 46;
pub const NUMBERS: usize = 6;
pub const COLUMNS: usize = 40;
pub const ROWS: usize = 25;

/// The code words of the numbers 0 to 15.
pub const WORDS: [u8; 16] = [
    21, 2, 73, 94, 100, 115, 56, 47, 208, 199, 140, 155, 161, 182, 253, 234,
];

/// A row of a page, as it is sent.
#[derive(Clone, Copy)]
pub struct Sent {
    pub page: u8,
    pub version: u8,
    pub row: u8,
    pub letters: [u8; COLUMNS],
}

impl Sent {
    pub fn bytes(&self) -> [u8; LINE] {
        let mut bytes = [0; LINE];
        for (k, number) in [self.page, self.version, self.row].into_iter().enumerate() {
            bytes[2 * k] = WORDS[number as usize / 16];
            bytes[2 * k + 1] = WORDS[number as usize % 16];
        }
        for (byte, &letter) in bytes[NUMBERS..].iter_mut().zip(&self.letters) {
            *byte = if letter.count_ones() % 2 == 1 {
                letter
            } else {
                letter + 128
            };
        }
        bytes
    }
}

/// A line as it comes, with how many bits of each byte were turned.
pub struct Came {
    pub bytes: [u8; LINE],
    pub turned: [u32; LINE],
}

/// Turns at most two bits of each number's byte and one of each letter's, of a thousand so many.
pub fn damage_within(chance: &mut Chance, sent: &Sent, numbers: usize, letters: usize) -> Came {
    let mut came = Came {
        bytes: sent.bytes(),
        turned: [0; LINE],
    };
    for k in 0..LINE {
        let bits = match k < NUMBERS {
            true if chance.happens(numbers) => 1 + chance.below(2) as u32,
            false if chance.happens(letters) => 1,
            _ => 0,
        };
        came.bytes[k] ^= bits_of(chance, bits);
        came.turned[k] = bits;
    }
    came
}

/// So many bits, each another one.
pub fn bits_of(chance: &mut Chance, count: u32) -> u8 {
    let mut bits = 0u8;
    while bits.count_ones() < count {
        bits |= 1 << chance.below(8);
    }
    bits
}
