// Rules 5.1, 5.18 and 5.19: the list of reflectors that a revolution is given, and which of their words each bit of a mixed
// mask stands for.

use crate::mask::has_bit;
use std::ops::Range;

/// x, y, distance and angle of two words each; then time, mean echo, number of spots.
pub const WORDS_OF_ONE: usize = 11;

pub const MOST: usize = 64;

/// The bits in the order in which a profile has them, each with its words of the eleven.
const FIELDS: [(u16, Range<usize>); 5] = [
    (18, 0..4),
    (19, 4..8),
    (20, 8..9),
    (21, 9..10),
    (22, 10..11),
];

/// Whether 27 is not due in a revolution.
pub fn list_fits(reflectors: &[u16]) -> bool {
    reflectors.len() % WORDS_OF_ONE == 0 && reflectors.len() / WORDS_OF_ONE <= MOST
}

/// How many words each reflector has in a profile of this mask.
pub fn words_of_each(mask: u32) -> usize {
    FIELDS.iter().filter(|(bit, _)| has_bit(mask, *bit)).map(|(_, own)| own.len()).sum()
}

/// The end of a mixed profile: how many there are, and then each whole before the next.
pub fn words_in_profile(mask: u32, reflectors: &[u16]) -> Vec<u16> {
    let mut words = Vec::new();
    if has_bit(mask, 16) {
        words.push((reflectors.len() / WORDS_OF_ONE) as u16);
    }
    for reflector in reflectors.chunks(WORDS_OF_ONE) {
        for (bit, own) in FIELDS {
            if has_bit(mask, bit) {
                words.extend(&reflector[own]);
            }
        }
    }
    words
}
