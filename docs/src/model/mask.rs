// Rules 2.7 and 2.11: the two kinds of masks that a job can have, and which of them are in their range.

/// A plain mask is one word; a mixed one is the number of its two words (rule 2.11).
#[derive(Clone, Copy, PartialEq, Eq, Debug)]
pub enum Mask {
    Plain(u16),
    Mixed(u32),
}

/// Whether a bit of a mask is set, be it of one word or of two.
pub fn has_bit(mask: impl Into<u32>, bit: u16) -> bool {
    mask.into() >> bit & 1 == 1
}

/// The number of a mixed mask's two words.
pub fn mixed_number(high: u16, low: u16) -> u32 {
    65536 * u32::from(high) + u32::from(low)
}

/// The words of a mixed mask, the high one first.
pub fn mixed_words(mask: u32) -> [u16; 2] {
    [(mask >> 16) as u16, mask as u16]
}

/// Rule 2.7.
pub fn plain_in_range(mask: u16) -> bool {
    mask != 0 && mask & 0xC000 == 0
}

/// Rule 2.11.
pub fn mixed_in_range(mask: u32) -> bool {
    let has = |bit: u16| has_bit(mask, bit);
    let has_bit_of_no_word = has(14) || has(15) || has(17) || (23..=31).any(has);
    let has_word_of_reflectors = (18..=22).any(has);
    mask != 0 && !has_bit_of_no_word && (has(16) || !has_word_of_reflectors)
}

impl Mask {
    pub fn mixed(high: u16, low: u16) -> Mask {
        Mask::Mixed(mixed_number(high, low))
    }

    pub fn in_range(self) -> bool {
        match self {
            Mask::Plain(mask) => plain_in_range(mask),
            Mask::Mixed(mask) => mixed_in_range(mask),
        }
    }
}
