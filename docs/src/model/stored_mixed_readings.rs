// Stored cases of the reader of mixed profiles, of its stretches and of reflectors: rules 5.22 to 5.25, with refusals 12 to
// 17, 22 to 24 and 27 alone and together, cuts in every part, each word changed, and reflectors of every width.
//
// The line of a reading is long, so what the number for no alone can show is asked by kinds 9 to 11.

use crate::case_parts;
use crate::mask::{has_bit, mixed_number, mixed_words};
use crate::reflectors::words_of_each;
use crate::stored_readings::{laid_out, TWO_SECTORS};
use crate::stored_states;

type Cases = Vec<Vec<u16>>;

fn read(cases: &mut Cases, words: &[u16]) {
    cases.push(case_parts::read_mixed_case(words));
}

fn stretch(cases: &mut Cases, place: u16, words: &[u16]) {
    cases.push(case_parts::stretch_mixed_case(place, words));
}

fn reflector(cases: &mut Cases, place: u16, words: &[u16]) {
    cases.push(case_parts::reflector_case(place, words));
}

fn all(cases: &mut Cases, words: &[u16]) {
    cases.push(case_parts::all_reflectors_case(words));
}

fn ask_each(cases: &mut Cases, words: &[u16]) {
    read(cases, words);
    stretch(cases, 0, words);
    reflector(cases, 0, words);
    all(cases, words);
}

/// Words in the order of rule 5.19 for any mask and any fourth word, most of them values that no other word has. A count
/// above the number of reflectors that there is room for can be given beside it. Bits without a word have none here.
fn laid_out_mixed(mask: u32, word_3: u16, points: &[u16], count: u16, reflectors: usize) -> Vec<u16> {
    let [high, low] = mixed_words(mask);
    let mut words = vec![0x9301, high, low, word_3];
    words.extend(&laid_out(low, word_3, points)[3..]);
    if has_bit(mask, 16) {
        words.push(count);
        for reflector in 0..reflectors {
            words.extend((0..words_of_each(mask)).map(|word| 0xC000u16.wrapping_add((256 * reflector + word) as u16)));
        }
    }
    words
}

fn with_reflectors(mask: u32, points: &[u16], count: usize) -> Vec<u16> {
    laid_out_mixed(mask, 0x0100 + points.len() as u16, points, count as u16, count)
}

/// The words of rule 7.18.
pub const TWO_REFLECTORS: [u16; 10] = [0x9301, 0x0011, 0x2001, 0x0101, 0x0007, 0x0000, 0x0003, 0x0002, 0x0100, 0x0200];

/// Rule 7.18, the whole profile, each of its cuts, and 27.
fn bench_figure(cases: &mut Cases) {
    for length in (0..=TWO_REFLECTORS.len()).rev() {
        ask_each(cases, &TWO_REFLECTORS[..length]);
        reflector(cases, 1, &TWO_REFLECTORS[..length]);
    }
    let mut words = TWO_REFLECTORS;
    words[7] = 0x0041;
    for length in [10, 9, 8, 7] {
        ask_each(cases, &words[..length]);
    }
}

/// Each bit that may be alone, 18 to 22 beside 16; and masks of all words and of none of the reflectors'.
fn masks(cases: &mut Cases) {
    for bit in (0..14).chain([16]) {
        let words = with_reflectors(1 << bit, &[1], 2);
        if (8..11).contains(&bit) {
            all(cases, &words);
        } else {
            read(cases, &words);
        }
        stretch(cases, 0, &words);
        reflector(cases, 1, &words);
    }
    for bit in 18..=22 {
        read(cases, &with_reflectors(1 << bit | 0x0001_0000, &[0], 2));
    }
    for mask in [0x007D_3FFF, 0x0001_0721, 0x0000_3FFF] {
        let words = with_reflectors(mask, &[2, 0, 1], 2);
        read(cases, &words);
        for place in 0..4 {
            stretch(cases, place, &words);
            reflector(cases, place, &words);
        }
        all(cases, &words);
    }
    // every bit of the two words alone, and beside bits that may be
    for bit in 0..32 {
        all(cases, &with_reflectors(1 << bit, &[0], 1));
        all(cases, &with_reflectors(1 << bit | 0x0001_0001, &[0], 1));
    }
    for [high, low] in stored_states::bad_mixed_masks() {
        let words = with_reflectors(mixed_number(high, low), &[0], 1);
        stretch(cases, 0, &words);
        reflector(cases, 0, &words);
    }
    for mask in [0, 0x0004_0000, 0x0003_0000, 0x8001_0001, 0x0001_4001] {
        read(cases, &with_reflectors(mask, &[0], 1));
    }
}

/// Every choice of a reflector's fields: each reflector, the first place that there is not, and all of them.
fn fields(cases: &mut Cases) {
    for choice in 0..32 {
        let words = with_reflectors(choice << 18 | 0x0001_0000, &[0], 2);
        for place in 0..3 {
            reflector(cases, place, &words);
        }
        all(cases, &words);
    }
}

/// Places below, at and past the number of reflectors, and of sectors.
fn places(cases: &mut Cases) {
    let three = with_reflectors(0x0061_0120, &[1, 0], 3);
    for place in [0, 1, 2, 3, 4, 63, 64, 255, 256, 257, 32768, 65535] {
        reflector(cases, place, &three);
        stretch(cases, place, &three);
    }
    let most = with_reflectors(0x0011_0001, &[0], 64);
    for place in [0, 1, 62, 63, 64, 65, 128, 256, 65535] {
        reflector(cases, place, &most);
    }
    all(cases, &most);
    read(cases, &most);
    // no word of each, no reflector, and no number of them
    for words in [with_reflectors(0x0001_0001, &[0], 5), with_reflectors(0x0005_0001, &[0], 0), with_reflectors(1, &[0], 0)] {
        for place in [0, 4, 5, 65535] {
            reflector(cases, place, &words);
        }
        ask_each(cases, &words);
    }
}

/// 27 at its edge, with as many words as the count asks for, fewer and more.
fn counts(cases: &mut Cases) {
    for count in [63, 64, 65, 66, 128, 255, 256, 320, 32768, 65535] {
        let none = laid_out_mixed(0x0001_0001, 0x0101, &[0], count, 0);
        stretch(cases, 0, &none);
        reflector(cases, 0, &none);
        reflector(cases, 64, &none);
        all(cases, &none);
        for given in [0, 1] {
            let words = laid_out_mixed(0x0041_0000, 0x0101, &[0], count, given);
            all(cases, &words);
        }
        if [64, 65].contains(&count) {
            read(cases, &none);
            ask_each(cases, &laid_out_mixed(0x0041_0000, 0x0101, &[0], count, 64));
            ask_each(cases, &laid_out_mixed(0x0041_0000, 0x0101, &[0], count, 65));
        }
    }
    // a count that the words do not bear out, below 65
    for count in [0, 1, 3, 4, 64] {
        let words = laid_out_mixed(0x0005_0000, 0x0101, &[0], count, 2);
        read(cases, &words);
        all(cases, &words);
    }
}

/// The place of rule 5.25 in every part and at its edges.
fn cuts(cases: &mut Cases) {
    // a word of each bit: head, sector with a point, SENSTAT, count, reflector
    let whole = with_reflectors(0x007D_3FFF, &[1], 1);
    for length in 4..whole.len() {
        read(cases, &whole[..length]);
        stretch(cases, 0, &whole[..length]);
        reflector(cases, 0, &whole[..length]);
    }
    // reflectors of every width: the count, both edges of the first and of the second
    for fields in [0x0040, 0x0060, 0x0070, 0x0004, 0x0044, 0x0064, 0x0074, 0x000C, 0x004C, 0x006C, 0x007C] {
        let mask = (fields | 1) << 16;
        let width = words_of_each(mask);
        let words = with_reflectors(mask, &[0], 2);
        for cut in [1, width, width + 1, 2 * width] {
            let length = words.len() - cut;
            if cut == 1 || width > 1 {
                read(cases, &words[..length]);
            }
            all(cases, &words[..length]);
        }
    }
    // sectors without a word, then SENSTAT or the count at once; sectors with words in front of the count; no count
    for words in [
        with_reflectors(0x0011_2000, &[0; 8], 2),
        with_reflectors(0x0001_0000, &[0; 3], 2),
        with_reflectors(0x0011_0128, &[1, 0], 1),
        with_reflectors(0x0000_2001, &[0], 0),
        with_reflectors(0x0000_0008, &[0; 2], 0),
    ] {
        for length in 4..words.len() {
            read(cases, &words[..length]);
            reflector(cases, 0, &words[..length]);
        }
    }
    // far behind the first reflector
    let most = with_reflectors(0x0011_0000, &[0], 64);
    for length in [36, 68] {
        read(cases, &most[..length]);
    }
}

/// Each word changed or taken out, and words added; numbers of points that take the words behind them.
fn damage(cases: &mut Cases) {
    let good = with_reflectors(0x0071_212F, &[1, 0], 2);
    for place in 0..good.len() {
        let mut words = good.clone();
        words[place] = good[place].wrapping_add(1);
        read(cases, &words);
        reflector(cases, 1, &words);
        words[place] = good[place].wrapping_sub(1);
        stretch(cases, 0, &words);
        words[place] = 0xFFFF;
        all(cases, &words);
        words.remove(place);
        all(cases, &words);
    }
    let mut longer = good.clone();
    for added in [0, 0x9301, 0xFFFF] {
        longer.push(added);
        ask_each(cases, &longer);
        stretch(cases, 2, &longer);
        reflector(cases, 2, &longer);
    }
    // sector 0's number of points stands at 4, and five words behind it
    let mut points = with_reflectors(0x0001_0120, &[2, 1], 1);
    for count in [0, 1, 3, 4, 5, 21846, 65535] {
        points[4] = count;
        reflector(cases, 0, &points);
        stretch(cases, 0, &points);
        if count < 6 {
            read(cases, &points);
        }
    }
}

/// Rule 6.1: every choice of faults that can be in the same words, with a place that is there and one that is not. Readings
/// have each fault alone and each two.
fn refusals_together(cases: &mut Cases) {
    // each with the number of faults: the first word, the mask, the fourth word, and what stands behind SENSTAT
    for (first, faults_of_first) in [(0x9301, 0), (0x8301, 1)] {
        // good; 14; 22; 22 and 14
        for (mask, faults_of_mask) in [(0x0011_0120, 0), (0x0011_0100, 1), (0x0011_4120, 1), (0x0013_0100, 2)] {
            // good; 23; 24; 23 and 24
            for (word_3, faults_of_sectors) in [(0x0101, 0), (0x0001, 1), (0x0109, 1), (0x0209, 2)] {
                // neither; 15; 16; 27 alone, with 15, and with 16
                for (count, given, more, faults_of_end) in
                    [(1, 1, 0, 0), (1, 0, 0, 1), (1, 1, 1, 1), (65, 65, 0, 1), (65, 1, 0, 2), (65, 65, 1, 2)]
                {
                    // 65 reflectors are there where each has no word
                    let mask = if given == 65 { mask & !0x0010_0000 } else { mask };
                    let mut words = laid_out_mixed(mask, word_3, &[1], count, given);
                    words[0] = first;
                    words.resize(words.len() + more, 0);
                    all(cases, &words);
                    for place in [0, 99] {
                        stretch(cases, place, &words);
                        reflector(cases, place, &words);
                    }
                    if faults_of_first + faults_of_mask + faults_of_sectors + faults_of_end <= 2 {
                        read(cases, &words);
                    }
                }
            }
        }
        // 13, and the mask's words with it
        for words in [&[first][..], &[first, 0], &[first, 0x0001], &[first, 0x0001, 0x0100], &[first, 0x0004, 0x4100]] {
            all(cases, words);
            stretch(cases, 0, words);
            reflector(cases, 65535, words);
        }
        read(cases, &[first, 0x0004, 0x4100]);
    }
    read(cases, &[]);
}

/// Each reader refuses what the other takes.
fn other_profiles(cases: &mut Cases) {
    ask_each(cases, &TWO_SECTORS);
    ask_each(cases, &[0x8301, 0x0001, 0x0101, 0x0101]);
    for words in [&TWO_REFLECTORS[..], &[0x9301, 0x0001, 0x0101, 0x0101, 0x0000]] {
        cases.push(case_parts::read_case(words));
        cases.push(case_parts::stretch_case(0, words));
    }
    // words that both would take but for the first
    for first in [0x8301, 0x9301] {
        let words = [first, 0x0001, 0x0101, 0x0101];
        cases.push(case_parts::stretch_case(0, &words));
        stretch(cases, 0, &words);
    }
}

pub fn cases() -> Cases {
    let mut cases = Vec::new();
    bench_figure(&mut cases);
    masks(&mut cases);
    fields(&mut cases);
    places(&mut cases);
    counts(&mut cases);
    cuts(&mut cases);
    damage(&mut cases);
    refusals_together(&mut cases);
    other_profiles(&mut cases);
    cases
}
