// Stored cases of the reader and of the stretch: rules 5.10 to 5.16, with
// refusals 12 to 17 and 22 to 24 alone and together, and cuts in every part of a profile.

use crate::case_parts;
use crate::mask::has_bit;
use crate::random_profiles::profile_of_state;
use crate::revolution::Measured;
use crate::state::State;
use crate::stored_samples::*;

type Cases = Vec<Vec<u16>>;

fn profile_of(state: &State) -> Vec<u16> {
    let (distances, echoes) = (distances(90).words(), echoes(90).words());
    profile_of_state(state, &Measured { start_time: 65500, distances: &distances, echoes: &echoes, reflectors: &[] })
}

/// A profile of three sectors and two points.
fn small_profile(mask: u16) -> Vec<u16> {
    profile_of(&small_state(mask))
}

fn read(cases: &mut Cases, words: &[u16]) {
    cases.push(case_parts::read_case(words));
}

fn stretch(cases: &mut Cases, place: u16, words: &[u16]) {
    cases.push(case_parts::stretch_case(place, words));
}

fn read_and_stretch(cases: &mut Cases, words: &[u16]) {
    read(cases, words);
    for place in 0..3 {
        stretch(cases, place, words);
    }
}

fn masks(cases: &mut Cases) {
    for bit in 0..14 {
        read_and_stretch(cases, &small_profile(1 << bit));
        read_and_stretch(cases, &small_profile(0x3FFF & !(1 << bit)));
    }
    read_and_stretch(cases, &small_profile(0x3FFF));
    for choice in 1..8 {
        read_and_stretch(cases, &small_profile(choice << 8 | 0x0020));
        stretch(cases, 1, &small_profile(choice << 8));
    }
    // bits 14 and 15, and no bit
    for mask in [0, 0x4000, 0x8000, 0xC000, 0x4020, 0x8020, 0x7FFF, 0xBFFF, 0xFFFF] {
        let mut words = small_profile(0x0020);
        words[1] = mask;
        read_and_stretch(cases, &words);
    }
}

fn sectors(cases: &mut Cases) {
    for count in 1..=8 {
        for mask in [0x3FFF, 0x0120] {
            let state = State { working_plan: plan_of_length(count), ..small_state(mask) };
            let words = profile_of(&state);
            read(cases, &words);
            for place in (0..=8).chain([9, 255, 256, 65535]) {
                if words.len() < 200 || [0, 1, 65535].contains(&place) {
                    stretch(cases, place, &words);
                }
            }
        }
    }
    // word 2: its high byte, and every number of sectors, with a mask that leaves nothing to a sector
    for word in (0x00FF..=0x010A).chain([0, 1, 8, 0x01FF, 0x0200, 0x0201, 0x0301, 0x8101, 0xFFFF]) {
        read(cases, &[0x8301, 0x0001, word, 0xABCD]);
        for place in [0, 7, 8] {
            stretch(cases, place, &[0x8301, 0x0001, word, 0xABCD]);
        }
    }
    // the same with one word for each sector
    for count in 0..=9 {
        let mut words = vec![0x8301, 0x0008, 0x0100 + count];
        words.extend((0..count).map(|i| 0xFF00 + i));
        read(cases, &words);
        stretch(cases, 0, &words);
    }
}

/// A small profile cut at every length, with each word changed, and with words added.
fn damage(cases: &mut Cases) {
    let good = small_profile(0x3FFF);
    for length in 0..good.len() {
        read(cases, &good[..length]);
        for place in [0, 2, 3] {
            stretch(cases, place, &good[..length]);
        }
    }
    for place in 0..good.len() {
        let mut words = good.clone();
        words[place] = good[place].wrapping_add(1);
        read(cases, &words);
        for word in [good[place].wrapping_add(1), good[place].wrapping_sub(1), 0xFFFF] {
            words[place] = word;
            stretch(cases, 1, &words);
        }
        let mut shorter = good.clone();
        shorter.remove(place);
        stretch(cases, 1, &shorter);
    }
    for added in 1..4 {
        let mut words = good.clone();
        words.extend(vec![0; added]);
        read(cases, &words);
        stretch(cases, 1, &words);
        stretch(cases, 3, &words);
    }
    // one word too few and one too many for each single field
    for bit in 0..14 {
        let words = small_profile(1 << bit | 0x0020);
        read(cases, &words[..words.len() - 1]);
        let mut longer = words.clone();
        longer.push(0x8301);
        read(cases, &longer);
    }
}

/// Field values that no sensor writes, which the reader takes; and numbers of points that the words do or do not hold.
fn field_values(cases: &mut Cases) {
    let words = [0x8301, 0x201C, 0x0102, 65535, 65535, 65535, 0, 7, 65535, 65534, 65533];
    read(cases, &words);
    let mut points = vec![0x8301, 0x0720, 0x0103, 2, 1, 2, 3, 4, 5, 6, 0, 1, 7, 8, 9];
    for place in 0..4 {
        stretch(cases, place, &points);
    }
    read(cases, &points);
    for count in [0, 1, 3, 4, 5, 21845, 21846, 32768, 43691, 65535] {
        points[3] = count;
        read(cases, &points);
        stretch(cases, 0, &points);
    }
    // numbers of points whose words would fit if their number were taken modulo 65536
    for words in [
        &[0x8301, 0x0320, 0x0101, 32768][..],
        &[0x8301, 0x0320, 0x0101, 32769, 1, 2],
        &[0x8301, 0x0720, 0x0101, 21846, 1, 2],
        &[0x8301, 0x0720, 0x0101, 43691, 1],
    ] {
        read(cases, words);
        stretch(cases, 0, words);
    }
    // points without words of their own: the number says nothing about the length
    for count in [0, 1, 65535] {
        read(cases, &[0x8301, 0x0020, 0x0102, count, 5]);
        stretch(cases, 1, &[0x8301, 0x0020, 0x0102, count, 5]);
    }
    let many: Vec<u16> = (0..300).collect();
    let mut long = vec![0x8301, 0x0120, 0x0102, 300];
    long.extend(&many);
    long.push(0);
    read(cases, &long);
    stretch(cases, 0, &long);
    stretch(cases, 1, &long);
}

/// The words of rule 7.13: a head of 4 words, a sector with two points, one without, SENSTAT.
pub const TWO_SECTORS: [u16; 12] = [0x8301, 0x2129, 0x0102, 7, 0, 2, 0x0500, 0x0501, 1, 0, 0, 3];

/// Rule 7.13, the whole profile and each of its cuts.
fn bench_figure(cases: &mut Cases) {
    for length in (0..=TWO_SECTORS.len()).rev() {
        read_and_stretch(cases, &TWO_SECTORS[..length]);
    }
}

/// Words in the order of rules 5.4 and 5.5 for any mask and any third word, most of them values that no other word has.
/// Bits 14 and 15 have no word, and without bit 5 there are no points (rule 5.10).
pub fn laid_out(mask: u16, word_2: u16, points: &[u16]) -> Vec<u16> {
    fn give(words: &mut Vec<u16>, bits: std::ops::Range<u16>) {
        for bit in bits {
            if has_bit(words[1], bit) {
                words.push(0xA000 + words.len() as u16);
            }
        }
    }
    let mut words = vec![0x8301, mask, word_2];
    give(&mut words, 0..3);
    for sector in 0..usize::from(word_2 & 0x00FF) {
        let count = points.get(sector).copied().unwrap_or(0);
        give(&mut words, 3..5);
        if has_bit(mask, 5) {
            words.push(count);
        }
        give(&mut words, 6..8);
        for _ in 0..if has_bit(mask, 5) { count } else { 0 } {
            give(&mut words, 8..11);
        }
        give(&mut words, 11..13);
    }
    give(&mut words, 13..14);
    give(&mut words, 13..14);
    words
}

/// Refusals 22, 23 and 24 alone, at the edges of what mask, layers and S may be, and the good values beside them. There
/// are as many words as the mask and S ask for.
fn head_words(cases: &mut Cases) {
    let masks = [0, 0x4000, 0x8000, 0xC000, 0xFFFF, 0x3FFF];
    let thirds = [0x0001, 0x0201, 0xFF01, 0x0101, 0x0008, 0x0208, 0xFF08, 0x0108, 0x0100, 0x0109, 0x01FF];
    let by_mask = masks.map(|mask| laid_out(mask, 0x0101, &[1]));
    let by_third = thirds.map(|word_2| laid_out(0x0004, word_2, &[]));
    for words in by_mask.iter().chain(&by_third) {
        read(cases, words);
        for place in [0, 8] {
            stretch(cases, place, words);
        }
    }
}

/// Readings at every length from the three words of rule 5.4 on to the whole, and the numbers beside stretches.
fn read_cuts(cases: &mut Cases, words: &[u16]) {
    for length in 3..=words.len() {
        read(cases, &words[..length]);
        stretch(cases, 0, &words[..length]);
    }
}

/// The place of rule 5.16 in every part.
fn cuts(cases: &mut Cases) {
    // sectors without a word: the head, then SENSTAT, or SENSTAT at once
    read_cuts(cases, &laid_out(0x2001, 0x0102, &[]));
    read_cuts(cases, &laid_out(0x2000, 0x0108, &[]));
    // each choice of the head's words, in front of a sector of one word
    for choice in 0..8 {
        read_cuts(cases, &laid_out(choice | 0x0008, 0x0101, &[]));
    }
    // eight sectors of one word, and with points in some of them
    read_cuts(cases, &laid_out(0x2008, 0x0108, &[]));
    read_cuts(cases, &laid_out(0x0120, 0x0108, &[1, 0, 2, 0, 0, 1, 0, 3]));
    // one sector, with every word there is
    read_cuts(cases, &laid_out(0x3FFF, 0x0101, &[1]));
    // in the middle of points of three words and of two, between sectors, before SENSTAT and in it
    read_cuts(cases, &laid_out(0x0720, 0x0102, &[2, 1]));
    read_cuts(cases, &laid_out(0x2620, 0x0103, &[0, 1, 2]));
    // the words of bits 11 and 12, without points and behind them, and each alone
    read_cuts(cases, &laid_out(0x3800, 0x0102, &[]));
    read_cuts(cases, &laid_out(0x1920, 0x0102, &[1, 0]));
    read_cuts(cases, &laid_out(0x0800, 0x0102, &[]));
    read_cuts(cases, &laid_out(0x1000, 0x0102, &[]));
}

/// Rule 5.16 with numbers of points that are too large: they take words of what stands behind, then all, then more.
fn cuts_by_numbers(cases: &mut Cases) {
    // the number of sector 1 stands at 7, and six words behind it
    let mut middle = laid_out(0x2128, 0x0103, &[1, 2, 0]);
    for count in [3, 4, 5, 6, 7, 65535] {
        middle[7] = count;
        read_and_stretch(cases, &middle);
    }
    // the number of the last sector stands at 4, and three words behind it
    let mut last = laid_out(0x2120, 0x0102, &[0, 1]);
    for count in [2, 3, 4, 65535] {
        last[4] = count;
        read_and_stretch(cases, &last);
    }
}

/// Rule 6.1 for the reader and the stretch: every choice of faults that can be in the same words, with a place that is
/// below S and one that is not.
fn refusals_together(cases: &mut Cases) {
    for first in [0x8301, 0x0301] {
        // good; 14; 22; 22 and 14; 22 by no bit
        for mask in [0x0121, 0x0101, 0x4121, 0x4101, 0] {
            // good; 23; 24; 23 and 24
            for word_2 in [0x0102, 0x0002, 0x0109, 0x0209] {
                let mut words = laid_out(mask, word_2, &[1]);
                words[0] = first;
                words.push(0);
                // 16; neither; 15, but for the mask without a bit, which leaves no word to cut off
                for length in (3.max(words.len() - 2)..=words.len()).rev() {
                    read(cases, &words[..length]);
                    stretch(cases, 0, &words[..length]);
                    stretch(cases, 9, &words[..length]);
                }
            }
            // 13
            read(cases, &[first, mask]);
            stretch(cases, 0, &[first, mask]);
        }
    }
    // word 2 good or with one fault, and numbers of words that do not go by S
    for first in [0x8301, 0x0301] {
        for mask in [0x0120, 0x0100, 0x4120, 0x4100, 0] {
            for word_2 in [0x0102, 0x0109, 0x0002] {
                // as many words as bits 5 and 8 ask for, one fewer, one more
                for length in [6, 5, 7] {
                    let words = [first, mask, word_2, 1, 0x1111, 0, 0x2222];
                    let words = &words[..length];
                    stretch(cases, 0, words);
                    stretch(cases, 2, words);
                    if word_2 != 0x0002 && mask != 0x4120 {
                        read(cases, words);
                    }
                }
            }
        }
    }
    for words in [
        &[][..],
        &[0x8301],
        &[0x0301],
        &[0x8301, 0],
        &[0x8301, 0x0001],
        &[0x8301, 0x4100],
        &[0, 0, 0],
        &[0x8301, 0, 0],
        // 14 and a field that is missing, 14 and a word left over
        &[0x8301, 0x0108, 0x0102, 0],
        &[0x8301, 0x0108, 0x0102, 0, 1, 2],
    ] {
        read(cases, words);
        stretch(cases, 0, words);
        stretch(cases, 65535, words);
    }
}

pub fn cases() -> Cases {
    let mut cases = Vec::new();
    masks(&mut cases);
    sectors(&mut cases);
    damage(&mut cases);
    field_values(&mut cases);
    bench_figure(&mut cases);
    head_words(&mut cases);
    cuts(&mut cases);
    cuts_by_numbers(&mut cases);
    refusals_together(&mut cases);
    cases
}
