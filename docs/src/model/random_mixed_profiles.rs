// Random words for the reader of mixed profiles: profiles as the sensor writes them, profiles laid out with any field values,
// damage to both, and plain profiles; and lists of reflectors for a revolution.

use crate::mask::{self, has_bit, Mask};
use crate::mixed_reader;
use crate::random::Random;
use crate::random_profiles;
use crate::random_requests;
use crate::random_states;
use crate::reflectors;
use crate::revolution::Measured;
use crate::state::Job;

/// How many reflectors there are: few most of the time, and at most 64.
pub fn reflector_count(random: &mut Random) -> usize {
    match random.weighted(&[20, 50, 12, 12, 6]) {
        0 => 0,
        1 => 1 + random.below(4),
        2 => random.below(65),
        3 => 64,
        _ => 63,
    }
}

/// The length of a list of reflectors that a revolution refuses: too many, or no elevens.
pub fn bad_list_length(random: &mut Random) -> usize {
    let many = 11 * (65 + random.below(600));
    let any = random.below(8192);
    let not_in_elevens = 11 * random.below(64) + 1 + random.below(10);
    random.pick(&[715, 715, 1, 10, 12, 703, 705, 714, many, not_in_elevens, not_in_elevens, any])
}

/// A mixed mask with which the reader takes what the sensor writes, most of the time.
fn readable_mask(random: &mut Random) -> u32 {
    let mask = random_states::mixed_mask(random);
    if random.percent(85) && mask & 0x0700 != 0 {
        mask | 0x0020
    } else {
        mask
    }
}

/// A mixed profile that the sensor wrote.
fn written_profile(random: &mut Random) -> Vec<u16> {
    let largest = random.percent(1);
    let mut state =
        if largest { random_states::largest_state(random) } else { random_profiles::few_points_state(random) };
    let mask = if largest && random.percent(50) { 0x007D_3FFF } else { readable_mask(random) };
    state.job = Job::Endless { mask: Mask::Mixed(mask), sent: random.word() };
    let shots = random_states::shots_asked_of_lists(&state);
    let count = if largest { 64 } else { reflector_count(random) };
    let distances: Vec<u16> = (0..shots).map(|_| random.word()).collect();
    let echoes: Vec<u16> = (0..shots).map(|_| random.word()).collect();
    let reflectors: Vec<u16> = (0..11 * count).map(|_| random.word()).collect();
    let start_time = random.word();
    let measured = Measured { start_time, distances: &distances, echoes: &echoes, reflectors: &reflectors };
    random_profiles::profile_of_state(&state, &measured)
}

/// A mixed profile in the layout's order with any field values, any small numbers of points and any number of reflectors.
fn laid_out_profile(random: &mut Random) -> Vec<u16> {
    let mask = readable_mask(random);
    let [high, low] = mask::mixed_words(mask);
    let sectors = 1 + random.below(8);
    let mut words = vec![0x9301, high, low, 0x0100 + sectors as u16];
    random_profiles::push_laid_out(random, &mut words, low, sectors);
    if has_bit(mask, 16) {
        let count = reflector_count(random);
        words.push(count as u16);
        for _ in 0..count * reflectors::words_of_each(mask) {
            words.push(random.word());
        }
    }
    words
}

fn damage_words(random: &mut Random, words: &mut Vec<u16>) {
    let any_word = random_requests::edge_word(random);
    let any_place = random.below(words.len().max(1));
    if words.len() < 4 {
        words.push(any_word);
        return;
    }
    match random.below(16) {
        // cut somewhere, near the end, in the head
        0 => words.truncate(any_place),
        1 => words.truncate(words.len() - 1 - random.below(4)),
        2 => words.truncate(random.below(6)),
        // words added
        3 => words.push(any_word),
        4 => {
            for _ in 0..1 + random.below(12) {
                words.push(random.word());
            }
        }
        // the head's four words
        5 => words[0] = random.pick(&[0, 0x1301, 0x8301, 0x9300, 0x9302, 0x0193, 65535, any_word]),
        6 => words[1] ^= 1 << random.below(16),
        7 => words[2] ^= 1 << random.below(16),
        8 => words.swap(1, 2),
        9 => words[3] = random.pick(&[0x0100, 0x0101, 0x0108, 0x0109, 0x01FF, 0, 1, 8, 65535, any_word]),
        10 => words[3] = random.pick(&[words[3] ^ 1, words[3] ^ 2, words[3] & 0x00FF, words[3] ^ 0x0300]),
        // any word, perhaps a number of points or of reflectors; one out or in between
        11 => words[any_place] = any_word,
        12 => words[any_place] = words[any_place].wrapping_add(random.pick(&[1, 65535])),
        13 => {
            words.remove(any_place);
        }
        // a word of the head taken out, as if the profile were a plain one
        14 => {
            words.remove(1 + random.below(3));
        }
        // random words behind a good head
        _ => {
            for word in words.iter_mut().skip(4) {
                *word = random_requests::edge_word(random) % 256;
            }
        }
    }
}

/// The mask, the layers or S out of its range (refusals 22, 23 and 24), or several of them.
fn damage_head(random: &mut Random, words: &mut [u16]) {
    if words.len() < 4 {
        return;
    }
    // 22 is the first of four of these choices, 23 of two and 24 of one
    let choice = random.weighted(&[2, 2, 1, 5, 1, 1, 1]) + 1;
    if choice & 1 != 0 {
        let bad = random_states::bad_mixed_mask(random);
        let with_a_bit = mask::mixed_number(words[1], words[2]) | 1 << random.pick(&[14, 15, 17, 23, 31]);
        let [high, low] = mask::mixed_words(random.pick(&[bad, with_a_bit]));
        words[1] = high;
        words[2] = low;
    }
    if choice & 2 != 0 {
        let any = random.word() & 0xFF00;
        words[3] = words[3] & 0x00FF | random.pick(&[0, 0x0200, 0x8100, 0xFF00, any]);
    }
    if choice & 4 != 0 {
        let any = random.between(9, 255);
        words[3] = words[3] & 0xFF00 | random.pick(&[0, 9, 255, any]);
    }
}

/// The place of the word of bit 16, where the words are a mixed profile that has it.
fn place_of_count(words: &[u16]) -> Option<usize> {
    let (_, reading) = mixed_reader::read(words);
    reading.reflector_count.map(|_| reading.reflectors_place - 1)
}

/// Another number of reflectors than there are: 27 where it is above 64, else 15 or 16; sometimes cut behind it.
fn damage_count(random: &mut Random, words: &mut Vec<u16>) {
    let Some(place) = place_of_count(words) else { return };
    let old = words[place];
    let any = random.word();
    words[place] = random.pick(&[0, 64, 65, 65, 66, 128, 256, 65535, any, old.wrapping_add(1), old.wrapping_sub(1)]);
    if random.percent(30) {
        let behind = words.len() - place;
        words.truncate(place + 1 + random.below(behind));
    } else if random.percent(10) {
        words.push(any);
    }
}

/// Cuts a mixed profile in one of its parts (rule 5.25), more often in those of few words than chance would have it.
fn cut_in_a_part(random: &mut Random, words: &mut Vec<u16>) {
    let (refusal, reading) = mixed_reader::read(words);
    if refusal != 0 {
        return;
    }
    let bits = |wanted: u16| (words[2] & wanted).count_ones() as usize;
    let count = usize::from(reading.reflector_count.is_some());
    let head = 4 + bits(0x0007);
    let senstat_end = reading.reflectors_place - count;
    let sectors_end = senstat_end - 2 * bits(0x2000);
    // where each part ends, from the four words on that no reading can be without
    let ends = [4, head, sectors_end, senstat_end, reading.reflectors_place, words.len()];
    let mut weights = [4, 2, 9, 5, 6];
    for (part, weight) in weights.iter_mut().enumerate() {
        if ends[part] == ends[part + 1] {
            *weight = 0;
        }
    }
    let part = random.weighted(&weights);
    words.truncate(ends[part] + random.below(ends[part + 1] - ends[part]));
}

/// Words for the reader of mixed profiles: a profile as it is, or damaged; now and then a plain one.
pub fn words_for_reader(random: &mut Random) -> Vec<u16> {
    if random.percent(1) {
        let length = random.below(7);
        return (0..length).map(|_| random_requests::edge_word(random)).collect();
    }
    if random.percent(2) {
        return random_profiles::words_for_reader(random);
    }
    let mut words = if random.percent(40) { written_profile(random) } else { laid_out_profile(random) };
    match random.weighted(&[34, 22, 10, 20, 9, 5]) {
        0 => {}
        1 => damage_words(random, &mut words),
        2 => damage_count(random, &mut words),
        3 => cut_in_a_part(random, &mut words),
        4 => damage_head(random, &mut words),
        _ => {
            damage_words(random, &mut words);
            damage_words(random, &mut words);
        }
    }
    words.truncate(8000);
    words
}
