// Random words for the reader: profiles as the sensor writes them, profiles laid out with any field values, and damage to
// both.

use crate::mask::{has_bit, Mask};
use crate::random::Random;
use crate::random_plans;
use crate::random_requests;
use crate::random_states;
use crate::reader;
use crate::revolution::{self, Measured};
use crate::state::{Job, Mode, State};

/// The profile that a state with a job writes in its next revolution; none without a job.
pub fn profile_of_state(state: &State, measured: &Measured) -> Vec<u16> {
    let mut room = vec![0; 8191];
    let outcome = revolution::revolution(state, measured, &mut room);
    room.truncate(outcome.count);
    room
}

/// A mask with which the reader takes what the sensor writes, most of the time.
fn readable_mask(random: &mut Random) -> u16 {
    let mask = random_states::job_mask(random);
    if random.percent(80) && mask & 0x0700 != 0 {
        mask | 0x0020
    } else {
        mask
    }
}

/// A profile that the sensor wrote, now and then a mixed one.
fn written_profile(random: &mut Random) -> Vec<u16> {
    let mut state = if random.percent(1) { random_states::largest_state(random) } else { few_points_state(random) };
    if random.percent(95) {
        state.job = Job::Endless { mask: Mask::Plain(readable_mask(random)), sent: random.word() };
    }
    let shots = random_states::shots_asked_of_lists(&state);
    let distances: Vec<u16> = (0..shots).map(|_| random.word()).collect();
    let echoes: Vec<u16> = (0..shots).map(|_| random.word()).collect();
    let start_time = random.word();
    let measured = Measured { start_time, distances: &distances, echoes: &echoes, reflectors: &[] };
    profile_of_state(&state, &measured)
}

/// A state in MEASURE whose profile has few points most of the time.
pub fn few_points_state(random: &mut Random) -> State {
    let mut state = random_states::state_in_ranges(random, Mode::Measure);
    if random.percent(75) {
        let laser_shots = 1 + random.below(12);
        state.working_plan = random_plans::plan_with_laser_shots(random, state.step, laser_shots, false);
    }
    state
}

/// A profile in the layout's order with any field values and any small numbers of points.
fn laid_out_profile(random: &mut Random) -> Vec<u16> {
    let mask = readable_mask(random);
    let sectors = 1 + random.below(8);
    let mut words = vec![0x8301, mask, 0x0100 + sectors as u16];
    push_laid_out(random, &mut words, mask, sectors);
    words
}

/// The words of bits 0 to 13.
pub fn push_laid_out(random: &mut Random, words: &mut Vec<u16>, mask: u16, sectors: usize) {
    for bit in 0..3 {
        if has_bit(mask, bit) {
            words.push(random_requests::edge_word(random));
        }
    }
    for _ in 0..sectors {
        let points = if random.percent(97) { random.below(6) } else { random.below(60) };
        for bit in 3..8 {
            if has_bit(mask, bit) {
                words.push(if bit == 5 { points as u16 } else { random_requests::edge_word(random) });
            }
        }
        for _ in 0..points {
            for bit in 8..11 {
                if has_bit(mask, bit) && has_bit(mask, 5) {
                    words.push(random.word());
                }
            }
        }
        for bit in 11..13 {
            if has_bit(mask, bit) {
                words.push(random_requests::edge_word(random));
            }
        }
    }
    if has_bit(mask, 13) {
        words.extend([random.word(), random.word()]);
    }
}

fn damage_words(random: &mut Random, words: &mut Vec<u16>) {
    let any_word = random_requests::edge_word(random);
    let any_place = random.below(words.len().max(1));
    if words.len() < 3 {
        words.push(any_word);
        return;
    }
    match random.below(14) {
        // cut somewhere, near the end, in the head
        0 => words.truncate(any_place),
        1 => words.truncate(words.len() - 1 - random.below(3)),
        2 => words.truncate(random.below(4)),
        // words added
        3 => words.push(any_word),
        4 => {
            for _ in 0..1 + random.below(9) {
                words.push(random.word());
            }
        }
        // the head's three words
        5 => words[0] = random.pick(&[0, 0x0301, 0x8300, 0x8302, 0x0183, 65535, any_word]),
        6 => words[1] = random.pick(&[0, words[1] | 0x4000, words[1] | 0x8000, words[1] & !0x0020, any_word]),
        7 => words[1] ^= 1 << random.below(16),
        8 => words[2] = random.pick(&[0x0100, 0x0101, 0x0108, 0x0109, 0x01FF, 0, 1, 8, 65535, any_word]),
        9 => words[2] = random.pick(&[words[2] ^ 1, words[2] ^ 2, words[2] & 0x00FF, words[2] ^ 0x0300]),
        // any word, perhaps a number of points; one out or in between
        10 => words[any_place] = any_word,
        11 => words[any_place] = words[any_place].wrapping_add(random.pick(&[1, 65535])),
        12 => {
            words.remove(any_place);
        }
        // random words behind a good head
        _ => {
            for word in words.iter_mut().skip(3) {
                *word = random_requests::edge_word(random) % 1024;
            }
        }
    }
}

/// The mask, the layers or S out of its range (refusals 22, 23 and 24), or several of them.
fn damage_mask_and_third(random: &mut Random, words: &mut [u16]) {
    if words.len() < 3 {
        return;
    }
    // 22 is the first of four of these choices, 23 of two and 24 of one
    let choice = random.weighted(&[2, 2, 1, 5, 1, 1, 1]) + 1;
    if choice & 1 != 0 {
        words[1] = random.pick(&[0, words[1] | 0x4000, words[1] | 0x8000, words[1] | 0xC000]);
    }
    if choice & 2 != 0 {
        let any = random.word() & 0xFF00;
        words[2] = words[2] & 0x00FF | random.pick(&[0, 0x0200, 0x8100, 0xFF00, any]);
    }
    if choice & 4 != 0 {
        let any = random.between(9, 255);
        words[2] = words[2] & 0xFF00 | random.pick(&[0, 9, 255, any]);
    }
}

/// Cuts a profile in one of its parts (rule 5.16), more often in the head and in SENSTAT than their few words would have
/// it. Every profile has words behind the first three.
fn cut_in_a_part(random: &mut Random, words: &mut Vec<u16>) {
    if reader::read(words).0 != 0 {
        return;
    }
    let bits = |wanted: u16| (words[1] & wanted).count_ones() as usize;
    let (head, senstat) = (bits(0x0007), 2 * bits(0x2000));
    let sectors = words.len() - 3 - head - senstat;
    let weight = |length: usize, weight: usize| if length > 0 { weight } else { 0 };
    let length = match random.weighted(&[weight(head, 4), weight(sectors, 1), weight(senstat, 9)]) {
        0 => 3 + random.below(head),
        1 => 3 + head + random.below(sectors),
        _ => words.len() - 1 - random.below(senstat),
    };
    words.truncate(length);
}

/// Changes the number of points of one sector, where the words are a profile that has it.
fn damage_points_count(random: &mut Random, words: &mut [u16]) {
    let (refusal, reading) = reader::read(words);
    if refusal != 0 || reading.mask.is_some_and(|mask| !has_bit(mask, 5)) {
        return;
    }
    let sector = reading.contour.sectors[random.below(reading.contour.sector_count)];
    let mask = reading.mask.unwrap_or(0);
    let fields_behind = usize::from(has_bit(mask, 6)) + usize::from(has_bit(mask, 7));
    let place = sector.points_place - fields_behind - 1;
    let old = words[place];
    words[place] =
        random.pick(&[0, 1, old.wrapping_add(1), old.wrapping_sub(1), old.wrapping_add(2), 21845, 21846, 65535]);
}

/// One sector with a number of points whose words would fit if their number were taken modulo 65536.
fn points_past_the_wrap(random: &mut Random) -> Vec<u16> {
    let (mask, words_per_point) = random.pick(&[(0x0320, 2), (0x0620, 2), (0x0720, 3)]);
    let length = 2 * random.below(4);
    let mut points = 65536 / words_per_point + 1;
    while points * words_per_point % 65536 != length && points < 65535 {
        points += 1;
    }
    let mut words = vec![0x8301, mask, 0x0101, points as u16];
    words.extend((0..length).map(|_| random.word()));
    words
}

/// Words for the reader: a profile as it is, or damaged.
pub fn words_for_reader(random: &mut Random) -> Vec<u16> {
    if random.percent(1) {
        return points_past_the_wrap(random);
    }
    if random.percent(1) {
        let length = random.below(6);
        return (0..length).map(|_| random_requests::edge_word(random)).collect();
    }
    let mut words = if random.percent(50) { written_profile(random) } else { laid_out_profile(random) };
    match random.weighted(&[36, 27, 8, 15, 9, 5]) {
        0 => {}
        1 => damage_words(random, &mut words),
        2 => damage_points_count(random, &mut words),
        3 => cut_in_a_part(random, &mut words),
        4 => damage_mask_and_third(random, &mut words),
        _ => {
            damage_words(random, &mut words);
            damage_words(random, &mut words);
        }
    }
    words.truncate(8000);
    words
}
