// Random requests for fresh cases and talks: the twenty services with sensible words and with words at the edges, and
// requests that are wrong in their code or in their number of words.

use crate::mask;
use crate::plan::Plan;
use crate::random::Random;
use crate::random_plans;
use crate::random_states;
use crate::services::{self, Service};

const EDGES: [u16; 36] = [
    0, 1, 2, 3, 4, 5, 6, 7, 8, 9, 16, 20, 21, 64, 72, 100, 101, 126, 127, 128, 253, 254, 255, 256, 257, 5752, 5758,
    5759, 5760, 5761, 11520, 32767, 32768, 0xFF01, 65534, 65535,
];

/// A word at an edge, an angle step, the item of the configuration, or any word.
pub fn edge_word(random: &mut Random) -> u16 {
    match random.weighted(&[55, 10, 10, 25]) {
        0 => random.pick(&EDGES),
        1 => random_plans::any_step(random),
        2 => services::CONFIG_ITEM,
        _ => random.word(),
    }
}

fn mostly(random: &mut Random, good: u16) -> u16 {
    if random.percent(88) {
        good
    } else {
        edge_word(random)
    }
}

/// A mask for GET_PROFILE.
fn asked_mask(random: &mut Random) -> u16 {
    match random.below(8) {
        0 => random.pick(&[0, 0x4000, 0x8000, 0xC000]),
        1 => random.word(),
        2 => random_states::job_mask(random) | 0xC000,
        3 => 1 << random.below(16),
        4 => 0xFFFF,
        _ => random_states::job_mask(random),
    }
}

/// Both words of a mask for GET_MIXED_PROFILE; two of five are none.
fn asked_mixed_mask(random: &mut Random) -> [u16; 2] {
    let any = (random.number() >> 32) as u32;
    mask::mixed_words(match random.weighted(&[60, 25, 10, 5]) {
        0 => random_states::mixed_mask(random),
        1 => random_states::bad_mixed_mask(random),
        2 => 1 << random.below(32) | random_states::mixed_mask(random),
        _ => any,
    })
}

/// A direction for SET_ROTATE_DIRECTION; one of three is none.
fn asked_rotate_direction(random: &mut Random) -> u16 {
    let any = random.word();
    if random.percent(67) {
        random.pick(&[0, 1])
    } else {
        random.pick(&[2, 255, 256, 257, 0xFF01, 65535, any])
    }
}

/// A threshold for SET_REFLECTOR_CONFIG. It and the radius are out of range so often that one of three requests has
/// such a value: most of these have one, some two.
fn asked_threshold(random: &mut Random) -> u16 {
    let any = random.word();
    if random.percent(80) {
        random_states::any_threshold(random)
    } else {
        random.pick(&[0, 101, 256, 306, 0xFF01, 65535, any])
    }
}

fn asked_radius(random: &mut Random) -> u16 {
    let any = random.word();
    if random.percent(80) {
        random_states::any_radius(random)
    } else {
        random.pick(&[128, 255, 256, 0xFF01, 65535, any])
    }
}

/// The words of a request with the right number of words, its arguments mostly sensible.
pub fn good_words(random: &mut Random, service: &Service) -> Vec<u16> {
    let mut words = vec![service.code];
    match service.code {
        services::SET_SIGNAL => {
            let any = random.word();
            words.push(random.pick(&[0, 0x000C, 0x00F3, 0x00FF, 0xFF00, 0xFFFF, any, any, any]));
        }
        services::SET_CONFIG => {
            words.push(mostly(random, services::CONFIG_ITEM));
            let id = random.between(1, 254);
            let id = random.pick(&[1, 254, id]);
            words.push(mostly(random, id));
            let speed = random.between(5, 20);
            let speed = random.pick(&[5, 20, speed, speed]);
            words.push(mostly(random, speed));
            let step = random_plans::any_step(random);
            let none = random.pick(&random_plans::NO_STEPS);
            words.push(random.pick(&[step, step, step, step, step, none]));
        }
        services::GET_CONFIG => {
            let other = edge_word(random);
            words.push(random.pick(&[services::CONFIG_ITEM, services::CONFIG_ITEM, other]));
        }
        services::SET_FUNCTION => {
            let sector = random.between(0, 7);
            words.push(random.pick(&[sector, sector, sector, 7, 8, 9, 255, 256, 65535]));
            words.push(random.pick(&[0, 1, 2, 3, 3, 3, 4, 5, 6, 255, 259, 65535]));
            let step = random_plans::any_step(random);
            let multiple = random.between(0, 5760 / step) * step;
            let any = edge_word(random);
            words.push(random.pick(&[multiple, multiple, any]));
            words.push(random.pick(&[0, 0, 1, 1, 2, 255, 257, 65535]));
        }
        services::GET_FUNCTION => {
            let sector = random.between(0, 7);
            words.push(random.pick(&[sector, sector, sector, sector, 7, 8, 9, 255, 256, 65535]));
        }
        services::GET_PROFILE => {
            let any = random.word();
            words.push(random.pick(&[0, 0, 1, 1, 2, 65534, 65535, any]));
            words.push(asked_mask(random));
        }
        services::DO_RESET => words.push(random.pick(&[0, 1, 2, 2, 3, 4, 255, 256, 257, 65535])),
        services::TRANS_ROTATE => {
            let speed = random.between(5, 20);
            let any = edge_word(random);
            words.push(random.pick(&[0, speed, speed, 1, 4, 5, 20, 21, any]));
        }
        services::GET_MIXED_PROFILE => {
            let any = edge_word(random);
            words.push(random.pick(&[0, 0, 1, 2, 65535, any]));
            words.extend(asked_mixed_mask(random));
        }
        services::SET_ROTATE_DIRECTION => words.push(asked_rotate_direction(random)),
        services::SET_REFLECTOR_CONFIG => words.extend([asked_threshold(random), asked_radius(random)]),
        _ => {}
    }
    words
}

/// Takes words away, as many as may be but for the code, or adds some. A request that is its code alone may come out empty
/// or as it was.
pub fn change_word_count(random: &mut Random, words: &mut Vec<u16>) {
    match random.below(4) {
        0 => {
            words.pop();
        }
        1 => words.push(edge_word(random)),
        2 => words.truncate(1 + random.below(words.len().max(2) - 1)),
        _ => {
            for _ in 0..1 + random.below(6) {
                words.push(edge_word(random));
            }
        }
    }
}

/// A code beside one of the table's.
pub fn code_beside(random: &mut Random, code: u16) -> u16 {
    let any = random.word();
    random.pick(&[
        code.wrapping_add(1),
        code.wrapping_sub(1),
        code + 0x8000,
        code + 0x0100,
        code - 0x0100,
        code.swap_bytes(),
        code & 0x00FF,
        code & 0xFF00,
        // the other one of 0201h and 1201h, of 0202h and 1202h, and of the two services for each kind of profiles
        code ^ 0x1000,
        0,
        65535,
        any,
    ])
}

/// The words of a request that sets one sector.
pub fn set_function_words(plan: &Plan, sector: usize, flash: u16) -> Vec<u16> {
    vec![services::SET_FUNCTION, sector as u16, plan[sector].function, plan[sector].stop, flash]
}
