// Random input for the program: records, mostly sensible, that lead through all modes.

use crate::random::Random;
use crate::random_plans;
use crate::random_requests;
use crate::services;
use crate::state::{Mode, State};

fn push_record(input: &mut Vec<u8>, words: &[u16]) {
    input.push(words.len() as u8);
    for word in words {
        input.extend_from_slice(&word.to_be_bytes());
    }
}

/// Requests that bring a sensor from IDLE to MEASURE, where nothing refuses them.
fn way_to_measure(random: &mut Random) -> Vec<Vec<u16>> {
    let (step, speed, plan) = random_plans::measure_setting(random);
    let flash = random.pick(&[0, 0, 1]);
    let mut requests = vec![
        vec![services::TRANS_IDLE],
        vec![services::SET_CONFIG, services::CONFIG_ITEM, random.between(1, 254), speed, step],
    ];
    for sector in 0..8 {
        requests.push(random_requests::set_function_words(&plan, sector, flash));
    }
    requests.push(vec![services::TRANS_ROTATE, random.pick(&[0, speed])]);
    requests.push(vec![services::TRANS_MEASURE]);
    requests
}

/// A request that is served in this mode, most of the time.
fn sensible_request(random: &mut Random, mode: Mode) -> Vec<u16> {
    loop {
        let service = &services::TABLE[random.below(services::TABLE.len())];
        let leaves_measure = [services::DO_RESET, services::TRANS_IDLE, services::TRANS_ROTATE];
        let stays = !leaves_measure.contains(&service.code) || random.percent(30);
        if stays && (service.modes.contains(&mode) || random.percent(10)) {
            return random_requests::good_words(random, service);
        }
    }
}

/// A request with a wrong number of words to a service that answers it, most of the time in one of its modes.
fn answered_wrong_count(random: &mut Random, mode: Mode) -> Vec<u16> {
    loop {
        let mut words = sensible_request(random, mode);
        if services::service_of(words[0]).is_some_and(|service| service.on_wrong_count.is_some()) {
            random_requests::change_word_count(random, &mut words);
            return words;
        }
    }
}

fn wrong_request(random: &mut Random, mode: Mode) -> Vec<u16> {
    let mut words = sensible_request(random, mode);
    match random.below(8) {
        0 => words.clear(),
        1 => words[0] = random_requests::code_beside(random, words[0]),
        2 => random_requests::change_word_count(random, &mut words),
        3 => {
            let length = random.below(256);
            words.resize(length, random.word());
        }
        4..=6 => words = answered_wrong_count(random, mode),
        _ => words = vec![random.word(); random.pick(&[1, 2, 254, 255])],
    }
    words
}

/// An input of this many records; for one seed of two the last of them is cut.
pub fn input(seed: u64, count: usize) -> Vec<u8> {
    let mut random = Random::new(seed);
    let cut_at_end = random.percent(50);
    let mut input = Vec::new();
    let mut state = State::fresh();
    let mut planned: Vec<Vec<u16>> = Vec::new();
    let mut room = [0; 8];
    for number in 1..=count {
        let last = number == count;
        let mut words = if !planned.is_empty() && random.percent(97) {
            planned.remove(0)
        } else if state.mode != Mode::Measure && random.percent(8) {
            planned = way_to_measure(&mut random);
            planned.remove(0)
        } else if random.percent(18) {
            wrong_request(&mut random, state.mode)
        } else {
            sensible_request(&mut random, state.mode)
        };
        if last && cut_at_end {
            if words.is_empty() {
                words.push(services::GET_STATUS);
            }
            let mut record = Vec::new();
            push_record(&mut record, &words);
            record.truncate(1 + random.below(record.len() - 1));
            input.extend(record);
        } else {
            push_record(&mut input, &words);
            state = services::request(&state, &words, &mut room).state;
        }
    }
    input
}
