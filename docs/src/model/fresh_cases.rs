// Fresh random cases of every kind, made from a seed.

use crate::case_parts::{self, TurnGiven};
use crate::format::{self, CaseWords, ListGiven};
use crate::mask::Mask;
use crate::mixed_reader;
use crate::plan::Plan;
use crate::random::Random;
use crate::random_mixed_profiles;
use crate::random_plans;
use crate::random_profiles;
use crate::random_requests;
use crate::random_states;
use crate::services;
use crate::state::{Mode, State};
use crate::trial::{self, Turn};

/// A list or a buffer of this length with any words.
fn any_list(random: &mut Random, length: usize) -> ListGiven {
    let any_rise = random.word();
    // the length is the remainder of its word by 8192
    let lap = if random.percent(2) { 8192 * random.between(1, 7) } else { 0 };
    ListGiven {
        length: length as u16 + lap,
        first: random.word(),
        rise: random.pick(&[0, 1, 1, 3, 65535, any_rise, any_rise]),
    }
}

/// A buffer for an answer of this length: exact, longer, one short, empty, or any small one.
fn buffer_for(random: &mut Random, answer: usize) -> ListGiven {
    let length = match random.weighted(&[35, 35, 13, 9, 8]) {
        0 => answer,
        1 => answer + 1 + random.below(6),
        2 => answer.saturating_sub(1),
        3 => 0,
        _ => random.below(10),
    };
    any_list(random, length.min(8191))
}

fn request_case(random: &mut Random) -> Vec<u16> {
    // those with the most rules more often
    let service = &services::TABLE[random.weighted(&[2, 2, 4, 4, 2, 5, 4, 5, 3, 3, 2, 3, 6, 3, 5, 1, 2, 6, 4, 3])];
    let mode = if service.code == services::TRANS_MEASURE && random.percent(60) {
        Mode::Rotate
    } else if random.percent(85) {
        random.pick(service.modes)
    } else {
        random_states::any_mode(random)
    };
    let state = if mode == Mode::Measure && random.percent(6) {
        random_states::measure_at_edges(random)
    } else {
        random_states::state_in_ranges(random, mode)
    };
    let state_words = random_states::state_words_maybe_damaged(random, &state);
    let mut words = random_requests::good_words(random, service);
    // a wrong number of words more often where it is answered
    let wrong_counts = if service.on_wrong_count.is_some() { 32 } else { 10 };
    match random.weighted(&[92 - wrong_counts, wrong_counts, 5, 3]) {
        0 => {}
        1 => random_requests::change_word_count(random, &mut words),
        2 => words[0] = random_requests::code_beside(random, words[0]),
        _ => words.clear(),
    }
    let mut room = [0; 8];
    let given = CaseWords::new(&state_words).state();
    let answer = services::request(&given, &words, &mut room).count;
    let buffer = buffer_for(random, answer);
    case_parts::request_case(&state_words, buffer, &words)
}

/// The length of one of the lists: N, or now and then another.
fn list_length(random: &mut Random, shots: usize) -> usize {
    if random.percent(95) {
        shots
    } else {
        random.pick(&[0, 1, shots - 1, shots + 1, 2 * shots % 8192])
    }
}

const NO_REFLECTORS: ListGiven = ListGiven { length: 0, first: 0, rise: 0 };

/// A list of reflectors; one of nine is too long or not in elevens.
fn reflectors_given(random: &mut Random) -> ListGiven {
    let length = if random.percent(89) {
        11 * random_mixed_profiles::reflector_count(random)
    } else {
        random_mixed_profiles::bad_list_length(random)
    };
    any_list(random, length)
}

/// Lists and a buffer for a revolution of this state.
fn turn_given(random: &mut Random, state: &State, reflectors: ListGiven) -> TurnGiven {
    let shots = random_states::shots_asked_of_lists(state);
    let any_time = random.word();
    let near_wrap = random.between(65436, 65535);
    let distances_length = list_length(random, shots);
    let echoes_length = if random.percent(50) { distances_length } else { list_length(random, shots) };
    let mut turn = TurnGiven {
        start_time: random.pick(&[0, any_time, near_wrap]),
        distances: any_list(random, distances_length),
        echoes: any_list(random, echoes_length),
        reflectors,
        buffer: ListGiven { length: 8191, first: 0, rise: 0 },
    };
    let tried = Turn {
        start_time: turn.start_time,
        distances: turn.distances.words(),
        echoes: turn.echoes.words(),
        reflectors: turn.reflectors.words(),
        buffer: turn.buffer.words(),
    };
    let (outcome, _) = trial::turn_outcome(state, &tried);
    turn.buffer = buffer_for(random, outcome.count);
    turn
}

fn revolution_case(random: &mut Random) -> Vec<u16> {
    let state = if random.percent(1) {
        random_states::largest_state(random)
    } else if random.percent(6) {
        random_states::measure_at_edges(random)
    } else {
        let mode = if random.percent(94) { Mode::Measure } else { random_states::any_mode(random) };
        random_states::state_in_ranges(random, mode)
    };
    let state_words = random_states::state_words_maybe_damaged(random, &state);
    let given = CaseWords::new(&state_words).state();
    let reflectors = reflectors_given(random);
    let turn = turn_given(random, &given, reflectors);
    case_parts::revolution_case(&state_words, &turn)
}

fn normal_plan_case(random: &mut Random) -> Vec<u16> {
    let step = random_plans::any_step(random);
    let mut plan = random_plans::valid_plan(random, step);
    for _ in 0..random.pick(&[0, 0, 0, 1, 1, 2]) {
        random_plans::damage_plan(random, &mut plan, step);
    }
    if random.percent(35) {
        random_plans::spoil_unused_entries(random, &mut plan);
    }
    let other = random_plans::any_step(random);
    let none = random.pick(&random_plans::NO_STEPS);
    let any = random.word();
    let asked = match random.weighted(&[80, 8, 10, 2]) {
        0 => step,
        1 => other,
        2 => none,
        _ => any,
    };
    case_parts::normal_plan_case(asked, &plan)
}

/// The place of one of so many sectors, of the first that there is not, or of any other.
fn place_of_sector(random: &mut Random, sectors: u16) -> u16 {
    let place = random.below(usize::from(sectors)) as u16;
    let any = random.word();
    match random.weighted(&[80, 8, 4, 4, 4]) {
        0 => place,
        1 => sectors,
        2 => random.between(0, 8),
        3 => any,
        _ => random.pick(&[7, 8, 255, 256, 65535]),
    }
}

fn stretch_case(random: &mut Random) -> Vec<u16> {
    let words = random_profiles::words_for_reader(random);
    let sectors = if words.len() > 2 { (words[2] & 0x00FF).max(1) } else { 1 };
    case_parts::stretch_case(place_of_sector(random, sectors), &words)
}

fn stretch_mixed_case(random: &mut Random) -> Vec<u16> {
    let words = random_mixed_profiles::words_for_reader(random);
    let sectors = if words.len() > 3 { (words[3] & 0x00FF).max(1) } else { 1 };
    case_parts::stretch_mixed_case(place_of_sector(random, sectors), &words)
}

/// Places below the number of reflectors, just at it and past it, and huge ones.
fn reflector_case(random: &mut Random) -> Vec<u16> {
    let words = random_mixed_profiles::words_for_reader(random);
    let count = mixed_reader::read(&words).1.reflector_count.unwrap_or(0);
    let below = random.below(usize::from(count.max(1))) as u16;
    let any = random.word();
    let place = match random.weighted(&[60, 12, 10, 6, 4, 4, 4]) {
        0 => below,
        1 => count,
        2 => count.saturating_sub(1),
        3 => count + 1,
        4 => random.between(0, 66),
        5 => any,
        _ => random.pick(&[63, 64, 65, 255, 256, 32768, 65535]),
    };
    case_parts::reflector_case(place, &words)
}

/// Step, speed and plan for a profile by plain numbers, one of them damaged now and then.
fn setting_maybe_damaged(random: &mut Random) -> (u16, u16, Plan) {
    let (mut step, mut speed, mut plan) =
        if random.percent(1) { random_plans::largest_setting(random) } else { random_plans::measure_setting(random) };
    match random.weighted(&[85, 5, 5, 5]) {
        0 => {}
        1 => step = random_requests::edge_word(random),
        2 => speed = random.pick(&[0, 4, 5, 20, 21, 65535, speed + 1]),
        _ => random_plans::damage_plan(random, &mut plan, step),
    }
    (step, speed, plan)
}

fn plain_profile_case(random: &mut Random) -> Vec<u16> {
    let (step, speed, plan) = setting_maybe_damaged(random);
    let mut mask = random_states::job_mask(random);
    if random.percent(5) {
        mask = random.pick(&[0, 0x4000, 0x8000, mask | 0x4000, mask | 0x8000, 0xFFFF]);
    }
    let state = trial::profile_state(plan, step, speed, Mask::Plain(mask));
    let turn = turn_given(random, &state, NO_REFLECTORS);
    case_parts::plain_profile_case(&plan, step, speed, mask, &turn)
}

fn mixed_profile_case(random: &mut Random) -> Vec<u16> {
    let (step, speed, plan) = setting_maybe_damaged(random);
    let good = random_states::mixed_mask(random);
    let bad = random_states::bad_mixed_mask(random);
    let mask = if random.percent(92) { good } else { bad };
    let state = trial::profile_state(plan, step, speed, Mask::Mixed(mask));
    let reflectors = reflectors_given(random);
    let turn = turn_given(random, &state, reflectors);
    case_parts::mixed_profile_case(&plan, step, speed, mask, &turn)
}

/// One fresh case.
pub fn case(random: &mut Random) -> Vec<u16> {
    let mut case = match random.weighted(&[450, 210, 120, 120, 110, 4, 43, 3, 110, 50, 60, 25, 45]) {
        0 => request_case(random),
        1 => revolution_case(random),
        2 => normal_plan_case(random),
        3 => case_parts::read_case(&random_profiles::words_for_reader(random)),
        4 => stretch_case(random),
        5 => vec![trial::FRESH_STATE],
        6 => plain_profile_case(random),
        8 => case_parts::read_mixed_case(&random_mixed_profiles::words_for_reader(random)),
        9 => stretch_mixed_case(random),
        10 => reflector_case(random),
        11 => case_parts::all_reflectors_case(&random_mixed_profiles::words_for_reader(random)),
        12 => mixed_profile_case(random),
        // another kind, or no word at all
        _ => {
            let any = random.word();
            let kind = random.pick(&[0, 13, 255, 256, 257, 65535, any]);
            if random.percent(20) {
                vec![]
            } else {
                vec![kind, random.word()]
            }
        }
    };
    // a case whose last words are missing, and one with a word too many
    if random.percent(1) {
        match random.below(4) {
            0 => case.truncate(random.below(case.len() + 1)),
            1 | 2 => {
                case.pop();
            }
            _ => case.push(random.word()),
        }
    }
    case
}

/// This many fresh cases, one after the other, to the output.
pub fn write_cases(seed: u64, count: usize, output: &mut dyn FnMut(&[u8])) {
    let mut random = Random::new(seed);
    let mut bytes = Vec::new();
    for _ in 0..count {
        bytes.clear();
        format::push_case(&mut bytes, &case(&mut random));
        output(&bytes);
    }
}
