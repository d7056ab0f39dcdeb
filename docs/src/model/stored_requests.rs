// Stored cases of requests: section 4 of the rules, every service in every mode with words at every edge; refusals 1 to 6
// alone and in pairs; buffers of every length up to the longest answer's.

use crate::case_parts;
use crate::format;
use crate::plan::{self, Plan};
use crate::random_plans::{all_steps, NO_STEPS};
use crate::services::{self, *};
use crate::state::{Job, Mode, State};
use crate::stored_samples::*;
use crate::stored_states;

/// More than every answer has.
pub const ROOM: usize = 6;

type Cases = Vec<Vec<u16>>;

pub fn ask(cases: &mut Cases, state: &State, words: &[u16]) {
    cases.push(case_parts::request_case(&format::state_words(state), buffer(ROOM), words));
}

pub fn ask_in_all(cases: &mut Cases, states: &[State], words: &[u16]) {
    for state in states {
        ask(cases, state, words);
    }
}

/// The dialogue of a bench figure: from a fresh sensor on, each request with the state that it finds.
pub fn ask_in_turn(cases: &mut Cases, requests: &[&[u16]]) {
    let mut state = State::fresh();
    for words in requests {
        ask(cases, &state, words);
        state = services::request(&state, words, &mut [0; ROOM]).state;
    }
}

/// Words that are served, where the mode is listed, and that change something, where the service can.
pub fn working_words(code: u16) -> Vec<u16> {
    match code {
        SET_SIGNAL => vec![code, 0x005A],
        SET_CONFIG => vec![code, CONFIG_ITEM, 9, 19, 10],
        GET_CONFIG => vec![code, CONFIG_ITEM],
        SET_FUNCTION => vec![code, 2, 3, 4000, 1],
        GET_FUNCTION => vec![code, 3],
        GET_PROFILE => vec![code, 5, 0x0120],
        GET_MIXED_PROFILE => vec![code, 6, 0x0011, 0x2001],
        DO_RESET => vec![code, 1],
        TRANS_ROTATE => vec![code, 15],
        SET_ROTATE_DIRECTION => vec![code, 1],
        SET_REFLECTOR_CONFIG => vec![code, 88, 19],
        _ => vec![code],
    }
}

/// Every service in every mode and with every kind of job.
fn services_in_modes(cases: &mut Cases) {
    for service in &services::TABLE {
        ask_in_all(cases, &states_of_all_modes(), &working_words(service.code));
    }
}

fn signals(cases: &mut Cases) {
    for bit in 0..16 {
        ask(cases, &State { port: 0, ..idle() }, &[SET_SIGNAL, 1 << bit]);
    }
    for port in [0x00, 0xFF] {
        let state = State { port, ..idle() };
        ask(cases, &state, &[GET_SIGNAL]);
        for word in [0, 0x000C, 0x00F3, 0x00FF, 0x0C0C, 0xFF00, 0xFFF3, 0xFFFF] {
            ask(cases, &state, &[SET_SIGNAL, word]);
        }
    }
    for port in [0x04, 0x08, 0x0C, 0xF3] {
        let state = State { port, ..rotate() };
        ask(cases, &state, &[GET_SIGNAL]);
        ask(cases, &state, &[SET_SIGNAL, 0]);
        ask(cases, &state, &[SET_SIGNAL, 0xFFFF]);
    }
}

const ITEMS: [u16; 9] = [0x0010, 0, 1, 0x000F, 0x0011, 0x0110, 0x1000, 0x1010, 0xFFFF];

fn configurations(cases: &mut Cases) {
    let state = idle();
    for item in ITEMS {
        ask(cases, &state, &[SET_CONFIG, item, 9, 19, 10]);
        for state in [idle(), rotate(), measure(COUNTED_SAMPLE)] {
            ask(cases, &state, &[GET_CONFIG, item]);
        }
    }
    for id in [0, 1, 2, 253, 254, 255, 256, 257, 65535] {
        ask(cases, &state, &[SET_CONFIG, 0x0010, id, 19, 10]);
    }
    for speed in [0, 1, 4, 5, 6, 19, 20, 21, 255, 261, 65535] {
        ask(cases, &state, &[SET_CONFIG, 0x0010, 9, speed, 10]);
    }
    for step in all_steps().into_iter().chain(NO_STEPS) {
        ask(cases, &state, &[SET_CONFIG, 0x0010, 9, 19, step]);
    }
    // none of the three is stored: two and more values that are wrong, each place in turn
    for wrong in 1..16 {
        let word = |bit: u16, good: u16, bad: u16| if wrong >> bit & 1 == 1 { bad } else { good };
        let words = [SET_CONFIG, word(0, 0x0010, 0x0011), word(1, 9, 255), word(2, 19, 21), word(3, 10, 7)];
        ask(cases, &state, &words);
    }
    // a state at the ends of its ranges
    let ends = State { id: 254, configured_speed: 20, step: 64, ..idle() };
    ask(cases, &ends, &[GET_CONFIG, 0x0010]);
    ask(cases, &State { id: 1, configured_speed: 5, step: 1, ..idle() }, &[GET_CONFIG, 0x0010]);
    ask(cases, &ends, &[SET_CONFIG, 0x0010, 1, 5, 1]);
}

const SECTORS: [u16; 13] = [0, 1, 2, 3, 4, 5, 6, 7, 8, 9, 255, 256, 65535];

fn functions(cases: &mut Cases) {
    for sector in SECTORS {
        ask(cases, &idle(), &[SET_FUNCTION, sector, 3, 4321, 0]);
    }
    for function in [0, 1, 2, 3, 4, 5, 6, 255, 256, 259, 65535] {
        ask(cases, &idle(), &[SET_FUNCTION, 1, function, 4321, 0]);
    }
    for stop in [0, 1, 7, 8, 5751, 5752, 5758, 5759, 5760, 5761, 11519, 11520, 11521, 57600, 65535] {
        ask(cases, &idle(), &[SET_FUNCTION, 1, 4, stop, 0]);
    }
    for flash in [0, 1, 2, 255, 256, 257, 65535] {
        ask(cases, &idle(), &[SET_FUNCTION, 1, 3, 4321, flash]);
    }
    for sector in [0, 7, 8, 65535] {
        ask(cases, &rotate(), &[SET_FUNCTION, sector, 1, 5759, 0]);
    }
    for function in 0..=5 {
        ask(cases, &rotate(), &[SET_FUNCTION, 4, function, 5760, 0]);
    }
    for stop in [5759, 5760, 5761, 65535] {
        ask(cases, &rotate(), &[SET_FUNCTION, 0, 3, stop, 2]);
    }
    for state in [idle(), rotate()] {
        ask(cases, &state, &[SET_FUNCTION, 65535, 65535, 65535, 1]);
        ask(cases, &state, &[SET_FUNCTION, 8, 2, 5760, 1]);
    }
    for state in [idle(), rotate(), measure(COUNTED_SAMPLE)] {
        for sector in SECTORS {
            ask(cases, &state, &[GET_FUNCTION, sector]);
        }
    }
    ask(cases, &measure(Job::Absent), &[SET_FUNCTION, 65535, 65535, 65535, 1]);
}

fn jobs(cases: &mut Cases) {
    let masks = [0, 1, 0x0120, 0x3FFF, 0x4000, 0x4001, 0x8000, 0x8001, 0xC000, 0xC001, 0xFFFF];
    for number in [0, 1, 65535] {
        for mask in masks {
            ask(cases, &measure(Job::Absent), &[GET_PROFILE, number, mask]);
        }
    }
    for bit in 0..16 {
        ask(cases, &measure(COUNTED_SAMPLE), &[GET_PROFILE, 1, 1 << bit]);
    }
    for job in [COUNTED_SAMPLE, ENDLESS_SAMPLE] {
        for number in [0, 1, 65535] {
            for mask in [0, 0x0121, 0xC000, 0xFFFF] {
                ask(cases, &measure(job), &[GET_PROFILE, number, mask]);
            }
        }
    }
    for state in [idle(), rotate()] {
        ask(cases, &state, &[GET_PROFILE, 0, 0]);
        ask(cases, &state, &[GET_PROFILE, 1, 0xFFFF]);
    }
}

fn resets_and_transitions(cases: &mut Cases) {
    for level in [0, 1, 2, 3, 258, 65535] {
        ask_in_all(cases, &states_of_all_modes(), &[DO_RESET, level]);
    }
    for speed in [0, 1, 2, 3, 4, 5, 12, 20, 21, 261, 65535] {
        for state in [idle(), rotate(), measure(COUNTED_SAMPLE)] {
            ask(cases, &state, &[TRANS_ROTATE, speed]);
        }
    }
    for speed in [0, 5, 4, 21] {
        ask(cases, &measure(ENDLESS_SAMPLE), &[TRANS_ROTATE, speed]);
        ask(cases, &measure(Job::Absent), &[TRANS_ROTATE, speed]);
    }
    // the configured speed at its ends
    for configured_speed in [5, 20] {
        ask(cases, &State { configured_speed, ..idle() }, &[TRANS_ROTATE, 0]);
    }
}

fn rotating(step: u16, running_speed: u16, working_plan: Plan) -> State {
    State { step, running_speed, working_plan, ..rotate() }
}

/// TRANS_MEASURE: each error alone, each two that apply at once, and both sides of both limits.
fn measuring(cases: &mut Cases) {
    let mut try_plan = |step: u16, speed: u16, sectors: &[(u16, u16)]| {
        ask(cases, &rotating(step, speed, plan_of(sectors)), &[TRANS_MEASURE]);
    };
    for step in all_steps() {
        let shots = plan::shots_per_revolution(step);
        let last = plan::CIRCLE - step;
        let limit = (14400 / shots).clamp(5, 20) as u16;
        let mut speeds = vec![5, limit, (limit + 1).min(20)];
        speeds.dedup();
        for speed in speeds {
            try_plan(step, speed, &[(1, last)]);
        }
        // as many shots with laser as the speed allows, and one more
        let most = 10800 / usize::from(limit);
        if most + 1 < shots {
            try_plan(step, limit, &[(1, 0), (3, most as u16 * step)]);
            try_plan(step, limit, &[(1, 0), (4, (most as u16 + 1) * step)]);
        } else {
            try_plan(step, limit, &[(4, last)]);
        }
    }
    // 3: no active sector; stops that are equal, that fall, at the front and at the back
    try_plan(8, 10, &[]);
    try_plan(8, 10, &[(0, 800), (3, 1600)]);
    try_plan(8, 10, &[(3, 800), (3, 800)]);
    try_plan(8, 10, &[(3, 800), (1, 792)]);
    try_plan(8, 10, &[(1, 8), (3, 16), (1, 24), (3, 32), (1, 40), (3, 48), (1, 56), (3, 56)]);
    try_plan(8, 10, &[(1, 8), (3, 16), (1, 24), (3, 32), (1, 40), (3, 48), (1, 56), (3, 0)]);
    try_plan(8, 10, &[(1, 8), (3, 16), (1, 24), (3, 32), (1, 40), (3, 48), (1, 56), (3, 64)]);
    // entries behind the first function 0 do not count
    try_plan(8, 10, &[(3, 800), (0, 800), (1, 7), (3, 1)]);
    try_plan(8, 10, &[(3, 5752), (0, 5759)]);
    // 4: no multiple, in the first and the last sector
    try_plan(8, 10, &[(3, 801)]);
    try_plan(8, 10, &[(3, 804), (1, 1600)]);
    try_plan(8, 10, &[(3, 800), (1, 5759)]);
    try_plan(10, 10, &[(3, 5752)]);
    // pairs: 3 and 4, 3 and 1, 3 and 2, 4 and 1, 4 and 2, 1 and 2
    try_plan(8, 10, &[(3, 801), (3, 801)]);
    try_plan(2, 20, &[(1, 800), (1, 800)]);
    try_plan(2, 5, &[(3, 5758), (3, 5756)]);
    try_plan(2, 20, &[(1, 801)]);
    try_plan(2, 5, &[(3, 5757)]);
    try_plan(4, 11, &[(3, 5756)]);
    try_plan(1, 20, &[]);
    // the limit of functions 3 and 4 counts both and leaves out function 1
    try_plan(4, 10, &[(1, 1436), (3, 3596), (4, 5756)]);
    try_plan(4, 10, &[(1, 1440), (3, 3596), (4, 5756)]);
    try_plan(4, 10, &[(1, 1432), (3, 3596), (4, 5756)]);
    try_plan(4, 10, &[(1, 1436), (3, 3360)]);
    try_plan(4, 11, &[(1, 1436), (3, 3360)]);
    try_plan(4, 10, &[(3, 2156), (1, 3600), (4, 5756)]);
    try_plan(4, 10, &[(3, 2160), (1, 3596), (4, 5756)]);
    ask(cases, &measure(Job::Absent), &[TRANS_MEASURE]);
}

/// One word less, one more, only the code and six words, with room for every answer (stored_wrong_counts.rs has the
/// rest); no word; and codes beside the table's.
fn counts_and_codes(cases: &mut Cases) {
    for service in &services::TABLE {
        let mode = service.modes[service.modes.len() - 1];
        let job = if mode == Mode::Measure { COUNTED_SAMPLE } else { Job::Absent };
        let mut counts = vec![1, service.words_in - 1, service.words_in + 1, 6];
        counts.dedup();
        for count in counts {
            if count > 0 && count != service.words_in {
                let mut words = working_words(service.code);
                words.resize(count, 1);
                ask(cases, &state_in(mode, job), &words);
            }
        }
        let code = service.code;
        for other in [code + 1, code - 1, code + 0x8000, code.swap_bytes(), code ^ 0x1000] {
            // 1301h and 1302h as well, which are 0301h and 0302h but for a bit
            if services::service_of(other).is_none() || (code & 0xFF00 == 0x0300 && other == code ^ 0x1000) {
                let mut words = working_words(service.code);
                words[0] = other;
                ask(cases, &state_in(mode, job), &words);
            }
        }
    }
    for code in [0, 1, 0x0002, 0x0100, 0x0400, 0x7FFF, 0x8000, 0xFFFF] {
        ask(cases, &idle(), &[code]);
    }
    ask(cases, &idle(), &[0, 0, 0, 0, 0, 0, 0, 0, 0]);
    for state in states_of_all_modes() {
        ask(cases, &state, &[]);
    }
}

/// Every answer with an empty buffer, one that is a word short, an exact one and a longer one.
fn buffers(cases: &mut Cases) {
    let mut asked: Vec<(State, Vec<u16>)> = Vec::new();
    for service in &services::TABLE {
        let mode = service.modes[service.modes.len() - 1];
        let job = if mode == Mode::Measure { COUNTED_SAMPLE } else { Job::Absent };
        asked.push((state_in(mode, job), working_words(service.code)));
    }
    asked.push((rotate(), vec![TRANS_MEASURE]));
    asked.push((idle(), vec![TRANS_ROTATE, 0]));
    asked.push((idle(), vec![SET_CONFIG, 0, 9, 19, 10]));
    asked.push((idle(), vec![GET_CONFIG, 0]));
    asked.push((idle(), vec![GET_FUNCTION, 8]));
    asked.push((measure(ENDLESS_SAMPLE), vec![GET_PROFILE, 1, 0xC000]));
    asked.push((measure(ENDLESS_SAMPLE), vec![DO_RESET, 2]));
    asked.push((rotating(10, 10, State::fresh().working_plan), vec![TRANS_MEASURE]));
    asked.push((measure(ENDLESS_MIXED_SAMPLE), vec![GET_MIXED_PROFILE, 1, 0x0002, 0x0001]));
    asked.push((measure(COUNTED_MIXED_SAMPLE), vec![CANCEL_MIXED_PROFILE]));
    asked.push((idle(), vec![SET_ROTATE_DIRECTION, 2]));
    asked.push((idle(), vec![SET_REFLECTOR_CONFIG, 101, 19]));
    asked.push((idle(), vec![SET_REFLECTOR_CONFIG, 88, 128]));
    asked.push((idle(), vec![SET_REFLECTOR_CONFIG, 0, 128]));
    for (state, words) in asked {
        let answer = services::request(&state, &words, &mut [0; ROOM]).count;
        let mut lengths = vec![0, answer.saturating_sub(1), answer, answer + 1, answer + 9];
        lengths.dedup();
        for length in lengths {
            cases.push(case_parts::request_case(&format::state_words(&state), buffer(length), &words));
        }
    }
}

/// Refusals 1 to 6, alone and with each other one that can apply as well; and GET_PROFILE's answer to a word too many, which
/// comes behind 1 and 5, and before 6.
fn refusals_together(cases: &mut Cases) {
    let services: [(State, State, Vec<u16>); 4] = [
        (idle(), rotate(), vec![SET_CONFIG, 0x0010, 9, 19, 10]),
        (measure(COUNTED_SAMPLE), idle(), vec![GET_PROFILE, 2, 0x8000]),
        (idle(), measure(COUNTED_SAMPLE), vec![SET_REFLECTOR_CONFIG, 101, 128]),
        (measure(COUNTED_MIXED_SAMPLE), rotate(), vec![GET_MIXED_PROFILE, 2, 0x0004, 0x0000]),
    ];
    for (fitting, other, words) in services {
        let mut unknown = words.clone();
        unknown[0] += 0x0800;
        let mut longer = words.clone();
        longer.push(0);
        for state in [fitting, other] {
            for state_words in [format::state_words(&state), stored_states::bad_words(&state)] {
                for request in [&vec![], &unknown, &longer, &words] {
                    for length in [ROOM, 0] {
                        cases.push(case_parts::request_case(&state_words, buffer(length), request));
                    }
                }
            }
        }
    }
}

/// Every field of the state at its edges and just outside of them, alone.
fn states_at_edges(cases: &mut Cases) {
    let mut all = stored_states::plain_fields(&idle(), &[0, 1, 2, 3, 4, 5, 6, 7]);
    all.extend(stored_states::mode_fields());
    all.extend(stored_states::measure_plans());
    for state_words in all {
        cases.push(case_parts::request_case(&state_words, buffer(3), &[GET_STATUS]));
    }
}

/// The bench figures that are requests.
fn bench_figures(cases: &mut Cases) {
    let fresh = State::fresh();
    for step in [7, 72, 64, 1] {
        ask(cases, &fresh, &[SET_CONFIG, 0x0010, 1, 10, step]);
    }
    for speed in 5..=20 {
        ask(cases, &State { step: 1, ..rotating(1, speed, fresh.working_plan) }, &[TRANS_MEASURE]);
    }
    for stop in [5760, 5761, 65535] {
        ask(cases, &fresh, &[SET_FUNCTION, 0, 3, stop, 0]);
    }
    ask(cases, &fresh, &[SET_SIGNAL, 0xFFFF]);
    let two_sectors = plan_of(&[(1, 1436), (3, 3360)]);
    let benches = [
        (8, 10, fresh.working_plan),
        (8, 10, plan_of(&[(3, 0)])),
        (4, 10, two_sectors),
        (4, 11, two_sectors),
        (2, 5, plan_of(&[(3, 5758)])),
        (10, 10, fresh.working_plan),
    ];
    for (step, running_speed, working_plan) in benches {
        let state = State { mode: Mode::Rotate, step, running_speed, working_plan, ..fresh };
        ask(cases, &state, &[TRANS_MEASURE]);
    }
    // the dialogue
    let rotating_fresh = State { mode: Mode::Rotate, running_speed: 10, ..fresh };
    ask(cases, &fresh, &[GET_STATUS]);
    ask(cases, &fresh, &[TRANS_MEASURE]);
    ask(cases, &fresh, &[TRANS_ROTATE, 0]);
    ask(cases, &rotating_fresh, &[TRANS_MEASURE]);
    ask(cases, &State { mode: Mode::Measure, ..rotating_fresh }, &[]);
}

pub fn cases() -> Cases {
    let mut cases = Vec::new();
    bench_figures(&mut cases);
    services_in_modes(&mut cases);
    signals(&mut cases);
    configurations(&mut cases);
    functions(&mut cases);
    jobs(&mut cases);
    resets_and_transitions(&mut cases);
    measuring(&mut cases);
    counts_and_codes(&mut cases);
    buffers(&mut cases);
    refusals_together(&mut cases);
    states_at_edges(&mut cases);
    cases
}
