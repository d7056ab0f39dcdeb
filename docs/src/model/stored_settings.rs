// Stored cases of the settings of the NAV300: rules 2.10, 4.12, 4.19 to 4.22 and 5.17 in every mode, each word of a
// request and of a state at the edges of its range and just outside of them, and the dialogue of rule 7.14.

use crate::case_parts;
use crate::format;
use crate::services::*;
use crate::state::{Settings, State};
use crate::stored_requests::{ask, ask_in_all, ask_in_turn};
use crate::stored_revolutions::{turn_of, NEAR_WRAP};
use crate::stored_samples::*;
use crate::stored_states;

type Cases = Vec<Vec<u16>>;

fn with_settings(states: &[State], settings: Settings) -> Vec<State> {
    states.iter().map(|state| State { settings, ..*state }).collect()
}

/// Each value at one end of its range, those that work and those that are stored at different ends.
fn settings_at_ends() -> [Settings; 4] {
    [
        settings_of(0, (1, 0), (100, 127)),
        settings_of(1, (100, 127), (1, 0)),
        settings_of(0, (100, 0), (1, 127)),
        settings_of(1, (1, 127), (100, 0)),
    ]
}

/// Rule 7.14.
fn bench_figure(cases: &mut Cases) {
    let requests: [&[u16]; 12] = [
        &[GET_ROTATE_DIRECTION],
        &[GET_REFLECTOR_CONFIG],
        &[SET_REFLECTOR_CONFIG, 80, 40],
        &[SAVE_PERMANENT],
        &[SET_REFLECTOR_CONFIG, 30, 128],
        &[GET_REFLECTOR_CONFIG],
        &[SET_REFLECTOR_CONFIG, 30, 127],
        &[GET_REFLECTOR_CONFIG],
        &[SET_ROTATE_DIRECTION, 0],
        &[DO_RESET, 0],
        &[GET_REFLECTOR_CONFIG],
        &[GET_ROTATE_DIRECTION],
    ];
    ask_in_turn(cases, &requests);
}

fn rotate_directions(cases: &mut Cases) {
    for rotate_direction in [0, 1] {
        let states = with_settings(&one_of_each_mode(), settings_of(rotate_direction, (73, 41), (26, 117)));
        for direction in [0, 1, 2, 255, 256, 257, 0xFF01, 65535] {
            ask_in_all(cases, &states, &[SET_ROTATE_DIRECTION, direction]);
        }
    }
}

const THRESHOLDS: [u16; 9] = [0, 1, 2, 99, 100, 101, 306, 0xFF01, 65535];
const RADII: [u16; 8] = [0, 1, 126, 127, 128, 256, 0xFF01, 65535];

/// Every threshold with every radius in IDLE; elsewhere each with a good one of the other, and some two that are bad.
fn reflector_configs(cases: &mut Cases) {
    for threshold in THRESHOLDS {
        for radius in RADII {
            ask(cases, &idle(), &[SET_REFLECTOR_CONFIG, threshold, radius]);
        }
    }
    let others = [rotate(), measure(COUNTED_SAMPLE)];
    for threshold in THRESHOLDS {
        ask_in_all(cases, &others, &[SET_REFLECTOR_CONFIG, threshold, 19]);
    }
    for radius in RADII {
        ask_in_all(cases, &others, &[SET_REFLECTOR_CONFIG, 88, radius]);
    }
    for (threshold, radius) in [(0, 128), (101, 256), (306, 65535), (65535, 0xFF01)] {
        ask_in_all(cases, &others, &[SET_REFLECTOR_CONFIG, threshold, radius]);
    }
}

fn reads(cases: &mut Cases) {
    for settings in settings_at_ends() {
        let states = with_settings(&states_of_all_modes(), settings);
        ask_in_all(cases, &states, &[GET_ROTATE_DIRECTION]);
        ask_in_all(cases, &states, &[GET_REFLECTOR_CONFIG]);
    }
}

/// SAVE_PERMANENT where threshold and radius, one of them or neither is another than the stored one.
fn saves(cases: &mut Cases) {
    for stored in [(26, 117), (26, 41), (73, 117), (73, 41)] {
        let states = with_settings(&states_of_all_modes(), settings_of(1, (73, 41), stored));
        ask_in_all(cases, &states, &[SAVE_PERMANENT]);
    }
    for settings in settings_at_ends() {
        ask_in_all(cases, &with_settings(&[idle(), rotate()], settings), &[SAVE_PERMANENT]);
    }
}

fn resets(cases: &mut Cases) {
    for settings in [settings_of(0, (100, 127), (1, 0)), settings_of(1, (73, 41), (26, 117))] {
        let states = with_settings(&one_of_each_mode(), settings);
        for level in [0, 1, 2, 3, 65535] {
            ask_in_all(cases, &states, &[DO_RESET, level]);
        }
    }
}

/// Each of the five words of a state alone: refusal 1 of a request, and of a revolution, where it comes before 7.
fn states_at_edges(cases: &mut Cases) {
    for state in one_of_each_mode() {
        for state_words in stored_states::settings_fields(&state) {
            cases.push(case_parts::request_case(&state_words, buffer(3), &[GET_STATUS]));
        }
    }
    for state in [small_state(0x0001), rotate()] {
        for state_words in stored_states::settings_just_outside(&state) {
            let shots = stored_states::shots_of_words(&state_words);
            cases.push(case_parts::revolution_case(&state_words, &turn_of(shots, 0, 4)));
        }
    }
}

/// Rule 5.17: times, directions and distances of one plan, the same with all these settings; stored_revolutions.rs has
/// them with those of the samples.
fn revolutions(cases: &mut Cases) {
    let mut all = vec![State::fresh().settings, settings_of(0, (50, 0), (50, 0))];
    all.extend(settings_at_ends());
    for mask in [0x0040, 0x0080, 0x0100, 0x0200] {
        for state in all.iter().map(|settings| State { settings: *settings, ..small_state(mask) }) {
            cases.push(case_parts::revolution_case(&format::state_words(&state), &turn_of(90, NEAR_WRAP, 6)));
        }
    }
}

pub fn cases() -> Cases {
    let mut cases = Vec::new();
    bench_figure(&mut cases);
    rotate_directions(&mut cases);
    reflector_configs(&mut cases);
    reads(&mut cases);
    saves(&mut cases);
    resets(&mut cases);
    states_at_edges(&mut cases);
    revolutions(&mut cases);
    cases
}
