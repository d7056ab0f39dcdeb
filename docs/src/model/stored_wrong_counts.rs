// Stored cases of requests with a wrong number of words: the answers of rule 4.25, in every mode and at both edges of their
// room, and number 4 of all other services; and the dialogue of rule 7.19.

use crate::case_parts;
use crate::format;
use crate::services::{self, *};
use crate::state::{Job, State};
use crate::stored_requests::{ask, ask_in_all, ask_in_turn, working_words, ROOM};
use crate::stored_samples::*;
use crate::stored_states;

type Cases = Vec<Vec<u16>>;

/// The services that answer.
const ANSWERING: [u16; 4] = [SET_SIGNAL, SET_FUNCTION, GET_FUNCTION, GET_PROFILE];

/// Words that would change the state, or what is answered, if they were looked at.
fn words_of(code: u16, count: usize) -> Vec<u16> {
    let mut words = working_words(code);
    words.resize(count, 1);
    words
}

/// A state in which the service is there.
fn state_for(code: u16) -> State {
    if code == GET_PROFILE {
        measure(COUNTED_SAMPLE)
    } else {
        rotate()
    }
}

fn ask_with_room(cases: &mut Cases, state: &State, room: usize, words: &[u16]) {
    cases.push(case_parts::request_case(&format::state_words(state), buffer(room), words));
}

/// Rule 7.19.
fn bench_figure(cases: &mut Cases) {
    let requests: [&[u16]; 16] = [
        &[SET_SIGNAL],
        &[SET_SIGNAL, 0x00F3, 0x0000],
        &[GET_SIGNAL],
        &[SET_FUNCTION, 0, 1, 0x0B40],
        &[GET_FUNCTION],
        &[GET_FUNCTION, 0, 0],
        &[GET_FUNCTION, 0],
        &[GET_PROFILE],
        &[CANCEL_PROFILE, 0],
        &[TRANS_ROTATE, 0],
        &[TRANS_MEASURE],
        &[GET_PROFILE, 0, 0x0001],
        &[GET_PROFILE],
        &[GET_PROFILE, 5, 0x0002, 0],
        &[SET_FUNCTION, 0],
        &[CANCEL_PROFILE, 0],
    ];
    ask_in_turn(cases, &requests);
}

/// One to seven words, the right number among them, in every mode, with just the room for the answer and with a word less.
fn counts_modes_and_rooms(cases: &mut Cases) {
    for code in ANSWERING {
        for words in (1..=7).map(|count| words_of(code, count)) {
            let answer = services::request(&state_for(code), &words, &mut [0; ROOM]).count;
            for state in one_of_each_mode() {
                ask_with_room(cases, &state, answer, &words);
                // a job that starts has no word in answer
                if answer > 0 {
                    ask_with_room(cases, &state, answer - 1, &words);
                }
            }
        }
    }
}

/// GET_PROFILE leaves every job as it is, and starts none.
fn jobs(cases: &mut Cases) {
    for job in [ENDLESS_SAMPLE, COUNTED_MIXED_SAMPLE] {
        for count in 1..=7 {
            ask_with_room(cases, &measure(job), 1, &words_of(GET_PROFILE, count));
        }
    }
    for job in [Job::Absent, ENDLESS_MIXED_SAMPLE] {
        for count in [1, 2, 4] {
            ask_with_room(cases, &measure(job), 1, &words_of(GET_PROFILE, count));
        }
    }
}

/// Two requests that differ in the words behind the code alone; the buffer's words behind the answer stay.
fn any_words(cases: &mut Cases) {
    for code in ANSWERING {
        for word in [0, 65535] {
            let mut words = vec![word; working_words(code).len() + 1];
            words[0] = code;
            ask(cases, &state_for(code), &words);
        }
    }
}

/// An empty buffer is 6, and a state out of its ranges 1 with whatever else may be wrong.
fn refusals_before_and_behind(cases: &mut Cases) {
    for code in ANSWERING {
        let other = if code == GET_PROFILE { rotate() } else { measure(COUNTED_SAMPLE) };
        for count in [1, working_words(code).len() + 1] {
            let words = words_of(code, count);
            ask_with_room(cases, &state_for(code), 0, &words);
            cases.push(case_parts::request_case(&stored_states::bad_words(&state_for(code)), buffer(4), &words));
            cases.push(case_parts::request_case(&stored_states::bad_words(&other), buffer(0), &words));
        }
    }
}

/// All other services, with both numbers of words next to the right one: 4 in every mode, before 5.
fn refused(cases: &mut Cases) {
    for service in services::TABLE.iter().filter(|service| !ANSWERING.contains(&service.code)) {
        for count in [service.words_in - 1, service.words_in + 1] {
            // no word at all is 2
            if count > 0 {
                ask_in_all(cases, &one_of_each_mode(), &words_of(service.code, count));
            }
        }
    }
}

pub fn cases() -> Cases {
    let mut cases = Vec::new();
    bench_figure(&mut cases);
    counts_modes_and_rooms(&mut cases);
    jobs(&mut cases);
    any_words(&mut cases);
    refusals_before_and_behind(&mut cases);
    refused(&mut cases);
    cases
}
