// The fixed list of cases that is stored with its lines: all topics one after the other, each case once, then cases that
// try the format itself.

use crate::case_parts;
use crate::format;
use crate::stored_mixed;
use crate::stored_mixed_readings;
use crate::stored_plans;
use crate::stored_readings;
use crate::stored_requests;
use crate::stored_revolutions;
use crate::stored_samples::{buffer, idle, plan_of};
use crate::stored_settings;
use crate::stored_times;
use crate::stored_wrong_counts;
use std::collections::BTreeSet;

/// Cases that lack words or have some too many, and kinds that there are not.
fn cases_of_the_format() -> Vec<Vec<u16>> {
    let mut cases = vec![vec![6], vec![], vec![0], vec![8], vec![13], vec![65535], vec![257], vec![6, 1, 2, 3]];
    for kind in 1..=12 {
        cases.push(vec![kind]);
        cases.push(vec![kind, 1]);
    }
    let state = format::state_words(&idle());
    for length in [1, 2, 3, 4, 19, 35, 36, 37, 43, 44, 45, 46, 47, 48, 49, 50] {
        let mut case = vec![1];
        case.extend(&state[..length]);
        cases.push(case);
    }
    let mut request = case_parts::request_case(&state, buffer(4), &[0x0102]);
    cases.push(request[..request.len() - 1].to_vec());
    cases.push(request[..request.len() - 2].to_vec());
    cases.push(request[..request.len() - 4].to_vec());
    // the buffer's length is the remainder of its word by 8192
    request[1 + state.len()] += 8192;
    cases.push(request);
    let mut plan = case_parts::normal_plan_case(8, &plan_of(&[(3, 800), (3, 1600)]));
    cases.push(plan[..6].to_vec());
    cases.push(plan[..5].to_vec());
    plan.push(9);
    cases.push(plan);
    cases
}

pub fn input() -> Vec<u8> {
    let mut output = Vec::new();
    let topics = [
        stored_requests::cases(),
        stored_wrong_counts::cases(),
        stored_plans::cases(),
        stored_readings::cases(),
        stored_revolutions::cases(),
        stored_times::cases(),
        stored_settings::cases(),
        stored_mixed::cases(),
        stored_mixed_readings::cases(),
        cases_of_the_format(),
    ];
    // where two topics have the same case, it would say nothing more in the second place
    let mut stored = BTreeSet::new();
    for case in topics.iter().flatten() {
        if stored.insert(case) {
            format::push_case(&mut output, case);
        }
    }
    // the length of a case is the remainder of its word by 8192
    for word in [8193, 6, 57345, 6] {
        output.extend_from_slice(&u16::to_be_bytes(word));
    }
    // at the end a case that the end cuts, in the middle of a word: it has no line
    output.extend_from_slice(&[0, 3, 0, 6, 0, 1, 0]);
    output
}
