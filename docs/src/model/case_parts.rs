// Makes the words of cases: one function for each kind of the trials.

use crate::format::{self, ListGiven};
use crate::mask;
use crate::plan::Plan;
use crate::trial;

/// What a revolution's case gives beside the state. A profile by plain numbers has no list of reflectors, a mixed one has.
#[derive(Clone, Copy)]
pub struct TurnGiven {
    pub start_time: u16,
    pub distances: ListGiven,
    pub echoes: ListGiven,
    pub reflectors: ListGiven,
    pub buffer: ListGiven,
}

fn push_list(case: &mut Vec<u16>, list: ListGiven) {
    case.extend([list.length, list.first, list.rise]);
}

fn push_turn(case: &mut Vec<u16>, turn: &TurnGiven, with_reflectors: bool) {
    case.push(turn.start_time);
    push_list(case, turn.distances);
    push_list(case, turn.echoes);
    if with_reflectors {
        push_list(case, turn.reflectors);
    }
    push_list(case, turn.buffer);
}

pub fn request_case(state_words: &[u16], buffer: ListGiven, words: &[u16]) -> Vec<u16> {
    let mut case = vec![trial::REQUEST];
    case.extend(state_words);
    push_list(&mut case, buffer);
    case.extend(words);
    case
}

pub fn revolution_case(state_words: &[u16], turn: &TurnGiven) -> Vec<u16> {
    let mut case = vec![trial::REVOLUTION];
    case.extend(state_words);
    push_turn(&mut case, turn, true);
    case
}

pub fn normal_plan_case(step: u16, plan: &Plan) -> Vec<u16> {
    let mut case = vec![trial::NORMAL_PLAN, step];
    case.extend(format::plan_words(plan));
    case
}

pub fn read_case(words: &[u16]) -> Vec<u16> {
    let mut case = vec![trial::READ];
    case.extend(words);
    case
}

pub fn stretch_case(place: u16, words: &[u16]) -> Vec<u16> {
    let mut case = vec![trial::STRETCH, place];
    case.extend(words);
    case
}

pub fn plain_profile_case(plan: &Plan, step: u16, running_speed: u16, mask: u16, turn: &TurnGiven) -> Vec<u16> {
    let mut case = vec![trial::PLAIN_PROFILE];
    case.extend(format::plan_words(plan));
    case.extend([step, running_speed, mask]);
    push_turn(&mut case, turn, false);
    case
}

pub fn read_mixed_case(words: &[u16]) -> Vec<u16> {
    let mut case = vec![trial::READ_MIXED];
    case.extend(words);
    case
}

pub fn stretch_mixed_case(place: u16, words: &[u16]) -> Vec<u16> {
    let mut case = vec![trial::STRETCH_MIXED, place];
    case.extend(words);
    case
}

pub fn reflector_case(place: u16, words: &[u16]) -> Vec<u16> {
    let mut case = vec![trial::REFLECTOR, place];
    case.extend(words);
    case
}

pub fn all_reflectors_case(words: &[u16]) -> Vec<u16> {
    let mut case = vec![trial::ALL_REFLECTORS];
    case.extend(words);
    case
}

pub fn mixed_profile_case(plan: &Plan, step: u16, running_speed: u16, mask: u32, turn: &TurnGiven) -> Vec<u16> {
    let mut case = vec![trial::MIXED_PROFILE];
    case.extend(format::plan_words(plan));
    case.extend([step, running_speed]);
    case.extend(mask::mixed_words(mask));
    push_turn(&mut case, turn, true);
    case
}
