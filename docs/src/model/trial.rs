// The calls of the rules as the trials ask them: what a case gives to which call, and the words of its line.

use crate::format::{self, CaseWords};
use crate::mask::Mask;
use crate::mixed_reader;
use crate::plan::{self, Plan};
use crate::reader;
use crate::revolution::{self, Measured};
use crate::services;
use crate::state::{Job, Mode, Outcome, State};

pub const REQUEST: u16 = 1;
pub const REVOLUTION: u16 = 2;
pub const NORMAL_PLAN: u16 = 3;
pub const READ: u16 = 4;
pub const STRETCH: u16 = 5;
pub const FRESH_STATE: u16 = 6;
pub const PLAIN_PROFILE: u16 = 7;
pub const READ_MIXED: u16 = 8;
pub const STRETCH_MIXED: u16 = 9;
pub const REFLECTOR: u16 = 10;
pub const ALL_REFLECTORS: u16 = 11;
pub const MIXED_PROFILE: u16 = 12;

/// What a revolution is given beside the state.
pub struct Turn {
    pub start_time: u16,
    pub distances: Vec<u16>,
    pub echoes: Vec<u16>,
    pub reflectors: Vec<u16>,
    pub buffer: Vec<u16>,
}

pub enum Call {
    Request { state: State, buffer: Vec<u16>, words: Vec<u16> },
    Revolution { state: State, turn: Turn },
    NormalPlan { step: u16, plan: Plan },
    Read { words: Vec<u16> },
    Stretch { place: u16, words: Vec<u16> },
    FreshState,
    PlainProfile { state: State, turn: Turn },
    ReadMixed { words: Vec<u16> },
    StretchMixed { place: u16, words: Vec<u16> },
    Reflector { place: u16, words: Vec<u16> },
    AllReflectors { words: Vec<u16> },
    MixedProfile { state: State, turn: Turn },
}

/// What kinds 2 and 12 are given behind the state or the mask; kind 7 has no list of reflectors.
fn turn_of_case(words: &mut CaseWords, with_reflectors: bool) -> Turn {
    let start_time = words.word();
    let distances = words.list();
    let echoes = words.list();
    let reflectors = if with_reflectors { words.list() } else { Vec::new() };
    let buffer = words.list();
    Turn { start_time, distances, echoes, reflectors, buffer }
}

pub fn call_of_case(case: &[u16]) -> Call {
    let mut words = CaseWords::new(case);
    match words.word() {
        REQUEST => {
            let state = words.state();
            let buffer = words.list();
            Call::Request { state, buffer, words: words.others() }
        }
        REVOLUTION => {
            let state = words.state();
            Call::Revolution { state, turn: turn_of_case(&mut words, true) }
        }
        NORMAL_PLAN => {
            let step = words.word();
            Call::NormalPlan { step, plan: words.plan() }
        }
        READ => Call::Read { words: words.others() },
        STRETCH => {
            let place = words.word();
            Call::Stretch { place, words: words.others() }
        }
        PLAIN_PROFILE => {
            let plan = words.plan();
            let step = words.word();
            let running_speed = words.word();
            let mask = words.word();
            let state = profile_state(plan, step, running_speed, Mask::Plain(mask));
            Call::PlainProfile { state, turn: turn_of_case(&mut words, false) }
        }
        READ_MIXED => Call::ReadMixed { words: words.others() },
        STRETCH_MIXED => {
            let place = words.word();
            Call::StretchMixed { place, words: words.others() }
        }
        REFLECTOR => {
            let place = words.word();
            Call::Reflector { place, words: words.others() }
        }
        ALL_REFLECTORS => Call::AllReflectors { words: words.others() },
        MIXED_PROFILE => {
            let plan = words.plan();
            let step = words.word();
            let running_speed = words.word();
            let high = words.word();
            let low = words.word();
            let state = profile_state(plan, step, running_speed, Mask::mixed(high, low));
            Call::MixedProfile { state, turn: turn_of_case(&mut words, true) }
        }
        // "Another kind is answered as kind 6."
        _ => Call::FreshState,
    }
}

/// What kinds 7 and 12 turn (rules 5.9 and 5.21).
pub fn profile_state(plan: Plan, step: u16, running_speed: u16, mask: Mask) -> State {
    State {
        step,
        working_plan: plan,
        stored_plan: plan,
        running_speed,
        mode: Mode::Measure,
        job: Job::Counted { left: 1, mask, sent: 0 },
        ..State::fresh()
    }
}

/// The revolution of a turn: its outcome and the buffer after it.
pub fn turn_outcome(state: &State, turn: &Turn) -> (Outcome, Vec<u16>) {
    let mut buffer = turn.buffer.clone();
    let measured = Measured {
        start_time: turn.start_time,
        distances: &turn.distances,
        echoes: &turn.echoes,
        reflectors: &turn.reflectors,
    };
    let outcome = revolution::revolution(state, &measured, &mut buffer);
    (outcome, buffer)
}

fn outcome_words(outcome: &Outcome, buffer: &[u16]) -> Vec<u16> {
    let mut words = vec![outcome.count as u16];
    words.extend(format::state_words(&outcome.state));
    words.extend(buffer);
    words
}

/// The refusal and the words of a case's line.
pub fn answer(call: &Call) -> (u16, Vec<u16>) {
    match call {
        Call::Request { state, buffer, words } => {
            let mut buffer = buffer.clone();
            let outcome = services::request(state, words, &mut buffer);
            (outcome.refusal, outcome_words(&outcome, &buffer))
        }
        Call::Revolution { state, turn } => {
            let (outcome, buffer) = turn_outcome(state, turn);
            (outcome.refusal, outcome_words(&outcome, &buffer))
        }
        Call::NormalPlan { step, plan } => {
            let (refusal, normal) = plan::normal_plan(*step, plan);
            (refusal, format::plan_words(&normal))
        }
        Call::Read { words } => {
            let (refusal, reading) = reader::read(words);
            (refusal, format::reading_words(&reading))
        }
        Call::Stretch { place, words } => {
            (reader::stretch_refusal(words, *place), reader::stretch(words, *place).to_vec())
        }
        Call::FreshState => (0, format::state_words(&State::fresh())),
        Call::ReadMixed { words } => {
            let (refusal, reading) = mixed_reader::read(words);
            (refusal, format::mixed_reading_words(&reading))
        }
        Call::StretchMixed { place, words } => {
            (mixed_reader::stretch_refusal(words, *place), mixed_reader::stretch(words, *place).to_vec())
        }
        Call::Reflector { place, words } => {
            (mixed_reader::reflector_refusal(words, *place), mixed_reader::reflector(words, *place).to_vec())
        }
        // its refusal is "the reading's"
        Call::AllReflectors { words } => (mixed_reader::read(words).0, mixed_reader::all_reflectors(words).to_vec()),
        // "The refusal of kinds 7 and 12 is 0: those calls hand back the count alone."
        Call::PlainProfile { state, turn } | Call::MixedProfile { state, turn } => {
            let (outcome, buffer) = turn_outcome(state, turn);
            let mut words = vec![outcome.count as u16];
            words.extend(buffer);
            (0, words)
        }
    }
}
