// Stored cases of revolutions and of profiles by plain numbers: section 5 of the rules, with its
// bench figures, every step, mask bit and number of sectors, the wraps, and refusals 1, 7, 8 and 6 alone and in pairs.

use crate::case_parts::{self, TurnGiven};
use crate::format;
use crate::mask::Mask;
use crate::plan::{self, Plan};
use crate::random_plans::{all_steps, NO_STEPS};
use crate::state::{Job, Mode, State};
use crate::stored_samples::*;
use crate::stored_states;
use crate::trial::{self, Turn};

type Cases = Vec<Vec<u16>>;

/// A start time from which some of the times of a revolution pass the wrap.
pub const NEAR_WRAP: u16 = 65500;

pub fn turn_of(shots: usize, start_time: u16, room: usize) -> TurnGiven {
    TurnGiven {
        start_time,
        distances: distances(shots),
        echoes: echoes(shots),
        reflectors: NO_REFLECTORS,
        buffer: buffer(room),
    }
}

/// The number of words that a revolution of this state writes.
fn profile_length(state: &State) -> usize {
    if !plan::is_angle_step(state.step) {
        return 0;
    }
    let shots = plan::shots_per_revolution(state.step);
    let turn = Turn {
        start_time: 0,
        distances: vec![0; shots],
        echoes: vec![0; shots],
        reflectors: Vec::new(),
        buffer: vec![0; 8191],
    };
    trial::turn_outcome(state, &turn).0.count
}

/// A revolution with lists of N words and two words of buffer behind the profile.
fn turn_once(cases: &mut Cases, state: &State, start_time: u16) {
    let words = format::state_words(state);
    let shots = stored_states::shots_of_words(&words);
    let turn = turn_of(shots, start_time, profile_length(state) + 2);
    cases.push(case_parts::revolution_case(&words, &turn));
}

fn measuring(step: u16, running_speed: u16, sectors: &[(u16, u16)], mask: u16) -> State {
    State {
        step,
        running_speed,
        working_plan: plan_of(sectors),
        job: Job::Counted { left: 2, mask: Mask::Plain(mask), sent: 0 },
        ..measure(Job::Absent)
    }
}

fn bench_figures(cases: &mut Cases) {
    let fresh = State { mode: Mode::Measure, running_speed: 10, ..State::fresh() };
    let with_mask = |mask: u16| State { job: Job::Endless { mask: Mask::Plain(mask), sent: 0 }, ..fresh };
    turn_once(cases, &with_mask(0x0120), 0);
    turn_once(cases, &with_mask(0x38FF), 0);
    let stop_0 = State { working_plan: plan_of(&[(3, 0)]), ..with_mask(0x38FF) };
    turn_once(cases, &stop_0, 0);
    turn_once(cases, &measuring(4, 10, &[(1, 1436), (3, 3360)], 0x38FF), 0);
    turn_once(cases, &measuring(4, 10, &[(1, 1436), (3, 3360)], 0x0220), 0);
    turn_once(cases, &measuring(4, 11, &[(1, 1436), (3, 3360)], 0x38FF), 0);
}

fn masks(cases: &mut Cases) {
    for bit in 0..14 {
        turn_once(cases, &small_state(1 << bit), NEAR_WRAP);
        turn_once(cases, &small_state(0x3FFF & !(1 << bit)), 1000);
    }
    turn_once(cases, &small_state(0x3FFF), 1000);
    // each choice of bits 8 to 10 with bit 5 and without
    for choice in 1..8 {
        turn_once(cases, &small_state(choice << 8), 0);
        turn_once(cases, &small_state(choice << 8 | 0x0020), 0);
    }
    let wide = plan_of(&[(1, 0), (3, 5696)]);
    for mask in [0x0100, 0x0200, 0x0400] {
        turn_once(cases, &State { working_plan: wide, ..small_state(mask) }, 0);
    }
}

fn steps_and_speeds(cases: &mut Cases) {
    // few points, over the 0 direction; then one shot after the other
    for step in all_steps() {
        let last = plan::CIRCLE - step;
        let crossing = [(3, 2 * step), (1, last - 4 * step), (4, last - 3 * step), (1, last - 2 * step)];
        turn_once(cases, &measuring(step, 5, &crossing, 0x3FFF), NEAR_WRAP);
        let neighbours = [(1, 0), (3, step), (4, 2 * step), (3, 3 * step)];
        turn_once(cases, &measuring(step, 5, &neighbours, 0x1AF8), 0);
    }
    for step in NO_STEPS {
        let state = measuring(step, 5, &[(1, 0)], 0x0001);
        turn_once(cases, &state, 0);
    }
    let eight = [(1, 720), (4, 1440), (1, 2160), (4, 2880), (1, 3600), (4, 4320), (1, 5040), (1, 5752)];
    for speed in 5..=20 {
        turn_once(cases, &measuring(8, speed, &eight, 0x1840), 65400);
        turn_once(cases, &measuring(36, speed, &[(1, 36), (3, 72), (1, 2952)], 0x1860), 65535);
    }
}

fn sectors(cases: &mut Cases) {
    for count in 1..=8 {
        let state = State { working_plan: plan_of_length(count), ..small_state(0x3FFF) };
        turn_once(cases, &state, 32000);
        let mut leftovers = state;
        for place in count + 1..8 {
            leftovers.working_plan[place] = plan::Sector { function: 3, stop: 5759 };
        }
        leftovers.job = Job::Endless { mask: Mask::Plain(0x1838), sent: 0 };
        turn_once(cases, &leftovers, 0);
    }
    // all of one function, and the stop that lets sector 0 begin at 0
    for function in [1, 3, 4] {
        for stop in [0, 64, 5632, 5696] {
            let mask = if function == 3 && stop != 0 { 0x18E0 } else { 0x3FFF };
            let state = State { working_plan: plan_of(&[(function, stop)]), ..small_state(mask) };
            turn_once(cases, &state, 0);
        }
    }
    // the limit of functions 3 and 4, just reached and just passed
    turn_once(cases, &measuring(8, 20, &[(3, 4312), (1, 5752)], 0x0021), 0);
    turn_once(cases, &measuring(8, 20, &[(3, 4320), (1, 5752)], 0x0021), 0);
}

fn wraps(cases: &mut Cases) {
    let base = small_state(0x0007);
    let head = Mask::Plain(0x0007);
    for counter in [0, 1, 65534, 65535] {
        turn_once(cases, &State { counter, ..base }, 0);
        turn_once(cases, &State { counter, job: Job::Absent, ..base }, 0);
    }
    for sent in [0, 1, 65533, 65534, 65535] {
        turn_once(cases, &State { job: Job::Endless { mask: head, sent }, ..base }, 0);
    }
    for (left, sent) in
        [(1, 0), (1, 65533), (1, 65534), (1, 65535), (2, 65533), (2, 65534), (65535, 0), (65535, 1), (0, 0)]
    {
        turn_once(cases, &State { job: Job::Counted { left, mask: head, sent }, ..base }, 0);
    }
    let ends = State { counter: 65535, job: Job::Counted { left: 1, mask: Mask::Plain(0x2007), sent: 65534 }, ..base };
    turn_once(cases, &ends, 65535);
    for start_time in [0, 1, 65435, 65436, 65437, 65534, 65535] {
        turn_once(cases, &small_state(0x1840), start_time);
    }
}

/// Lists that are too short and too long, and buffers of every interesting length.
fn lists_and_buffers(cases: &mut Cases) {
    let state = small_state(0x0721);
    let length = profile_length(&state);
    let words = format::state_words(&state);
    for distances_length in [90, 0, 89, 91, 720] {
        for echoes_length in [90, 0, 89, 91] {
            let mut turn = turn_of(90, 0, length);
            turn.distances.length = distances_length;
            turn.echoes.length = echoes_length;
            cases.push(case_parts::revolution_case(&words, &turn));
        }
    }
    for room in [0, 1, 2, 3, length - 1, length, length + 1, length + 40] {
        cases.push(case_parts::revolution_case(&words, &turn_of(90, 0, room)));
    }
    let without_job = format::state_words(&State { job: Job::Absent, ..state });
    for room in [0, 1, 5] {
        cases.push(case_parts::revolution_case(&without_job, &turn_of(90, 0, room)));
    }
    for (first, rise) in [(0, 0), (65535, 0), (65535, 1), (0, 65535), (0x8000, 0x4000)] {
        let mut turn = turn_of(90, 0, length);
        turn.distances.first = first;
        turn.distances.rise = rise;
        turn.echoes.first = rise;
        turn.echoes.rise = first;
        cases.push(case_parts::revolution_case(&words, &turn));
    }
    // lengths are the remainder of their word by 8192
    let mut laps = turn_of(90, 0, length);
    laps.distances.length += 8192;
    laps.echoes.length += 16384;
    laps.buffer.length += 57344;
    cases.push(case_parts::revolution_case(&words, &laps));
}

/// Refusals 1, 7, 8 and 6, alone and with each other one that can apply as well.
fn refusals_together(cases: &mut Cases) {
    let measure_state = small_state(0x0007);
    let without_job = State { job: Job::Absent, ..measure_state };
    let rotate_state = State { mode: Mode::Rotate, ..without_job };
    let idle_state = State { mode: Mode::Idle, running_speed: 0, ..without_job };
    for state in [measure_state, without_job, rotate_state, idle_state] {
        for words in [format::state_words(&state), stored_states::bad_words(&state)] {
            for shots in [90, 91] {
                for room in [8, 0] {
                    cases.push(case_parts::revolution_case(&words, &turn_of(shots, 0, room)));
                }
            }
        }
    }
}

/// Every field of the state at its edges and just outside of them, alone.
fn states_at_edges(cases: &mut Cases) {
    let mut all = stored_states::plain_fields(&small_state(0x0001), &[0, 2, 3, 7]);
    all.extend(stored_states::mode_fields().into_iter().filter(|words| stored_states::is_measure(words)));
    all.extend(stored_states::measure_plans());
    for words in all {
        let shots = stored_states::shots_of_words(&words);
        cases.push(case_parts::revolution_case(&words, &turn_of(shots, 0, 4)));
    }
}

/// The longest profile: step 2, 5 Hz, eight sectors, 2160 points, all bits.
fn largest(cases: &mut Cases) {
    let sectors = [(1, 2), (3, 722), (3, 1442), (1, 1500), (3, 3660), (1, 3662), (3, 4382), (1, 5758)];
    let state = measuring(2, 5, &sectors, 0x3FFF);
    turn_once(cases, &state, NEAR_WRAP);
}

fn plain_profiles(cases: &mut Cases) {
    let plan = plan_of(&[(1, 640), (3, 768), (4, 5696)]);
    let mut once = |plan: &Plan, step: u16, speed: u16, mask: u16, start_time: u16, shots: usize, room: usize| {
        let turn = turn_of(shots, start_time, room);
        cases.push(case_parts::plain_profile_case(plan, step, speed, mask, &turn));
    };
    for mask in [0, 1, 2, 0x0120, 0x3FFF, 0x2000, 0x4000, 0x8000, 0xC001, 0xFFFF] {
        once(&plan, 64, 10, mask, NEAR_WRAP, 90, 40);
    }
    for speed in [0, 4, 5, 11, 20, 21, 65535] {
        once(&plan, 64, speed, 0x1840, 0, 90, 20);
    }
    for step in [0, 1, 2, 7, 32, 64, 72, 65535] {
        once(&plan, step, 5, 0x18F8, 0, if step == 2 { 2880 } else { 5760 / usize::from(step.clamp(1, 64)) }, 40);
    }
    for (shots, room) in [(90, 33), (90, 34), (90, 35), (90, 50), (89, 40), (91, 40), (90, 0), (0, 0)] {
        once(&plan, 64, 10, 0x3FFD, 0, shots, room);
    }
    once(&plan_of(&[]), 64, 10, 0x3FFF, 0, 90, 10);
    once(&plan_of(&[(2, 640)]), 64, 10, 0x3FFF, 0, 90, 10);
    once(&plan_of(&[(3, 5760)]), 64, 10, 0x3FFF, 0, 90, 10);
    once(&plan_of(&[(3, 640), (3, 640)]), 64, 10, 0x3FFF, 0, 90, 10);
    once(&plan_of(&[(3, 641)]), 64, 10, 0x3FFF, 0, 90, 10);
    // the stored plan is the given one as well: leftovers out of range
    once(&plan_of(&[(1, 640), (0, 0), (5, 0)]), 64, 10, 0x0001, 0, 90, 10);
    once(&plan_of(&[(1, 640), (0, 5760)]), 64, 10, 0x0001, 0, 90, 10);
    once(&plan_of(&[(1, 640), (0, 5759), (3, 1)]), 64, 10, 0x0001, 0, 90, 10);
}

pub fn cases() -> Cases {
    let mut cases = Vec::new();
    bench_figures(&mut cases);
    masks(&mut cases);
    steps_and_speeds(&mut cases);
    sectors(&mut cases);
    wraps(&mut cases);
    lists_and_buffers(&mut cases);
    refusals_together(&mut cases);
    states_at_edges(&mut cases);
    largest(&mut cases);
    plain_profiles(&mut cases);
    cases
}
