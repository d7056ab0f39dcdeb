// Stored cases of mixed profiles, the sensor's side: services 1301h and 1302h with every edge of the mask's words (rules 2.11,
// 4.11, 4.23 and 4.24), jobs of each kind before each service that ends or replaces one, states with mixed jobs, revolutions
// with reflectors and refusal 27 (rules 5.1, 5.3 and 5.18 to 5.20), and mixed profiles by plain numbers (rule 5.21).

use crate::case_parts::{self, TurnGiven};
use crate::format;
use crate::mask::{mixed_number, Mask};
use crate::plan::{self, Plan};
use crate::random_plans::all_steps;
use crate::services::{self, *};
use crate::state::{Job, Mode, State};
use crate::stored_revolutions::{turn_of, NEAR_WRAP};
use crate::stored_samples::*;
use crate::stored_states;

type Cases = Vec<Vec<u16>>;

/// As many words as the answer to a mask that is none, and one more.
const ROOM: usize = 5;

fn ask(cases: &mut Cases, state: &State, words: &[u16]) {
    cases.push(case_parts::request_case(&format::state_words(state), buffer(ROOM), words));
}

const JOBS: [Job; 5] = [Job::Absent, COUNTED_SAMPLE, ENDLESS_SAMPLE, COUNTED_MIXED_SAMPLE, ENDLESS_MIXED_SAMPLE];

/// Every service in a state with a mixed job; the new ones before jobs of every kind, and outside of MEASURE.
fn services_and_jobs(cases: &mut Cases) {
    for service in &services::TABLE {
        if [GET_STATUS, GET_CONFIG, SET_SIGNAL, GET_FUNCTION, SAVE_PERMANENT].contains(&service.code) {
            let mut words = vec![service.code];
            words.resize(service.words_in, 0x0010);
            ask(cases, &measure(ENDLESS_MIXED_SAMPLE), &words);
        }
    }
    for job in [COUNTED_MIXED_SAMPLE, ENDLESS_MIXED_SAMPLE] {
        let state = measure(job);
        for words in [
            &[GET_PROFILE, 5, 0x0120][..],
            &[GET_PROFILE, 0, 0xFFFF],
            &[GET_PROFILE, 5, 0xC000],
            &[CANCEL_PROFILE],
            &[DO_RESET, 0],
            &[DO_RESET, 1],
            &[DO_RESET, 2],
            &[DO_RESET, 3],
            &[TRANS_IDLE],
            &[TRANS_ROTATE, 0],
            &[TRANS_ROTATE, 15],
            &[TRANS_ROTATE, 21],
            &[TRANS_MEASURE],
        ] {
            ask(cases, &state, words);
        }
    }
    let new_requests: [&[u16]; 6] = [
        &[GET_MIXED_PROFILE, 6, 0x0011, 0x2001],
        &[GET_MIXED_PROFILE, 0, 0x0000, 0x0001],
        &[GET_MIXED_PROFILE, 65535, 0x0001, 0x4000],
        &[GET_MIXED_PROFILE, 0, 0x0004, 0x0000],
        &[GET_MIXED_PROFILE, 1, 0x0000, 0x0000],
        &[CANCEL_MIXED_PROFILE],
    ];
    for words in new_requests {
        for job in JOBS {
            ask(cases, &measure(job), words);
        }
    }
    for state in [idle(), rotate()] {
        for words in [new_requests[1], new_requests[4]] {
            ask(cases, &state, words);
        }
    }
    // numbers at their edges, and numbers of words that are wrong
    for number in [0, 1, 2, 65534, 65535] {
        ask(cases, &measure(Job::Absent), &[GET_MIXED_PROFILE, number, 0x007D, 0x3FFF]);
    }
    for count in [2, 3, 5] {
        ask(cases, &measure(COUNTED_MIXED_SAMPLE), &[GET_MIXED_PROFILE, 1, 1, 1, 1][..count]);
        ask(cases, &measure(COUNTED_MIXED_SAMPLE), &[CANCEL_MIXED_PROFILE, 1, 1, 1, 1][..count]);
    }
}

/// Each bit of the mask's two words alone and beside bits that may be; some of them together, and none.
fn asked_masks(cases: &mut Cases) {
    let mut asked = |job: Job, mask: u32| {
        let [high, low] = crate::mask::mixed_words(mask);
        let words = [GET_MIXED_PROFILE, 2, high, low];
        cases.push(case_parts::request_case(&format::state_words(&measure(job)), buffer(4), &words));
    };
    for bit in 0..32 {
        asked(COUNTED_MIXED_SAMPLE, 1 << bit);
        asked(COUNTED_SAMPLE, 1 << bit | 0x0001_0001);
    }
    for bit in 18..=22 {
        asked(COUNTED_SAMPLE, 1 << bit | 0x0000_0001);
    }
    for mask in [0, 0x007D_3FFF, 0x007C_3FFF, 0x0001_3FFF, 0xFFFF_FFFF, 0x0001_C001, 0x0000_C000] {
        asked(ENDLESS_MIXED_SAMPLE, mask);
    }
}

/// States with mixed jobs, and words of a state that say nothing.
fn states_at_edges(cases: &mut Cases) {
    for words in stored_states::mixed_job_fields().into_iter().chain(stored_states::mixed_jobs_elsewhere()) {
        cases.push(case_parts::request_case(&words, buffer(3), &[GET_STATUS]));
    }
    for words in stored_states::mixed_masks_of_states() {
        let turn = TurnGiven { reflectors: reflectors(11), ..turn_of(90, 0, 5) };
        cases.push(case_parts::revolution_case(&words, &turn));
    }
}

/// A revolution of 90 shots with so many words of reflectors and so much room.
fn turn(cases: &mut Cases, state: &State, reflector_words: usize, room: usize) {
    let turn = TurnGiven { reflectors: reflectors(reflector_words), ..turn_of(90, NEAR_WRAP, room) };
    cases.push(case_parts::revolution_case(&format::state_words(state), &turn));
}

/// Each bit that may be, alone (18 to 22 beside 16), and all of them.
fn masks(cases: &mut Cases) {
    for bit in 0..14 {
        turn(cases, &small_mixed_state(1 << bit), 22, if (3..13).contains(&bit) { 8 } else { 7 });
    }
    turn(cases, &small_mixed_state(0x0001_0000), 22, 6);
    for bit in 18..=22 {
        turn(cases, &small_mixed_state(1 << bit | 0x0001_0000), 22, if bit < 20 { 14 } else { 8 });
    }
    turn(cases, &small_mixed_state(0x007D_3FFF), 22, 62);
}

/// Lists of reflectors of every length that says something, with each kind of job and without one.
fn lists_of_reflectors(cases: &mut Cases) {
    let mixed = small_mixed_state(0x0001_0000);
    let plain = small_state(0x0001);
    for state in [mixed, plain, State { job: Job::Absent, ..mixed }] {
        for length in [0, 1, 10, 11, 12, 22, 704, 705, 714, 715, 8190] {
            turn(cases, &state, length, 5);
        }
    }
    // the length is the remainder of its word by 8192
    for length in [8192 + 22, 57344 + 704, 8192 + 715] {
        turn(cases, &mixed, length, 5);
    }
    turn(cases, &small_mixed_state(0x0011_0000), 704, 70);
    turn(cases, &small_mixed_state(0x0009_0000), 33, 18);
}

/// Room of every interesting length, and what a job comes to.
fn rooms_and_jobs(cases: &mut Cases) {
    let state = small_mixed_state(0x0045_2003);
    // four words, two of the head, SENSTAT, the count, two reflectors of five
    let length = 19;
    for room in [0, 1, 4, 8, 9, length - 1, length, length + 1, length + 9] {
        turn(cases, &state, 22, room);
    }
    let mask = Mask::Mixed(0x0001_0003);
    for job in [
        Job::Counted { left: 1, mask, sent: 0 },
        Job::Counted { left: 1, mask, sent: 65534 },
        Job::Counted { left: 2, mask, sent: 65533 },
        Job::Counted { left: 65535, mask, sent: 0 },
        Job::Endless { mask, sent: 65534 },
        Job::Endless { mask, sent: 65535 },
    ] {
        turn(cases, &State { counter: 65535, job, ..state }, 11, 8);
    }
}

/// 27 alone and with each of 1, 7, 8 and 6 that can be due as well.
fn refusals_together(cases: &mut Cases) {
    let mixed = small_mixed_state(0x0001_0003);
    let without_job = State { job: Job::Absent, ..mixed };
    let rotating = State { mode: Mode::Rotate, ..without_job };
    for state in [mixed, without_job, rotating] {
        for words in [format::state_words(&state), stored_states::bad_words(&state)] {
            for shots in [90, 91] {
                for (length, room) in [(10, 8), (715, 0)] {
                    let turn = TurnGiven { reflectors: reflectors(length), ..turn_of(shots, 0, room) };
                    cases.push(case_parts::revolution_case(&words, &turn));
                }
            }
        }
    }
    let mut one_list = turn_of(90, 0, 8);
    one_list.reflectors = reflectors(10);
    one_list.echoes.length = 89;
    cases.push(case_parts::revolution_case(&format::state_words(&mixed), &one_list));
}

/// The longest mixed profile: step 2, 5 Hz, eight sectors, 2160 points, 64 reflectors, all bits.
fn longest(cases: &mut Cases) {
    let sectors = [(1, 2), (3, 722), (3, 1442), (1, 1500), (3, 3660), (1, 3662), (3, 4382), (1, 5758)];
    let state = State { step: 2, running_speed: 5, working_plan: plan_of(&sectors), ..small_mixed_state(0x007D_3FFF) };
    let turn = TurnGiven { reflectors: reflectors(704), ..turn_of(2880, NEAR_WRAP, 7250) };
    cases.push(case_parts::revolution_case(&format::state_words(&state), &turn));
}

/// A mixed profile by plain numbers, of three sectors and two points.
struct ByNumbers {
    plan: Plan,
    step: u16,
    speed: u16,
    mask: u32,
    shots: usize,
    reflector_words: usize,
    room: usize,
}

fn by_numbers(mask: u32, reflector_words: usize, room: usize) -> ByNumbers {
    let plan = plan_of(&[(1, 640), (3, 768), (4, 5696)]);
    ByNumbers { plan, step: 64, speed: 10, mask, shots: 90, reflector_words, room }
}

fn ask_by_numbers(cases: &mut Cases, asked: &ByNumbers) {
    let turn = TurnGiven {
        reflectors: reflectors(asked.reflector_words),
        ..turn_of(asked.shots, NEAR_WRAP, asked.room)
    };
    cases.push(case_parts::mixed_profile_case(&asked.plan, asked.step, asked.speed, asked.mask, &turn));
}

fn profiles_by_numbers(cases: &mut Cases) {
    // every bit alone and beside bits that may be: refused, or a profile of one field
    for bit in 0..32 {
        ask_by_numbers(cases, &by_numbers(1 << bit, 11, 8));
        ask_by_numbers(cases, &by_numbers(1 << bit | 0x0001_0001, 11, 12));
    }
    // all but one
    for bit in (0..14).chain(18..23) {
        ask_by_numbers(cases, &by_numbers(0x007D_3FFF & !(1 << bit), 11, 49));
    }
    // every choice of a reflector's fields
    for choice in 0..32 {
        ask_by_numbers(cases, &by_numbers(choice << 18 | 0x0001_0000, 22, 5 + 2 * 11));
    }
    // numbers of sectors, and every step
    for count in 1..=8 {
        let asked = ByNumbers { plan: plan_of_length(count), ..by_numbers(0x0011_38FF, 22, 13 + 7 * count) };
        ask_by_numbers(cases, &asked);
    }
    for step in all_steps() {
        let last = plan::CIRCLE - step;
        let plan = plan_of(&[(3, 2 * step), (1, last - 4 * step), (4, last - 3 * step), (1, last - 2 * step)]);
        let shots = plan::shots_per_revolution(step);
        ask_by_numbers(cases, &ByNumbers { plan, step, speed: 5, shots, ..by_numbers(0x0021_02A8, 11, 23) });
    }
    // room, lists, step, speed and plan that do not fit, and no reflectors
    let whole = by_numbers(0x0045_2000, 22, 17);
    for room in [0, 3, 16, 17, 18, 25] {
        ask_by_numbers(cases, &ByNumbers { room, ..whole });
    }
    for reflector_words in [0, 1, 10, 11, 12, 704, 705, 715] {
        ask_by_numbers(cases, &by_numbers(0x0001_2000, reflector_words, 7));
        ask_by_numbers(cases, &ByNumbers { shots: 91, ..by_numbers(0x0001_2000, reflector_words, 7) });
    }
    for shots in [0, 89, 91] {
        ask_by_numbers(cases, &ByNumbers { shots, ..whole });
    }
    for step in [0, 7, 72, 65535] {
        ask_by_numbers(cases, &ByNumbers { step, ..whole });
    }
    for speed in [0, 4, 5, 20, 21] {
        ask_by_numbers(cases, &ByNumbers { speed, ..whole });
    }
    for sectors in [&[][..], &[(2, 640)], &[(3, 640), (3, 640)], &[(3, 641)], &[(1, 640), (0, 5760)]] {
        ask_by_numbers(cases, &ByNumbers { plan: plan_of(sectors), ..whole });
    }
}

/// Rules 7.15 and 7.16. A list in a case rises evenly, so the second reflector's words go on from the first's here.
fn bench_revolutions(cases: &mut Cases) {
    let list = |length: u16, first: u16| format::ListGiven { length, first, rise: 1 };
    let fresh = State { mode: Mode::Measure, running_speed: 10, ..State::fresh() };
    let mut once = |mask: Option<Mask>, reflector_words: u16, room: usize| {
        let job = mask.map_or(Job::Absent, |mask| Job::Counted { left: 1, mask, sent: 0 });
        let turn = TurnGiven {
            start_time: 1000,
            distances: list(720, 2000),
            echoes: list(720, 3000),
            reflectors: list(reflector_words, 101),
            buffer: buffer(room),
        };
        cases.push(case_parts::revolution_case(&format::state_words(&State { job, ..fresh }), &turn));
    };
    once(Some(Mask::Mixed(0x007D_3FFF)), 22, 2199);
    for reflector_words in [22, 704, 715, 10] {
        once(Some(Mask::Mixed(0x0001_0000)), reflector_words, 5);
    }
    for reflector_words in [704, 715, 10] {
        once(Some(Mask::Plain(0x0001)), reflector_words, 5);
        once(None, reflector_words, 5);
    }
}

/// Rule 7.17.
fn bench_requests(cases: &mut Cases) {
    let fresh = State { mode: Mode::Measure, running_speed: 10, ..State::fresh() };
    for mask in [Mask::Plain(0x0001), Mask::Mixed(mixed_number(0x0001, 0x0000))] {
        let state = State { job: Job::Counted { left: 2, mask, sent: 1 }, ..fresh };
        for words in [
            &[GET_MIXED_PROFILE, 1, 0x0002, 0x0001][..],
            &[GET_MIXED_PROFILE, 1, 0x0000, 0x4001],
            &[GET_MIXED_PROFILE, 0, 0x0004, 0x0000],
            &[GET_MIXED_PROFILE, 3, 0x0001, 0x0000],
            &[CANCEL_PROFILE],
            &[CANCEL_MIXED_PROFILE],
        ] {
            ask(cases, &state, words);
        }
    }
}

pub fn cases() -> Cases {
    let mut cases = Vec::new();
    bench_requests(&mut cases);
    services_and_jobs(&mut cases);
    asked_masks(&mut cases);
    states_at_edges(&mut cases);
    bench_revolutions(&mut cases);
    masks(&mut cases);
    lists_of_reflectors(&mut cases);
    rooms_and_jobs(&mut cases);
    refusals_together(&mut cases);
    longest(&mut cases);
    profiles_by_numbers(&mut cases);
    cases
}
